//! The exact chance of so many positive blocks, over whole numbers of any size.

use std::cmp::Ordering;

/// A whole number in digits of 32 bits, the lowest first and the highest not 0.
#[derive(Clone, Debug, PartialEq, Eq)]
pub struct Whole(Vec<u32>);

impl Whole {
    pub fn of(number: u64) -> Whole {
        Whole(vec![number as u32, (number >> 32) as u32]).trimmed()
    }

    fn trimmed(mut self) -> Whole {
        while self.0.last() == Some(&0) {
            self.0.pop();
        }
        self
    }

    pub fn times(mut self, by: u64) -> Whole {
        let mut carry = 0_u128;
        for digit in &mut self.0 {
            carry += *digit as u128 * by as u128;
            *digit = carry as u32;
            carry >>= 32;
        }
        self.0.extend([carry as u32, (carry >> 32) as u32]);
        self.trimmed()
    }

    /// Divided by a number below 2^32 that leaves no rest.
    fn over(mut self, by: u64) -> Whole {
        let mut rest = 0;
        for digit in self.0.iter_mut().rev() {
            let part = rest << 32 | *digit as u64;
            *digit = (part / by) as u32;
            rest = part % by;
        }
        assert_eq!(rest, 0);
        self.trimmed()
    }

    fn plus(mut self, other: &Whole) -> Whole {
        self.0.resize(self.0.len().max(other.0.len()) + 1, 0);
        let mut carry = 0;
        for (i, digit) in self.0.iter_mut().enumerate() {
            carry += *digit as u64 + other.0.get(i).map_or(0, |&digit| digit as u64);
            *digit = carry as u32;
            carry >>= 32;
        }
        self.trimmed()
    }

    /// Times 2^bits.
    pub fn shifted(self, bits: usize) -> Whole {
        let Whole(digits) = self.times(1 << (bits % 32));
        Whole([vec![0; bits / 32], digits].concat()).trimmed()
    }
}

impl PartialOrd for Whole {
    fn partial_cmp(&self, other: &Whole) -> Option<Ordering> {
        Some(self.0.len().cmp(&other.0.len()).then_with(|| self.0.iter().rev().cmp(other.0.iter().rev())))
    }
}

/// The chance of at least c positive blocks among n, each positive with probability d / 2^k, times 2^(k n): the sum of C(n, j) d^j (2^k - d)^(n - j) from c on,
/// each term made of the one above it.
pub fn binomial_sum(n: u64, c: u64, k: u64, d: u64) -> Whole {
    let others = (1 << k) - d;
    let mut term = (0..n).fold(Whole::of(1), |power, _| power.times(d));
    let mut sum = Whole::of(0);
    for j in (c..=n).rev() {
        sum = sum.plus(&term);
        if j > c {
            term = term.times(j * others).over((n - j + 1) * d);
        }
    }
    sum
}
