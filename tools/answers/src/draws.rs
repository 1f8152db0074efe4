//! A fixed stream of pseudorandom numbers (splitmix64), so that every run writes the same cases.

pub struct Draws(u64);

impl Draws {
    pub fn new(seed: u64) -> Draws {
        Draws(seed)
    }

    pub fn next(&mut self) -> u64 {
        self.0 = self.0.wrapping_add(0x9E37_79B9_7F4A_7C15);
        let mut z = self.0;
        z = (z ^ (z >> 30)).wrapping_mul(0xBF58_476D_1CE4_E5B9);
        z = (z ^ (z >> 27)).wrapping_mul(0x94D0_49BB_1331_11EB);
        z ^ (z >> 31)
    }

    /// A number below `end`.
    pub fn below(&mut self, end: usize) -> usize {
        (self.next() % end as u64) as usize
    }

    pub fn bytes(&mut self, len: usize) -> Vec<u8> {
        (0..len).map(|_| self.next() as u8).collect()
    }

    /// The numbers below `end` in a drawn order.
    pub fn shuffled(&mut self, end: usize) -> Vec<usize> {
        let mut order: Vec<usize> = (0..end).collect();
        for i in (1..end).rev() {
            order.swap(i, self.below(i + 1));
        }
        order
    }

    /// A strictly increasing list of `k` numbers below `end`.
    pub fn subset(&mut self, end: usize, k: usize) -> Vec<usize> {
        let mut bits = Vec::new();
        while bits.len() < k {
            let bit = self.below(end);
            if !bits.contains(&bit) {
                bits.push(bit);
            }
        }
        bits.sort();
        bits
    }
}
