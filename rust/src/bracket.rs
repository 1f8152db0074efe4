use crate::calls;
use crate::refusal::{accepted, Refusal};

/// Both ends of a chance, in units of 2^-40: the exact chance times 2^40 is at least `low` and at most `high`. Where the chance is close to 1, `high` may be
/// above 2^40.
#[derive(Clone, Copy, Debug, PartialEq, Eq)]
pub struct Bracket {
    pub low: u64,
    pub high: u64,
}

impl Bracket {
    /// Of at least `c` positives among `n` blocks, at most 4,096, each of them positive with probability `d` / 2^`k`. [`Finding::bracket`] takes the four
    /// numbers from an evaluation.
    ///
    /// ```
    /// use jimrawel::{Bracket, Refusal};
    /// // At least 3 of 4 at one half: 5 / 16.
    /// let bracket = Bracket::of(4, 3, 2, 2)?;
    /// assert_eq!((bracket.low, bracket.high), (343_597_383_680, 343_597_383_694));
    /// assert_eq!(bracket.ends().0, 0.3125);
    /// assert_eq!(Bracket::of(4, 5, 2, 2), Err(Refusal::Counts));
    /// # Ok::<(), Refusal>(())
    /// ```
    ///
    /// [`Finding::bracket`]: crate::Finding::bracket
    pub fn of(n: usize, c: usize, k: usize, d: usize) -> Result<Bracket, Refusal> {
        // More than 4,096 blocks are refused before the scratch is looked at.
        let entries = if n <= 4096 { n + 1 } else { 0 };
        let (mut low, mut high) = (0, 0);
        accepted(calls::bracket(n, c, k, d, &mut vec![0; entries], &mut low, &mut high))?;
        Ok(Bracket { low, high })
    }

    /// The two ends as probabilities. Nothing is rounded: both numbers are below 2^53, and 2^40 is a power of two.
    pub fn ends(&self) -> (f64, f64) {
        let unit = (1_u64 << 40) as f64;
        (self.low as f64 / unit, self.high as f64 / unit)
    }
}
