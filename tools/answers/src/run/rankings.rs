//! Rankings of one subset by its counts, and ranks of subsets.

use crate::Draws;

/// The counts of a subset's bins; the buffers have a few entries more than they need, or fewer.
#[derive(Clone, Debug)]
pub struct Ranking {
    pub k: usize,
    pub counts: Vec<u32>,
    pub order: usize,
}

impl Ranking {
    /// Counts below a small bound, so that many are equal; seldom a wide subset, and seldom too short a buffer.
    pub fn draw(draws: &mut Draws) -> Ranking {
        let widest = match draws.below(2000) {
            0 => 20,
            1..=9 => 16,
            10..=99 => 12,
            _ => 7,
        };
        let k = if draws.below(50) == 0 { draws.below(24) } else { 1 + draws.below(widest) };
        let m = 1_usize << k.min(20);
        let bound: u64 = [1, 2, 3, 5, 17, 1000, 16_777_216, 1 << 32][draws.below(8)];
        let short = if draws.below(40) == 0 { 1 } else { 0 };
        let counts = (0..m - short + draws.below(3)).map(|_| (draws.next() % bound) as u32).collect();
        let short = if draws.below(40) == 0 { 1 } else { 0 };
        Ranking { k, counts, order: m - short + draws.below(3) }
    }

    /// The refusal of a call that is lent these buffers.
    pub fn refusal(&self) -> u32 {
        let m = 1_usize << self.k.min(20);
        if self.k == 0 || self.k > 20 {
            2
        } else if self.counts.len() < m || self.order < m {
            7
        } else if self.counts[..m].iter().map(|&count| count as u64).sum::<u64>() > u32::MAX as u64 {
            26
        } else {
            0
        }
    }
}

/// The bits of a subset, or of none.
#[derive(Clone, Debug)]
pub struct Rank {
    pub block_size: usize,
    pub bits: Vec<u32>,
}

impl Rank {
    pub fn draw(draws: &mut Draws) -> Rank {
        let block_size = match draws.below(20) {
            0 => draws.below(5000),
            1..=9 => 8 * (1 + draws.below(8)),
            _ => 8 * (1 + draws.below(512)),
        };
        let widest = if block_size > 200 { 4 } else { 20 };
        let k = if draws.below(30) == 0 { draws.below(24) } else { 1 + draws.below(widest.min(block_size.max(1))) };
        let mut bits: Vec<u32> = if k <= block_size { draws.subset(block_size, k) } else { (0..k).collect() }
            .into_iter()
            .map(|bit| bit as u32)
            .collect();
        if k > 0 && draws.below(20) == 0 {
            let at = draws.below(k);
            bits[at] = match draws.below(3) {
                0 => bits[draws.below(k)],
                1 => block_size as u32 + draws.below(2) as u32,
                _ => draws.next() as u32,
            };
        }
        Rank { block_size, bits }
    }
}
