//! Findings to be checked and evaluated, sound and unsound ones; splits; sweep plans.

use super::no_bit_order;
use crate::{recording, Draws};

/// A finding's numbers but z, its order, the data, and how many entries more than enough the scratch has: -1 is one too few.
#[derive(Clone, Debug)]
pub struct Judged {
    pub block_size: usize,
    pub width: usize,
    /// Entries past these are 0.
    pub bits: Vec<u32>,
    pub division: u32,
    pub order: Vec<u32>,
    pub bytes: Vec<u8>,
    pub scratch: isize,
    /// Whether the finding's bit order has the low bit first.
    pub low_first: bool,
    /// A number that stands for no bit order, in its place.
    pub mark: Option<u64>,
}

impl Judged {
    pub fn draw(draws: &mut Draws) -> Judged {
        let block_size = match draws.below(10) {
            0..=5 => 8,
            6..=8 => 8 * (1 + draws.below(8)),
            _ => 8 * (1 + draws.below(512)),
        };
        let widest = if draws.below(500) == 0 { 16 } else { 6 };
        let width = 1 + draws.below(widest.min(block_size));
        let m = 1 << width;
        let bits = draws.subset(block_size, width).into_iter().map(|bit| bit as u32).collect();
        let (kind, blocks, rest) = (draws.below(6), draws.below(40), draws.below(block_size / 8));
        let blocks = if draws.below(8) == 0 { 0 } else { blocks };
        let bytes = recording(draws, kind, blocks * (block_size / 8) + rest);
        let mut judged = Judged {
            block_size,
            width,
            bits,
            division: 1 + draws.below(m - 1) as u32,
            order: draws.shuffled(m).into_iter().map(|bin| bin as u32).collect(),
            bytes,
            scratch: draws.below(3) as isize,
            low_first: false,
            mark: None,
        };
        while draws.below(3) == 0 {
            judged.spoil(draws);
        }
        judged
    }

    /// The same in a drawn bit order, half of them low first; one of a hundred has none.
    pub fn in_bit_order(self, draws: &mut Draws) -> Judged {
        Judged { low_first: draws.below(2) == 1, mark: no_bit_order(draws), ..self }
    }

    /// The number of the bit order in the record.
    pub fn bit_order(&self) -> u64 {
        self.mark.unwrap_or(self.low_first as u64)
    }

    /// One thing made unsound, or nearly.
    fn spoil(&mut self, draws: &mut Draws) {
        let m = 1_u32 << self.width.min(20);
        let entry = draws.below(self.order.len().max(1));
        match draws.below(9) {
            0 => self.block_size = [0, 4, 12, 4096, 4104, 1 << 40][draws.below(6)],
            1 => self.width = [0, 1, 2, 20, 21, 1 << 40][draws.below(6)],
            2 => self.bits[0] = draws.below(self.block_size.min(5000) + 2) as u32,
            3 => *self.bits.last_mut().unwrap() = self.block_size.min(5000) as u32,
            4 => {
                self.order.pop();
            }
            5 => self.order.push(0),
            6 if !self.order.is_empty() => self.order[entry] = [0, m - 1, m, u32::MAX][draws.below(4)],
            7 => self.division = [0, m - 1, m, u32::MAX][draws.below(4)],
            _ => self.scratch = -1,
        }
    }

    /// The entries of the scratch that is lent.
    pub fn lent(&self) -> usize {
        ((1_isize << self.width.min(20)) + self.scratch) as usize
    }
}

#[derive(Clone, Debug)]
pub struct Split {
    pub block_size: usize,
    pub training: bool,
    pub raw: Vec<u8>,
}

impl Split {
    pub fn draw(draws: &mut Draws) -> Split {
        let block_size = if draws.below(20) == 0 { draws.below(6000) } else { 8 * (1 + draws.below(64)) };
        let len = draws.below(9) * (block_size / 8) + draws.below(block_size / 8 + 1);
        Split { block_size, training: draws.below(2) == 0, raw: draws.bytes(len) }
    }
}

#[derive(Clone, Debug)]
pub struct Plan {
    pub block_size: usize,
    pub data_size: usize,
}

impl Plan {
    pub fn draw(draws: &mut Draws) -> Plan {
        let block_size = if draws.below(20) == 0 { draws.below(6000) } else { 8 * (1 + draws.below(512)) };
        let near: usize = [1, 10_000_000, 2_000_000_000, 1 << 40][draws.below(4)];
        Plan { block_size, data_size: near + draws.below(3) - 1 }
    }
}
