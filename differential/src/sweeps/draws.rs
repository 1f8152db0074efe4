//! Recordings to be swept and the calls that sweep them, drawn: recordings about the planned block sizes and about 4,096 testing blocks long, levels at the ends
//! of the brackets, buffers that are just enough and too short.

use super::{bins_of, Model, Sweep, CERTAIN, EVALUATED, NUMBERS};
use crate::recordings::store_size;
use answers::{configurations, valid, Draws};

/// How many bins the reference may count in the searches of most recordings, about a quarter of a second. Where a pair has more, the recording is cut so that the
/// pair is skipped, but for one of `RARE`.
const LIGHT: usize = 3_000_000;
const RARE: usize = 4;

/// Sweeps of one recording, so that the reference searches it once for all of them; fewer where ours take long, too.
const CALLS: usize = 8;
const LONG_CALLS: usize = 4;

impl Sweep {
    /// A recording, in a bit order, with a level and buffers that are refused.
    pub(super) fn recorded(draws: &mut Draws) -> Sweep {
        let block_size = match draws.below(20) {
            0..=3 => 8 << draws.below(4),
            4..=8 => 128 << draws.below(3),
            9..=11 => 264 + 8 * draws.below(32),
            12..=15 => 8 * (1 + draws.below(64)),
            16..=17 => 8 * (1 + draws.below(512)),
            18 => 4096,
            _ => [0, 4, 7, 12, 4095, 4097, 4104, 1 << 40][draws.below(8)],
        };
        let pairs = configurations(if valid(block_size) { block_size } else { 8 }, 1);
        let (size, _) = pairs[draws.below(pairs.len())];
        let mut len = match draws.below(24) {
            0 => draws.below(4),
            1..=8 => ((1 + draws.below(6)) * (size / 8) + draws.below(3) - 1).max(2),
            9..=12 => 100 + draws.below(900),
            13..=16 => 1000 + draws.below(8000),
            // About 4,096 testing blocks of this size where that is not too long, or of one byte.
            17..=18 if [256, 512].contains(&size) => (8189 + draws.below(8)) * (size / 8) + draws.below(size / 8),
            _ => 8189 + draws.below(8),
        };
        if let Some((heavy, _)) = pairs.iter().find(|&&(size, k)| bins_of(size, k) > LIGHT) {
            // What is searched long is short, or skipped.
            len = len.min(if draws.below(RARE) == 0 { 9000 } else { (heavy / 4).saturating_sub(1 + draws.below(4)) });
        }
        let bytes = bytes_of(draws, size, len);
        Sweep { bytes, block_size, low_first: draws.below(2) == 1, level: 0, words: 0, store: 0, bins: 0, order: 0, scratch: 0, entries: 0, swept: 0 }
    }

    pub(super) fn calls(&self, model: &Model) -> usize {
        let long = (0..model.pairs.len()).any(|i| model.bins(i) > LIGHT && model.halves(i).is_some());
        if long { LONG_CALLS } else { CALLS }
    }

    /// The same recording with a level and buffers.
    pub(super) fn called(&self, draws: &mut Draws, model: &mut Model) -> Sweep {
        let mut sweep = Sweep { level: level(draws, model), ..self.clone() };
        let needs: Vec<Need> = (0..model.pairs.len()).filter_map(|i| Need::of(model, i)).collect();
        let most = |need: fn(&Need) -> usize| needs.iter().map(need).max().unwrap_or(0);
        let mut slack = || if draws.below(2) == 0 { 0 } else { draws.below(70) };
        sweep.words = most(|need| need.words) + slack();
        sweep.bins = most(|need| need.bins) + slack();
        sweep.order = most(|need| need.bins) + slack();
        sweep.scratch = most(|need| need.bins) + slack();
        sweep.entries = most(|need| need.entries) + slack();
        sweep.swept = NUMBERS + slack() / 30;
        let stored = most(|need| need.store) + slack();
        sweep.store = match draws.below(6) {
            0..=1 => 0,
            2 if !needs.is_empty() => needs[draws.below(needs.len())].store,
            3 if !needs.is_empty() => needs[draws.below(needs.len())].store - 1,
            _ => stored,
        };
        while draws.below(4) == 0 {
            sweep.spoil(draws, &needs);
        }
        sweep
    }

    /// One buffer that is too short for some pair.
    fn spoil(&mut self, draws: &mut Draws, needs: &[Need]) {
        if needs.is_empty() {
            return;
        }
        let need = &needs[draws.below(needs.len())];
        match draws.below(16) {
            0..=5 => self.words = need.words - 1,
            6..=7 => self.bins = need.bins - 1,
            8..=9 => self.order = need.bins - 1,
            10..=11 => self.scratch = need.bins - 1,
            12..=14 => self.entries = need.entries - 1,
            _ => self.swept = [0, NUMBERS - 1, draws.below(NUMBERS)][draws.below(3)],
        }
    }
}

/// What a pair that is not skipped needs of each buffer.
struct Need {
    words: usize,
    bins: usize,
    entries: usize,
    store: usize,
}

impl Need {
    fn of(model: &Model, i: usize) -> Option<Need> {
        let (size, k) = model.pairs[i];
        let (training, testing) = model.halves(i)?;
        let blocks = |part: &[u8]| part.len() / (size / 8);
        Some(Need {
            words: size * blocks(training).div_ceil(64),
            bins: 1 << k,
            entries: blocks(testing).min(EVALUATED) + 1,
            store: store_size(size, k).unwrap(),
        })
    }
}

/// Half of the levels put a pair's share at an end of its bracket or one above it, where there is such a level.
fn level(draws: &mut Draws, model: &mut Model) -> u64 {
    let planned = model.pairs.len().max(1);
    if draws.below(2) == 0 {
        let ends = model.ends();
        if !ends.is_empty() {
            let end = if draws.below(2) == 0 { *ends.iter().min_by_key(|ends| ends[1]).unwrap() } else { ends[draws.below(ends.len())] };
            let share = end[draws.below(2)] + draws.below(2) as u64;
            let level = share * planned as u64 + draws.below(planned) as u64;
            if (1..CERTAIN).contains(&level) {
                return level;
            }
        }
    }
    match draws.below(12) {
        0 => [0, CERTAIN, CERTAIN + 1, u64::MAX][draws.below(4)],
        1 => [1, planned as u64 - 1, planned as u64, CERTAIN - 1][draws.below(4)].max(1),
        2..=5 => 1 + draws.next() % (CERTAIN - 1),
        _ => 1 + draws.next() % (1 << (1 + draws.below(39))),
    }
}

/// Bytes of a kind; what is biased is so in blocks of this size.
fn bytes_of(draws: &mut Draws, size: usize, len: usize) -> Vec<u8> {
    let kind = draws.below(9);
    let mut bytes = draws.bytes(len);
    match kind {
        0..=1 => (),
        2..=5 => {
            // The XOR of these bits, of one bit that bit itself, is 1 in more blocks than not, in all blocks, or in few blocks of the second half.
            let chosen = [1, 2, 3, 4][draws.below(4)].min(if kind < 4 { 1 } else { 4 });
            let (bits, strength, turned) = (draws.subset(size, chosen), [2, 4, 8, 1000][draws.below(4)], draws.below(4) == 0);
            let blocks = len / (size / 8);
            for (at, block) in bytes.chunks_exact_mut(size / 8).enumerate() {
                let sum = bits.iter().fold(0, |sum, bit| sum ^ (block[bit / 8] >> (7 - bit % 8) & 1));
                let wanted = if turned && at >= blocks / 2 { 0 } else { 1 };
                if sum != wanted && draws.below(strength) != 0 {
                    block[bits[0] / 8] ^= 0x80 >> (bits[0] % 8);
                }
            }
        }
        6 => {
            let byte = [0, 0xFF, 0xA5, draws.next() as u8][draws.below(4)];
            bytes.fill(byte);
        }
        _ => {
            // A period, or few values.
            let values = 2 + draws.below(12);
            let few = draws.bytes(values);
            let drawn = kind == 8;
            for (at, byte) in bytes.iter_mut().enumerate() {
                *byte = few[if drawn { draws.below(few.len()) } else { at % few.len() }];
            }
        }
    }
    bytes
}
