//! The sweep by the rules: the reference's plan, split, search and evaluation, and the brackets of Python's whole numbers.

use crate::recording::Recording;
use answers::*;
use std::collections::HashMap;
use std::iter::repeat;

/// The level that is no longer one: a chance of 1.
pub const UNIT: u64 = 1 << 40;
/// The most testing blocks of a pair that are evaluated.
const EVALUATED: usize = 4096;

/// How many entries are lent.
#[derive(Clone, Copy)]
pub struct Room {
    pub words: usize,
    pub store: usize,
    pub bins: usize,
    pub order: usize,
    pub scratch: usize,
    pub entries: usize,
}

#[derive(Clone)]
pub struct Case {
    pub level: u64,
    pub block_size: usize,
    pub low_first: bool,
    pub room: Room,
    pub recording: Recording,
}

impl Case {
    /// The pairs planned; none where the block size is refused.
    pub fn plan(&self) -> Vec<(usize, usize)> {
        if valid(self.block_size) { configurations(self.block_size, self.recording.length) } else { vec![] }
    }

    pub fn share(&self) -> u64 {
        self.level / self.plan().len() as u64
    }
}

/// A pair with two blocks or more: its block size and width, and both halves.
pub struct Pair<'a> {
    pub block_size: usize,
    pub width: usize,
    pub training: &'a [u8],
    pub testing: &'a [u8],
}

impl Pair<'_> {
    fn blocks(&self, part: &[u8]) -> usize {
        part.len() / (self.block_size / 8)
    }

    /// How many testing blocks are evaluated.
    pub fn evaluated(&self) -> usize {
        self.blocks(self.testing).min(EVALUATED)
    }

    /// The fewest words that hold the training half.
    pub fn words(&self) -> usize {
        self.block_size * self.blocks(self.training).div_ceil(64)
    }

    /// The fewest entries of a store with which the search goes by layers.
    pub fn store(&self) -> usize {
        (1..self.width.max(2)).map(|d| choose(self.block_size, d)).sum()
    }
}

/// The pairs of a plan that are not skipped.
pub fn pairs<'a>(plan: &[(usize, usize)], raw: &'a [u8]) -> Vec<Pair<'a>> {
    let split = |&(block_size, width): &(usize, usize)| {
        let (training, testing) = whole_blocks(raw, block_size, true).ok()?;
        Some(Pair { block_size, width, training, testing })
    };
    plan.iter().filter_map(split).collect()
}

#[derive(Clone)]
pub struct Tested {
    finding: Finding,
    blocks: usize,
    positive: usize,
    pub low: u64,
    pub high: u64,
    /// The exact chance in units of 2^-40 times the pairs planned, rounded down.
    exact: u64,
}

pub enum Verdict {
    Rejected,
    NotRejected,
    Undecided,
}

/// The pairs tested, the last of them the stopping one where rejected.
pub struct Swept {
    pub verdict: Verdict,
    pub tested: Vec<Tested>,
}

impl Swept {
    /// The place of the lowest lower end, the earlier on equality.
    pub fn best(&self) -> usize {
        (0..self.tested.len()).min_by_key(|&i| (self.tested[i].low, i)).unwrap()
    }

    /// The verdict, the pairs tested, which is the best, and whether another has the same lower end.
    pub fn kind(&self) -> String {
        let verdict = ["undecided", "rejected", "not rejected"][number(&self.verdict)];
        let lowest = self.tested[self.best()].low;
        let tied = self.tested.iter().filter(|tested| tested.low == lowest).count() > 1;
        format!("{verdict}, {} tested, best {}{}", self.tested.len(), self.best() + 1, if tied { ", tied" } else { "" })
    }
}

/// Makes sweeps, and remembers each pair that it has tested.
pub struct Sweeper {
    brackets: Brackets,
    tested: HashMap<(Vec<u8>, usize, usize, usize), Tested>,
}

impl Sweeper {
    pub fn start() -> Sweeper {
        Sweeper { brackets: Brackets::start(), tested: HashMap::new() }
    }

    fn test(&mut self, raw: &[u8], pair: &Pair, planned: usize) -> Tested {
        let key = (raw.to_vec(), pair.block_size, pair.width, planned);
        if let Some(tested) = self.tested.get(&key) {
            return tested.clone();
        }
        let finding = bottomup(pair.training, pair.block_size, pair.width, 0).unwrap();
        let blocks = pair.evaluated();
        let positive = evaluate_histogram(&finding, &pair.testing[..blocks * (pair.block_size / 8)]).positive;
        let Bracket { low, high, exact } = self.brackets.of(blocks, positive, pair.width, finding.division, planned);
        let tested = Tested { finding, blocks, positive, low, high, exact };
        self.tested.insert(key, tested.clone());
        tested
    }

    /// Every pair that is not skipped, as if none were rejected.
    pub fn all(&mut self, case: &Case) -> Vec<Tested> {
        let bytes = case.recording.bytes();
        let raw = high_first(&bytes, case.low_first);
        let plan = case.plan();
        pairs(&plan, &raw).iter().map(|pair| self.test(&raw, pair, plan.len())).collect()
    }

    /// The sweep, or its refusal.
    pub fn sweep(&mut self, case: &Case) -> Result<Swept, u32> {
        let bytes = case.recording.bytes();
        let raw = high_first(&bytes, case.low_first);
        let plan = case.plan();
        let pairs = pairs(&plan, &raw);
        refusal(case, &pairs).map_or(Ok(()), Err)?;
        let share = case.share();
        let mut tested = Vec::new();
        for pair in &pairs {
            tested.push(self.test(&raw, pair, plan.len()));
            let last = tested.last().unwrap();
            if last.high < share {
                assert!(last.exact < case.level, "rejected, with a chance that is not below its part of the level");
                return Ok(Swept { verdict: Verdict::Rejected, tested });
            }
        }
        let open = tested.iter().any(|pair| pair.low < share);
        Ok(Swept { verdict: if open { Verdict::Undecided } else { Verdict::NotRejected }, tested })
    }

    /// The case, and its four lines of answers. Returns what kind of answer it is.
    pub fn write(&mut self, sheet: &mut Sheet, case: &Case) -> String {
        let Room { words, store, bins, order, scratch, entries } = case.room;
        let Recording { length, seed, weight, ref pattern } = case.recording;
        let given = [case.block_size, case.low_first as usize, words, store, bins, order, scratch, entries, length];
        let told = [seed, weight, pattern.len() as u64].into_iter().chain(pattern.iter().map(|&byte| byte as u64));
        sheet.case([case.level].into_iter().chain(given.map(|number| number as u64)).chain(told));
        match self.sweep(case) {
            Err(refusal) => {
                sheet.answer([refusal, 0, 0]);
                sheet.answer([0; 29]);
                sheet.answer([0; 29]);
                // Nothing that was lent has changed.
                sheet.answer([0; 6]);
                format!("refused {refusal:2}")
            }
            Ok(swept) => {
                sheet.answer([0, number(&swept.verdict), swept.tested.len()]);
                sheet.answer(line(&swept.tested[swept.best()], case.low_first));
                sheet.answer(line(swept.tested.last().unwrap(), case.low_first));
                sheet.answer([0]);
                swept.kind()
            }
        }
    }
}

/// The first that applies of 20, 1, 5 and 7 pair by pair, 8.
fn refusal(case: &Case, pairs: &[Pair]) -> Option<u32> {
    if case.level == 0 || case.level >= UNIT {
        return Some(20);
    }
    if !valid(case.block_size) {
        return Some(1);
    }
    for pair in pairs {
        if pair.training.len() > capacity_bytes(pair.block_size, case.room.words) {
            return Some(5);
        }
        let Room { bins, order, scratch, entries, .. } = case.room;
        if bins.min(order).min(scratch) < 1 << pair.width || entries < pair.evaluated() + 1 {
            return Some(7);
        }
    }
    pairs.is_empty().then_some(8)
}

fn number(verdict: &Verdict) -> usize {
    match verdict {
        Verdict::Undecided => 0,
        Verdict::Rejected => 1,
        Verdict::NotRejected => 2,
    }
}

/// B, width, division, the pattern of z, 20 bits, the bit order, the blocks evaluated, the positive ones, both ends.
fn line(tested: &Tested, low_first: bool) -> Vec<u64> {
    let Finding { block_size, bits, division, z, .. } = &tested.finding;
    let first = [*block_size as u64, bits.len() as u64, *division as u64, z.to_bits()];
    let bits = bits.iter().map(|&bit| bit as u64).chain(repeat(0)).take(20);
    let last = [low_first as u64, tested.blocks as u64, tested.positive as u64, tested.low, tested.high];
    first.into_iter().chain(bits).chain(last).collect()
}
