//! Sweeps of drawn recordings against a model: the reference's own plan, split, search and evaluation, the bracket by a plain loop of its rule, verdict and
//! refusals by the words of the rules. Beside it, the exact chance by whole numbers: that it lies in each bracket, and below the share where one is rejected.

mod chance;
mod draws;

use crate::account::{Account, Run};
use crate::case::{fewer, same};
use crate::ours;
use crate::recordings::{numbers_in, store_size};
use answers::run::start_of;
use answers::{bottomup, capacity_bytes, choose, configurations, evaluate_histogram, high_first, valid, whole_blocks, Draws};
use chance::{binomial_sum, Whole};
use jimrawel::calls;
use std::time::{Duration, Instant};

/// A level that is refused, as is every one above: a chance of 1, in units of 2^-40.
const CERTAIN: u64 = 1 << 40;

/// The most testing blocks that are evaluated.
const EVALUATED: usize = 4096;

/// The numbers of a sweep, and those of a pair in it.
const NUMBERS: usize = 60;
const TESTED: usize = 29;

/// How many bins the reference may count in a search, about five seconds; a sweep that needs a search of more is left out.
const BINS: usize = 60_000_000;

/// How long a sweep that differs is made smaller: each step may take the reference seconds.
const SHRINKING: Duration = Duration::from_secs(300);

/// One call: the recording, the level, and how many entries each buffer has.
#[derive(Clone, Debug)]
struct Sweep {
    bytes: Vec<u8>,
    block_size: usize,
    low_first: bool,
    level: u64,
    words: usize,
    store: usize,
    bins: usize,
    order: usize,
    scratch: usize,
    entries: usize,
    swept: usize,
}

pub fn run(seed: u64, cases: u64) {
    println!("sweeps: seed {seed}, {cases} sweeps");
    let mut run = Run::new();
    let (mut recording, mut made) = (0, 0);
    while made < cases {
        let draws = &mut Draws::new(start_of(seed, recording));
        let recorded = Sweep::recorded(draws);
        let model = &mut Model::of(&recorded);
        for _ in 0..recorded.calls(model) {
            let sweep = recorded.called(draws, model);
            let mut entered = Account::default();
            match sweep.check(model, &mut entered) {
                Ok(kind) => run.enter(kind, entered),
                Err(what) => {
                    println!("sweep {made} differs: {what}");
                    let sweep = shrink(sweep);
                    println!("made smaller: {}", sweep.compare().unwrap_err());
                    println!("{sweep:?}");
                    run.fail();
                }
            }
            made += 1;
        }
        recording += 1;
    }
    run.close(&format!("sweeps, seed {seed}, {recording} recordings"));
}

/// A sweep that differs, made smaller for as long as a smaller one differs and there is time.
fn shrink(mut sweep: Sweep) -> Sweep {
    let start = Instant::now();
    while let Some(smaller) = sweep.smaller().into_iter().find(|smaller| start.elapsed() < SHRINKING && smaller.compare().is_err()) {
        sweep = smaller;
    }
    sweep
}

/// What the reference gives for a recording, its high bit first, and the tests of its pairs, each made when it is first asked for.
struct Model {
    bytes: Vec<u8>,
    low_first: bool,
    pairs: Vec<(usize, usize)>,
    tested: Vec<Option<Tested>>,
}

/// The 29 numbers of a pair's test, and its exact chance times 2^40 and times 2^bits.
#[derive(Clone)]
struct Tested {
    numbers: [u64; TESTED],
    chance: Whole,
    bits: usize,
}

impl Tested {
    fn low(&self) -> u64 {
        self.numbers[TESTED - 2]
    }

    fn high(&self) -> u64 {
        self.numbers[TESTED - 1]
    }
}

impl Model {
    fn of(sweep: &Sweep) -> Model {
        let pairs = if valid(sweep.block_size) { configurations(sweep.block_size, sweep.bytes.len()) } else { vec![] };
        let bytes = high_first(&sweep.bytes, sweep.low_first).into_owned();
        Model { bytes, low_first: sweep.low_first, tested: vec![None; pairs.len()], pairs }
    }

    /// Training and testing half of a pair that is not skipped.
    fn halves(&self, i: usize) -> Option<(&[u8], &[u8])> {
        whole_blocks(&self.bytes, self.pairs[i].0, true).ok()
    }

    fn bins(&self, i: usize) -> usize {
        let (size, k) = self.pairs[i];
        bins_of(size, k)
    }

    /// The test of a pair that is not skipped.
    fn test(&mut self, i: usize) -> Result<Tested, String> {
        if let Some(tested) = &self.tested[i] {
            return Ok(tested.clone());
        }
        let (size, k) = self.pairs[i];
        let (training, testing) = self.halves(i).unwrap();
        let found = bottomup(training, size, k, 1)?;
        let evaluated = &testing[..testing.len().min(EVALUATED * (size / 8))];
        let (n, c) = (evaluated.len() / (size / 8), evaluate_histogram(&found, evaluated).positive);
        let (low, high) = bracket(n, c, k, found.division);
        let mut numbers = [0; TESTED];
        numbers[..25].copy_from_slice(&numbers_in(&found, self.low_first));
        numbers[25..].copy_from_slice(&[n as u64, c as u64, low, high]);
        let chance = binomial_sum(n as u64, c as u64, k as u64, found.division as u64).shifted(40);
        let end = |end: u64| Whole::of(end).shifted(k * n);
        same("the exact chance between the ends", end(low) <= chance && chance <= end(high), true)?;
        let tested = Tested { numbers, chance, bits: k * n };
        self.tested[i] = Some(tested.clone());
        Ok(tested)
    }

    /// Both ends of the bracket of each pair that is tested in time.
    fn ends(&mut self) -> Vec<[u64; 2]> {
        let pairs: Vec<usize> = (0..self.pairs.len()).filter(|&i| self.halves(i).is_some() && self.bins(i) <= BINS).collect();
        pairs.into_iter().filter_map(|i| self.test(i).ok()).map(|tested| [tested.low(), tested.high()]).collect()
    }
}

/// The bins that a search counts: what the reference takes for it goes by them, where blocks are few.
fn bins_of(block_size: usize, k: usize) -> usize {
    choose(block_size, k) << k
}

/// By the rule as it stands: each block makes new entries of all the old ones, rounded down.
fn bracket(n: usize, c: usize, k: usize, d: usize) -> (u64, u64) {
    let (whole, d) = (1_u64 << k, d as u64);
    let mut entries = vec![CERTAIN];
    for _ in 0..n {
        let entry = |j: usize| entries.get(j).copied().unwrap_or(0);
        entries = (0..=entries.len()).map(|j| (entry(j) * (whole - d) + if j > 0 { entry(j - 1) * d } else { 0 }) / whole).collect();
    }
    let low = entries[c..].iter().sum();
    (low, low + (n * (n + 3) / 2) as u64)
}

/// What a call has to answer.
enum Expected {
    /// A refusal's number.
    Refused(u32),
    /// The 60 numbers.
    Swept([u64; NUMBERS]),
    /// A search of it takes the reference too long.
    LeftOut,
}

/// The buffers of a call.
#[derive(Clone, PartialEq)]
struct Lent {
    words: Vec<u64>,
    store: Vec<u32>,
    bins: Vec<u32>,
    order: Vec<u32>,
    scratch: Vec<u32>,
    entries: Vec<u64>,
}

impl Sweep {
    /// The first refusal that applies; the store has none.
    fn refusal(&self, model: &Model) -> u32 {
        if self.swept < NUMBERS {
            return 25;
        }
        if self.level == 0 || self.level >= CERTAIN {
            return 20;
        }
        if !valid(self.block_size) {
            return 1;
        }
        if (0..model.pairs.len()).all(|i| model.halves(i).is_none()) {
            return 8;
        }
        for (i, &(size, k)) in model.pairs.iter().enumerate() {
            let Some((training, testing)) = model.halves(i) else { continue };
            if training.len() > capacity_bytes(size, self.words) {
                return 5;
            }
            let evaluated = (testing.len() / (size / 8)).min(EVALUATED);
            if [self.bins, self.order, self.scratch].into_iter().any(|entries| entries < 1 << k) || self.entries < evaluated + 1 {
                return 7;
            }
        }
        0
    }

    fn expected(&self, model: &mut Model, entered: &mut Account) -> Result<Expected, String> {
        let refusal = self.refusal(model);
        if refusal != 0 {
            return Ok(Expected::Refused(refusal));
        }
        let share = self.level / model.pairs.len() as u64;
        let mut tests: Vec<Tested> = Vec::new();
        let (mut rejected, mut edges) = (false, [false; 4]);
        for i in 0..model.pairs.len() {
            if rejected || model.halves(i).is_none() {
                continue;
            }
            if model.bins(i) > BINS {
                return Ok(Expected::LeftOut);
            }
            let tested = model.test(i)?;
            let (low, high) = (tested.low(), tested.high());
            rejected = high < share;
            for (edge, met) in edges.iter_mut().zip([high == share, high + 1 == share, low == share, low + 1 == share]) {
                *edge |= met;
            }
            tests.push(tested);
        }
        let last = tests.last().unwrap();
        if rejected {
            let level = Whole::of(self.level).shifted(last.bits);
            same("the exact chance below the share", last.chance.clone().times(model.pairs.len() as u64) < level, true)?;
        }
        // Of equal ones the first is the least.
        let best = tests.iter().min_by_key(|tested| tested.low()).unwrap();
        let below = tests.iter().any(|tested| tested.low() < share);
        let mut swept = [0; NUMBERS];
        swept[0] = if rejected { 1 } else if below { 0 } else { 2 };
        swept[1] = tests.len() as u64;
        swept[2..2 + TESTED].copy_from_slice(&best.numbers);
        swept[2 + TESTED..].copy_from_slice(&last.numbers);
        self.enter(model, &tests, edges, entered);
        Ok(Expected::Swept(swept))
    }

    /// What is worth counting of a sweep that is not refused.
    fn enter(&self, model: &Model, tests: &[Tested], edges: [bool; 4], entered: &mut Account) {
        let names = [
            "of which an upper end is the share",
            "of which an upper end is one below the share",
            "of which a lower end is the share",
            "of which a lower end is one below the share",
        ];
        for (name, _) in names.into_iter().zip(edges).filter(|(_, met)| *met) {
            entered.add(name, true);
        }
        let unskipped: Vec<usize> = (0..model.pairs.len()).filter(|&i| model.halves(i).is_some()).collect();
        let stored = unskipped.iter().filter(|&&i| store_size(model.pairs[i].0, model.pairs[i].1).unwrap() <= self.store).count();
        let store = if stored == 0 {
            "with a store for no pair"
        } else if stored < unskipped.len() {
            "with a store for some pairs"
        } else {
            "with a store for every pair"
        };
        entered.add(store, true);
        let counts = [
            ("with skipped pairs", unskipped.len() < model.pairs.len()),
            ("with the low bit first", self.low_first),
            ("with more than 4,096 testing blocks of a tested pair", unskipped[..tests.len()].iter().any(|&i| {
                model.halves(i).unwrap().1.len() / (model.pairs[i].0 / 8) > EVALUATED
            })),
            ("stopped before the last pair", tests.len() < unskipped.len()),
            ("of which the best pair is neither the first nor the last", {
                let best = tests.iter().enumerate().min_by_key(|(_, tested)| tested.low()).unwrap().0;
                best > 0 && best + 1 < tests.len()
            }),
        ];
        for (name, _) in counts.into_iter().filter(|(_, met)| *met) {
            entered.add(name, true);
        }
    }

    /// Buffers with drawn entries.
    fn lent(&self) -> Lent {
        let draws = &mut Draws::new(self.level ^ self.bytes.len() as u64);
        let mut narrow = |entries: usize| (0..entries).map(|_| draws.next() as u32).collect();
        let (store, bins, order, scratch) = (narrow(self.store), narrow(self.bins), narrow(self.order), narrow(self.scratch));
        let mut wide = |entries: usize| (0..entries).map(|_| draws.next()).collect();
        Lent { words: wide(self.words), store, bins, order, scratch, entries: wide(self.entries) }
    }

    /// What the call answers: its refusal, the numbers, and whether the other buffers are as lent.
    fn call(&self) -> (u32, Vec<u64>, bool) {
        let lent = self.lent();
        let Lent { mut words, mut store, mut bins, mut order, mut scratch, mut entries } = lent.clone();
        let mut swept = vec![ours::LENT; self.swept];
        let refusal = calls::sweep(
            &self.bytes, self.block_size, self.low_first, self.level,
            &mut words, &mut store, &mut bins, &mut order, &mut scratch, &mut entries, &mut swept,
        );
        (refusal, swept, Lent { words, store, bins, order, scratch, entries } == lent)
    }

    /// Makes the call and compares; answers what the sweep is entered as.
    fn check(&self, model: &mut Model, entered: &mut Account) -> Result<&'static str, String> {
        // What stands past the numbers is as lent.
        let mut left = vec![ours::LENT; self.swept];
        match self.expected(model, entered)? {
            Expected::LeftOut => {
                entered.add("searches that take the reference too long", false);
                Ok("sweeps with such a search")
            }
            Expected::Swept(numbers) => {
                left[..NUMBERS].copy_from_slice(&numbers);
                let (refusal, swept, _) = self.call();
                same("refusal and numbers", (refusal, swept), (0, left))?;
                Ok(["sweeps, undecided", "sweeps, rejected", "sweeps, not rejected"][numbers[0] as usize])
            }
            Expected::Refused(number) => {
                // Beside 25 nothing is written.
                if number != 25 {
                    left[..NUMBERS].fill(0);
                }
                same("refusal, numbers, and buffers as lent", self.call(), (number, left, true))?;
                Ok(match number {
                    1 => "sweeps, refused with 1",
                    5 => "sweeps, refused with 5",
                    7 => "sweeps, refused with 7",
                    8 => "sweeps, refused with 8",
                    20 => "sweeps, refused with 20",
                    _ => "sweeps, refused with 25",
                })
            }
        }
    }

    /// By a model of its own.
    fn compare(&self) -> Result<&'static str, String> {
        self.check(&mut Model::of(self), &mut Account::default())
    }

    /// Sweeps that are smaller by one step; first those of fewer pairs, which take less time.
    fn smaller(&self) -> Vec<Sweep> {
        let blocks = [4096, 512, 256, 128].into_iter().filter(|&block_size| valid(self.block_size) && block_size > self.block_size);
        let mut sweeps: Vec<Sweep> = blocks.map(|block_size| Sweep { block_size, ..self.clone() }).collect();
        if self.low_first {
            sweeps.push(Sweep { low_first: false, ..self.clone() });
        }
        if self.store > 0 {
            sweeps.push(Sweep { store: 0, ..self.clone() });
        }
        sweeps.extend(fewer(&self.bytes, true).into_iter().map(|bytes| Sweep { bytes, ..self.clone() }));
        sweeps
    }
}
