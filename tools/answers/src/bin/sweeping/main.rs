//! Cases for `crates/sweeping_cases`: sweeps of recordings.

use answers::order::{both, by_turns};
use answers::*;
use std::collections::BTreeMap;

mod levels;
mod recording;
mod refusals;
mod sizes;
mod sweep;

use recording::Recording;
use sweep::{pairs, Case, Room, Sweeper, UNIT};

/// As many entries of a store as the program lends at most.
const LONG_STORE: usize = 45_056;

/// Among others: rejected at the first pair and at later ones, the lowest lower end at the stopping pair, before it, and at two pairs.
const WANTED: [&str; 17] = [
    "refused 20", "refused  1", "refused  5", "refused  7", "refused  8",
    "rejected, 1 tested, best 1", "rejected, 2 tested, best 1", "rejected, 2 tested, best 1, tied", "rejected, 2 tested, best 2",
    "rejected, 3 tested, best 2, tied", "rejected, 3 tested, best 3",
    "undecided, 2 tested, best 1", "undecided, 2 tested, best 2", "undecided, 3 tested, best 2",
    "not rejected, 2 tested, best 2", "not rejected, 3 tested, best 2, tied", "not rejected, 7 tested, best 5",
];

fn main() {
    let mut sweeper = Sweeper::start();
    let mut sheet = Sheet::default();
    sheet.note("Sweeps. Made, with their answers, by `tools/answers/run sweeping REFERENCE`; no answer is our own program's.");
    sheet.note("Plan, halves, findings and positive blocks: the reference's configurations, whole_blocks, bottomup and evaluate_histogram, the last on at most 4,096");
    sheet.note("blocks. Both ends: Python's whole numbers, the exact chance lying between them. Share, verdict, refusals: the rules, in plain Rust in that tool.");
    sheet.note("Each: the level; B; the bit order, 1 where the low bit comes first, the reference being given each byte turned; the numbers of lent words, entries of");
    sheet.note("the store, bins, entries of the order, of the scratch and of the bracket's scratch, each 99; the number of bytes of the recording, and the recording:");
    sheet.note("a seed, a weight and a pattern, its length first. For each byte a number is drawn from the one before, x becoming 48271 x mod 2^31 - 1, from the seed");
    sheet.note("on; where floor(x / 2^15) mod 256 is below the weight, byte i is the pattern's at i modulo its length, else it is floor(x / 2^23).");
    sheet.note("Answer: the refusal, the verdict (0 undecided or refused, 1 rejected, 2 not rejected) and the pairs tested; the pair with the lowest L; the last pair,");
    sheet.note("each B, width, division, the pattern of z, 20 bits, the bit order, the blocks evaluated, the positive ones and both ends; 0, or where refused how many");
    sheet.note("entries of each buffer have changed.");
    let mut cases = refusals::cases();
    cases.extend(sizes::cases());
    cases.extend(levels::cases(&mut sweeper));
    sheet.case([cases.len()]);
    let mut kinds: BTreeMap<String, usize> = BTreeMap::new();
    for case in &cases {
        *kinds.entry(sweeper.write(&mut sheet, case)).or_default() += 1;
    }
    kinds.iter().for_each(|(kind, count)| eprintln!("{kind}: {count}"));
    WANTED.iter().for_each(|kind| assert!(kinds.contains_key(*kind), "no case: {kind}"));
    sheet.save();
}

/// A case with just enough of everything, and a long store.
fn fitting(level: u64, block_size: usize, low_first: bool, recording: Recording) -> Case {
    let room = Room { words: 0, store: LONG_STORE, bins: 256, order: 256, scratch: 256, entries: 0 };
    let mut case = Case { level, block_size, low_first, room, recording };
    let raw = case.recording.bytes();
    let plan = case.plan();
    let pairs = pairs(&plan, &raw);
    case.room.words = pairs.iter().map(|pair| pair.words()).max().unwrap_or(0);
    case.room.entries = pairs.iter().map(|pair| pair.evaluated() + 1).max().unwrap_or(0);
    case
}
