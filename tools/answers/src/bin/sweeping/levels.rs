//! Levels about the ends of brackets, chosen from the numbers, and verdicts of every kind.

use super::*;

pub fn cases(sweeper: &mut Sweeper) -> Vec<Case> {
    let mut cases = ties();
    cases.extend(sources());
    cases.extend(edges(sweeper));
    cases.extend(kinds(sweeper));
    cases.extend(drawn());
    cases
}

/// One lower end in several pairs: 2^40 in all, where few blocks are tested and none is positive; 0 in all, or in all but the last, where all blocks are
/// equal; 0 in all but the first, where each byte comes as often as any other.
fn ties() -> Vec<Case> {
    let mut cases = Vec::new();
    for (block_size, half) in [(8, 1), (8, 2), (8, 4), (16, 4), (24, 5), (64, 5), (128, 3)] {
        let turned = Recording::of([vec![0x00; half], vec![0xFF; half]].concat());
        for level in [1, UNIT / 3, UNIT - 1] {
            cases.push(fitting(level, block_size, half % 2 == 1, turned.clone()));
        }
    }
    for (block_size, length) in [(128, 3000), (256, 3000), (512, 3001), (512, 2001), (512, 1800)] {
        for level in [1, 3, 700_000, 1_000_000, 10_000_000] {
            cases.push(fitting(level, block_size, length % 2 == 1, Recording::periodic(length, vec![0xA5])));
        }
    }
    for (length, level) in [(2800, 1), (2801, 1000)] {
        cases.push(fitting(level, 256, length % 2 == 1, Recording::periodic(length, (0..=255).collect())));
    }
    cases
}

/// A sound source and weak ones at a level as acceptance uses it, about one in 10,000.
fn sources() -> Vec<Case> {
    let level = UNIT / 10_000;
    let mut cases = vec![fitting(level, 8, false, Recording::drawn(4000, 2026)), fitting(level, 128, true, Recording::drawn(3000, 2027))];
    for (weight, pattern) in [(40, vec![0x3C]), (90, vec![0x00, 0xFF]), (128, (0..64).collect()), (200, (0..=255).collect())] {
        for low_first in [false, true] {
            let recording = Recording { length: 3000, seed: 11, weight, pattern: pattern.clone() };
            cases.push(fitting(level, 256, low_first, recording));
        }
    }
    // The first half of each block stands there twice: nothing shows in shorter blocks, so that a later pair is the one rejected.
    for (block_size, half, blocks) in [(8, 1, 150), (8, 2, 100), (16, 4, 80)] {
        let drawn = Recording::drawn(half * blocks, 4000 + half as u64).bytes();
        let echo = drawn.chunks(half).flat_map(|part| [part, part].concat()).collect();
        cases.push(fitting(level, block_size, half % 2 == 0, Recording::of(echo)));
    }
    cases
}

/// A level with this share of so many pairs: the least, or the greatest.
fn level_of(share: u64, planned: usize, greatest: bool) -> Option<u64> {
    let planned = planned as u64;
    let level = share * planned + if greatest { planned - 1 } else { 0 };
    (1..UNIT).contains(&level).then_some(level)
}

/// For each pair of some recordings the shares about both ends, high being the share or one below it, and low too; where an earlier pair is not rejected.
fn edges(sweeper: &mut Sweeper) -> Vec<Case> {
    let mut cases = Vec::new();
    let weak = |length: usize, seed: u64, weight: u64| Recording { length, seed, weight, pattern: vec![0x0F, 0x0F, 0x33, 0xF0] };
    let recordings = [
        (8, Recording::drawn(7, 21)), (8, weak(9, 3, 200)), (16, weak(7, 4, 128)), (24, weak(11, 5, 100)),
        (128, weak(300, 6, 60)), (256, Recording::drawn(400, 23)), (256, weak(500, 7, 40)),
        (512, weak(900, 8, 30)), (512, weak(2000, 9, 15)),
    ];
    for (i, (block_size, recording)) in recordings.into_iter().enumerate() {
        let case = fitting(1, block_size, i % 2 == 1, recording);
        let planned = case.plan().len();
        for (j, tested) in sweeper.all(&case).iter().enumerate() {
            for share in [tested.low, tested.low + 1, tested.high, tested.high + 1] {
                let levels = [false, true].into_iter().filter_map(|greatest| level_of(share, planned, greatest));
                cases.extend(levels.map(|level| Case { level, ..case.clone() }).filter(|case| sweeper.sweep(case).ok().unwrap().tested.len() > j));
            }
        }
    }
    let mut seen = [0; 4];
    for case in &cases {
        let (share, swept) = (case.share(), sweeper.sweep(case).ok().unwrap());
        for tested in &swept.tested {
            let met = [tested.high == share, tested.high + 1 == share, tested.low == share, tested.low + 1 == share];
            (0..4).filter(|&i| met[i]).for_each(|i| seen[i] += 1);
        }
    }
    eprintln!("edges: high = share, share - 1, low = share, share - 1: {seen:?}");
    assert!(seen.iter().all(|&count| count >= 8));
    cases
}

/// Up to two cases of each kind that some hundred recordings have.
fn kinds(sweeper: &mut Sweeper) -> Vec<Case> {
    let mut found: BTreeMap<String, Vec<Case>> = BTreeMap::new();
    let mut draws = Draws::new(88);
    for turn in 0..240 {
        let block_size = [8, 16, 256, 256, 256, 512, 512, 512][turn % 8];
        let length = if block_size < 128 { 2 + draws.below(8) } else { 2 * block_size / 8 + draws.below(700) };
        let period = [1, 2, 16, 32, 64, 128][draws.below(6)];
        let recording = Recording { length, seed: 1 + draws.below(1000) as u64, weight: [0, 10, 30, 60, 120, 250][draws.below(6)], pattern: draws.bytes(period) };
        let case = fitting(1, block_size, draws.below(2) == 1, recording);
        let planned = case.plan().len();
        let shares: Vec<u64> = sweeper.all(&case).iter().flat_map(|tested| [tested.low, tested.low + 1, tested.high, tested.high + 1]).collect();
        for level in shares.into_iter().filter_map(|share| level_of(share, planned, turn % 2 == 0)) {
            let case = Case { level, ..case.clone() };
            let kept = found.entry(sweeper.sweep(&case).ok().unwrap().kind()).or_default();
            if kept.len() < 2 {
                kept.push(case);
            }
        }
    }
    found.into_values().flatten().collect()
}

/// Any short recording at any level.
fn drawn() -> Vec<Case> {
    let mut draws = Draws::new(89);
    let mut cases = Vec::new();
    for _ in 0..120 {
        let block_size = [8, 16, 24, 32, 40, 104, 256, 264, 312, 504, 512, 520][draws.below(12)];
        let length = if block_size < 128 { 2 + draws.below(9) } else { 2 + draws.below(260) };
        let recording = Recording { length, seed: draws.below(1 << 31) as u64, weight: draws.below(257) as u64, pattern: draws.bytes(3) };
        let level = (1 + draws.next() % (UNIT - 1)) >> draws.below(30);
        let mut case = fitting(level.max(1), block_size, draws.below(2) == 1, recording);
        let room = &mut case.room;
        room.words += draws.below(3);
        room.store = [0, 300, LONG_STORE][draws.below(3)];
        room.bins += draws.below(3);
        room.order += draws.below(3);
        room.scratch += draws.below(3);
        room.entries += draws.below(3);
        cases.push(case);
    }
    cases
}
