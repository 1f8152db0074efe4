//! Findings: sound and damaged ones, each checked and then evaluated on bytes.

use answers::order::{both, high_first, reversed, turned};
use answers::*;

#[derive(Clone)]
struct Case {
    block_size: usize,
    width: usize,
    /// 20 bits; those past the width mean nothing.
    bits: Vec<usize>,
    order: Vec<usize>,
    division: usize,
    z: f64,
    scratch: usize,
    bytes: Vec<u8>,
}

pub fn write(sheet: &mut Sheet, draws: &mut Draws) {
    let reverse = |case: &mut Case| case.bytes = reversed(&case.bytes);
    let mut cases = both(damaged(draws));
    cases.extend(turned(searched(draws), reverse));
    cases.extend(both(drawn(draws)));
    cases.extend(turned(scores(draws), reverse));
    cases.extend(run::sample().filter_map(case_of_run));
    sheet.note("Findings: the reference's validate, its refusals numbered by their words, and evaluate_histogram; by the rules 1 for B above 4,096 and 7");
    sheet.note("for a short scratch. Each: B, width, 20 bits, division, the pattern of z, the bit order; the order, its length first; the scratch's length; the");
    sheet.note("bytes, their number first. Answer: the check's refusal; the scratch after it; the evaluation's refusal, positive blocks, and 1 and z or 0; the");
    sheet.note("scratch after it.");
    sheet.note(&order::note("the last ones as they are drawn"));
    sheet.note(&run::note());
    sheet.case([cases.len()]);
    for (case, low_first) in &cases {
        write_case(sheet, case, *low_first);
    }
}

fn write_case(sheet: &mut Sheet, case: &Case, low_first: bool) {
    let last = [case.division, case.z.to_bits() as usize, low_first as usize];
    sheet.case([case.block_size, case.width].iter().chain(&case.bits).chain(&last));
    sheet.list(&case.order);
    sheet.case([case.scratch]);
    sheet.list(&case.bytes);
    let refusal = refusal(case);
    sheet.answer([refusal]);
    // The first 2^k entries are zeros after 13, 14 and success; every entry was 99.
    let mut scratch = vec![99; case.scratch];
    if [0, 13, 14].contains(&refusal) {
        scratch[..1 << case.width].fill(0);
    }
    sheet.answer(&scratch);
    if refusal != 0 {
        sheet.answer([refusal, 0, 0]);
        sheet.answer(&scratch);
        return;
    }
    let evaluated = evaluate_histogram(&finding(case), &high_first(&case.bytes, low_first));
    let blocks = case.bytes.len() / (case.block_size / 8);
    assert_eq!(evaluated.z.is_nan(), blocks == 0);
    let score = if blocks == 0 { vec![0] } else { vec![1, evaluated.z.to_bits()] };
    sheet.answer([0, evaluated.positive as u64].into_iter().chain(score));
    scratch[..1 << case.width].copy_from_slice(&evaluated.bins);
    sheet.answer(&scratch);
}

/// As the reference has it: as many bits as the width says, rising past the 20 that are given.
fn finding(case: &Case) -> Finding {
    let mut bits = case.bits.clone();
    while bits.len() < case.width.min(64) {
        bits.push(bits[bits.len() - 1] + 1);
    }
    bits.truncate(case.width);
    Finding { block_size: case.block_size, bits, order: case.order.clone(), division: case.division, z: case.z }
}

/// The first that applies of 1, 2, 9, 10, 11, 7, 13, 14; the evaluation's 12, before 7, takes more bytes than are stored here.
fn refusal(case: &Case) -> usize {
    let reference = match validate(&finding(case)) {
        Ok(()) => 0,
        Err(words) => number(&words),
    };
    if case.block_size > 4096 {
        return 1;
    }
    if [0, 13, 14].contains(&reference) && case.scratch < 1 << case.width {
        return 7;
    }
    reference
}

/// The number of a refusal, by the reference's words.
fn number(words: &str) -> usize {
    let numbers = [
        ("invalid block size", 1),
        ("must select between", 2),
        ("strictly increasing", 9),
        ("selects bit", 10),
        ("sorted indices, expected", 11),
        ("not a permutation", 13),
        ("distinguisher division", 14),
    ];
    numbers.iter().find(|(part, _)| words.contains(part)).expect("known words").1
}

/// A sound finding of two bits of a block of 16, on four blocks and a ragged end.
fn sound(draws: &mut Draws) -> Case {
    let mut bits = vec![3, 9];
    bits.extend((2..20).map(|_| draws.below(40)));
    Case { block_size: 16, width: 2, bits, order: vec![2, 0, 3, 1], division: 2, z: 0.5, scratch: 6, bytes: draws.bytes(9) }
}

type Fault = fn(&mut Case);

/// A fault for each refusal, in the order of the refusals.
const FAULTS: [(usize, Fault); 8] = [
    (1, |case| case.block_size = 12),
    (2, |case| case.width = 21),
    (9, |case| case.bits.swap(0, 1)),
    (10, |case| *case.bits[..2].iter_mut().max().unwrap() = 16),
    (11, |case| case.order.push(0)),
    (7, |case| case.scratch = 3),
    (13, |case| case.order[0] = case.order[1]),
    (14, |case| case.division = 0),
];

/// Each refusal alone, in several ways; then every pair of faults, and a fault with all later ones, of which the earliest is answered.
fn damaged(draws: &mut Draws) -> Vec<Case> {
    let good = sound(draws);
    let mut cases = vec![good.clone()];
    let mut add = |case: Case, expected: usize| {
        assert_eq!(refusal(&case), expected);
        cases.push(case);
    };
    for block_size in [0, 1, 7, 12, 4095, 4097, 4104, 1 << 32, usize::MAX - 7, usize::MAX] {
        add(Case { block_size, ..good.clone() }, 1);
    }
    for width in [0, 21, 22, 255, 1 << 32, usize::MAX] {
        add(Case { width, ..good.clone() }, 2);
    }
    for (first, second) in [(9, 3), (3, 3), (0, 0), (15, 0)] {
        let bits = [vec![first, second], good.bits[2..].to_vec()].concat();
        add(Case { bits, ..good.clone() }, 9);
    }
    for (first, second) in [(3, 16), (3, 17), (16, 17), (3, u32::MAX as usize)] {
        let bits = [vec![first, second], good.bits[2..].to_vec()].concat();
        add(Case { bits, ..good.clone() }, 10);
    }
    for order in [vec![], vec![2], vec![2, 0, 3], vec![2, 0, 3, 1, 4], vec![2, 0, 3, 1, 1], vec![1, 0]] {
        add(Case { order, ..good.clone() }, 11);
    }
    for scratch in [0, 1, 2, 3] {
        add(Case { scratch, ..good.clone() }, 7);
    }
    for order in [vec![2, 0, 2, 1], vec![0, 0, 0, 0], vec![2, 0, 4, 1], vec![1, 2, 3, 4], vec![2, 0, 3, 3], vec![u32::MAX as usize, 0, 1, 2]] {
        add(Case { order, ..good.clone() }, 13);
    }
    for division in [0, 4, 5, u32::MAX as usize] {
        add(Case { division, ..good.clone() }, 14);
    }
    for (i, (first, one)) in FAULTS.iter().enumerate() {
        for (_, other) in &FAULTS[i + 1..] {
            let mut case = good.clone();
            other(&mut case);
            one(&mut case);
            add(case, *first);
        }
        let mut case = good.clone();
        FAULTS[i..].iter().rev().for_each(|(_, fault)| fault(&mut case));
        add(case, *first);
    }
    // Both limits met exactly.
    add(Case { scratch: 4, ..good.clone() }, 0);
    add(Case { division: 1, ..good.clone() }, 0);
    add(Case { division: 3, ..good.clone() }, 0);
    add(Case { bits: [vec![0, 15], good.bits[2..].to_vec()].concat(), ..good.clone() }, 0);
    cases
}

/// A bit array: past the bits it has anything.
fn padded(draws: &mut Draws, bits: &[usize]) -> Vec<usize> {
    bits.iter().copied().chain((bits.len()..20).map(|_| draws.below(5000))).collect()
}

/// What the reference's search finds in one recording, judged on it and on others of the same kind: shorter ones, ragged ones and none.
fn searched(draws: &mut Draws) -> Vec<Case> {
    let mut cases = Vec::new();
    for (block_size, k) in [(8, 1), (8, 2), (8, 3), (8, 8), (16, 2), (16, 4), (24, 3), (64, 2)] {
        let size = block_size / 8;
        for (j, blocks) in [0, 1, 2, 3, 8, 33].into_iter().enumerate() {
            let training = recording(draws, j, 20 * size);
            let found = bottomup(&training, block_size, k, 1).unwrap();
            let length = blocks * size + draws.below(size);
            let testing = if j == 3 { training } else { recording(draws, j, length) };
            let scratch = (1 << k) + 2 * (j % 2);
            let bits = padded(draws, &found.bits);
            cases.push(Case { block_size, width: k, bits, order: found.order, division: found.division, z: found.z, scratch, bytes: testing });
        }
    }
    cases
}

/// Any subset, any order, any division.
fn drawn(draws: &mut Draws) -> Vec<Case> {
    let mut cases = Vec::new();
    for (block_size, k) in [(8, 1), (8, 2), (8, 8), (16, 3), (24, 5), (64, 4), (64, 7), (128, 2), (512, 10), (4096, 3), (4096, 6)] {
        for j in 0..4 {
            let bins = 1 << k;
            let order = draws.shuffled(bins);
            let division = match j {
                0 => 1,
                1 => bins - 1,
                _ => 1 + draws.below(bins - 1),
            };
            let blocks = draws.below(if block_size > 500 { 4 } else { 20 });
            let length = blocks * (block_size / 8) + draws.below(2);
            let bytes = recording(draws, j + k, length);
            let subset = draws.subset(block_size, k);
            let bits = padded(draws, &subset);
            cases.push(Case { block_size, width: k, bits, order, division, z: -1.5, scratch: bins + j % 3, bytes });
        }
    }
    cases
}

/// A finding of the differential run with few entries and few bytes. Where the width is refused, or the order is too short for it, a long scratch says no
/// more than a short one.
fn case_of_run(case: run::Case) -> Option<(Case, bool)> {
    let run::Case::Judged(drawn) = case else { return None };
    if drawn.order.len() > 65 || drawn.bytes.len() > 80 {
        return None;
    }
    let mut bits: Vec<usize> = drawn.bits.iter().map(|&bit| bit as usize).collect();
    bits.resize(20, 0);
    let case = Case {
        block_size: drawn.block_size,
        width: drawn.width,
        bits,
        order: drawn.order.iter().map(|&bin| bin as usize).collect(),
        division: drawn.division as usize,
        // A NaN, which no one reads.
        z: f64::from_bits(u64::MAX),
        scratch: drawn.lent().min(66),
        bytes: drawn.bytes,
    };
    Some((case, drawn.low_first))
}

/// Scores below zero, zero and above it, all blocks positive and none.
fn scores(draws: &mut Draws) -> Vec<Case> {
    let mut cases = Vec::new();
    for (k, division) in [(1, 1), (2, 1), (2, 2), (2, 3), (3, 1), (3, 5), (3, 7)] {
        let bins: usize = 1 << k;
        for n in [1, 2, 8, 16, 24] {
            for positive in 0..=n {
                if positive > 3 && positive + 3 < n && positive * bins != division * n {
                    continue;
                }
                // A byte whose bin is v; its last bit is not chosen.
                let byte = |v: usize| (0..k).map(|i| ((v >> i & 1) as u8) << (7 - i)).sum::<u8>() | (v as u8 & 1);
                let mut bin = |e: usize| if e < positive { draws.below(division) } else { division + draws.below(bins - division) };
                let bytes = (0..n).map(|e| byte(bin(e))).collect();
                let subset: Vec<usize> = (0..k).collect();
                let bits = padded(draws, &subset);
                cases.push(Case { block_size: 8, width: k, bits, order: (0..bins).collect(), division, z: 0.0, scratch: bins, bytes });
            }
        }
    }
    let signs: Vec<f64> = cases.iter().map(|case| evaluate_histogram(&finding(case), &case.bytes).z).collect();
    assert!(signs.iter().filter(|z| **z < 0.0).count() > 50);
    assert!(signs.iter().filter(|z| **z == 0.0).count() > 10);
    assert!(signs.iter().filter(|z| **z > 0.0).count() > 50);
    cases
}
