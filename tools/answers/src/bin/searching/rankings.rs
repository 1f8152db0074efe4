//! Rankings of counts, most of them with many equal counts.

use answers::*;

/// What the program fills the order buffer with.
const LENT: usize = 99;

struct Case {
    k: usize,
    roots: usize,
    bins: Vec<usize>,
}

pub fn write(sheet: &mut Sheet, draws: &mut Draws) {
    let mut cases = small();
    cases.extend(every_width(draws));
    cases.extend(largest_samples());
    cases.extend(wide(draws));
    cases.extend(ends_of_keys(&mut Draws::new(64)));
    cases.extend(run::sample().filter_map(case_of_run));
    sheet.note("Rankings: the reference's Histogram::from_bins. Each: k, the length of the table of roots that is worked out beforehand, the 2^k counts.");
    sheet.note("Answer: a line with division and the pattern of z, a line with the order and two entries past it, lent as 99.");
    sheet.note(&run::note());
    sheet.case([cases.len()]);
    for case in &cases {
        sheet.case([case.k, case.roots].into_iter().chain(case.bins.iter().copied()));
        let bits: Vec<usize> = (0..case.k).collect();
        let finding = from_bins(&bits, &case.bins, 4096);
        sheet.answer([finding.division as u64, finding.z.to_bits()]);
        sheet.answer(finding.order.into_iter().chain([LENT, LENT]));
    }
}

/// Every pair of counts up to 5, and every four counts up to 2.
fn small() -> Vec<Case> {
    let mut cases = Vec::new();
    for i in 0..36 {
        cases.push(Case { k: 1, roots: i % 3, bins: vec![i / 6, i % 6] });
    }
    for i in 0..81 {
        cases.push(Case { k: 2, roots: i % 6, bins: vec![i / 27, i / 9 % 3, i / 3 % 3, i % 3] });
    }
    cases
}

fn every_width(draws: &mut Draws) -> Vec<Case> {
    let mut cases = Vec::new();
    for k in 1..=8 {
        let m = 1usize << k;
        for kind in 0..14 {
            // None, one, some, all and more than all of the roots.
            let roots = [0, 1, m / 2, m, m + 3][(k + kind) % 5];
            cases.push(Case { k, roots, bins: counts(draws, kind, m) });
        }
    }
    cases
}

/// m counts of a kind.
fn counts(draws: &mut Draws, kind: usize, m: usize) -> Vec<usize> {
    let at = draws.below(m);
    (0..m)
        .map(|v| match kind {
            // No block; one block in the first, the last or any bin.
            0 => 0,
            1 => (v == 0) as usize,
            2 => (v == m - 1) as usize,
            3 => (v == at) as usize,
            // All equal, or all but one.
            4 => 7,
            5 => 5 + (v == at) as usize,
            6 => 5 - (v == at) as usize,
            // Rising, falling, rising in steps, one half more than the other.
            7 => v,
            8 => m - v,
            9 => v / 4,
            10 => 3 * (v % 2),
            // Two values, few values, any.
            11 => [1, 9][draws.below(2)],
            12 => draws.below(4),
            _ => draws.below(100_000),
        })
        .collect()
}

/// Sums up to the largest u32.
fn largest_samples() -> Vec<Case> {
    let mut cases = Vec::new();
    for bins in [
        vec![u32::MAX as usize, 0],
        vec![0, u32::MAX as usize],
        vec![1 << 31, (1 << 31) - 1],
        vec![(1 << 31) - 1, 1 << 31],
        vec![8_388_608, 8_388_608],
        vec![16_777_216, 0],
    ] {
        cases.push(Case { k: 1, roots: 2, bins });
    }
    cases.push(Case { k: 3, roots: 8, bins: vec![(1 << 29) - 1; 8] });
    cases.push(Case { k: 3, roots: 0, bins: vec![1 << 29, 1 << 29, 1 << 29, 1 << 29, (1 << 29) - 1, 1 << 29, 1 << 29, 1 << 29] });
    cases.push(Case { k: 4, roots: 16, bins: vec![1 << 20; 16] });
    cases
}

/// 1,024 and 4,096 bins.
fn wide(draws: &mut Draws) -> Vec<Case> {
    let mut cases = vec![Case { k: 10, roots: 256, bins: counts(draws, 12, 1024) }];
    for (roots, kind) in [(0, 12), (4096, 11), (256, 9)] {
        cases.push(Case { k: 12, roots, bins: counts(draws, kind, 4096) });
    }
    cases
}

/// Counts that lie as far apart as our sorting has keys, 64, 256 or, from 256 bins on, 1,024, one less and one more, with many at either end.
fn ends_of_keys(draws: &mut Draws) -> Vec<Case> {
    let mut cases = Vec::new();
    for k in 3..=8 {
        let m = 1 << k;
        let keys: &[usize] = if k < 8 { &[64, 256] } else { &[1024] };
        for span in keys.iter().flat_map(|keys| keys - 2..=keys + 1) {
            let (base, least, greatest) = ([0, 1, 3000][draws.below(3)], draws.below(m / 2), m / 2 + draws.below(m / 2));
            let mut above: Vec<usize> = (0..m).map(|_| [0, 1, span - 1, span, draws.below(span)][draws.below(5)]).collect();
            (above[least], above[greatest]) = (0, span);
            cases.push(Case { k, roots: m, bins: above.into_iter().map(|more| base + more).collect() });
        }
    }
    cases
}

/// A narrow ranking of the differential run that is not refused, without roots worked out beforehand, as in the call for hosts.
fn case_of_run(case: run::Case) -> Option<Case> {
    let run::Case::Ranking(drawn) = case else { return None };
    if drawn.k > 7 || drawn.refusal() != 0 {
        return None;
    }
    let bins = drawn.counts[..1 << drawn.k].iter().map(|&count| count as usize).collect();
    Some(Case { k: drawn.k, roots: 0, bins })
}
