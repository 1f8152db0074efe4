//! Ranks: B, k and a bit array, whose entries past k are drawn and mean nothing.

use crate::binomial;
use answers::*;

const LIMIT: u128 = 1 << 32;

struct Case {
    block_size: usize,
    k: usize,
    bits: Vec<usize>,
}

pub fn write(sheet: &mut Sheet, draws: &mut Draws) {
    let mut cases = refused(draws);
    cases.extend(every_subset_of_eight());
    cases.extend(ends(draws));
    cases.extend(at_the_limit(draws));
    cases.extend(drawn(draws));
    cases.extend(run::sample().filter_map(case_of_run));
    sheet.note("Ranks: the reference's compute_index; C(B, k) by Pascal's rule and the refusals by the rules, in a dozen lines of that tool.");
    sheet.note("Each: B, k and 20 bits, of which those past k mean nothing. Answer: refusal and rank.");
    sheet.note(&run::note());
    sheet.case([cases.len()]);
    for case in &cases {
        let mut bits = case.bits.clone();
        while bits.len() < 20 {
            bits.push(draws.below(if bits.len() % 2 == 0 { 9 } else { 5000 }));
        }
        sheet.case([case.block_size, case.k].into_iter().chain(bits.iter().copied()));
        let refusal = refusal(case.block_size, case.k, &bits);
        let rank = if refusal == 0 { compute_index(&bits[..case.k], case.block_size) } else { 0 };
        sheet.answer([refusal, rank]);
    }
}

/// The first condition that applies, in the order of rank's refusals; 0 where none does.
fn refusal(block_size: usize, k: usize, bits: &[usize]) -> usize {
    if !valid(block_size) {
        1
    } else if k == 0 || k > 20 {
        2
    } else if k > block_size {
        3
    } else if bits[..k].windows(2).any(|pair| pair[0] >= pair[1]) {
        9
    } else if bits[..k].iter().any(|bit| *bit >= block_size) {
        10
    } else if binomial(block_size, k) > LIMIT {
        12
    } else {
        0
    }
}

fn first(block_size: usize, k: usize) -> Case {
    Case { block_size, k, bits: (0..k).collect() }
}

fn last(block_size: usize, k: usize) -> Case {
    Case { block_size, k, bits: (block_size - k..block_size).collect() }
}

/// Each refusal alone, and pairs of faults of which the earlier is answered.
fn refused(draws: &mut Draws) -> Vec<Case> {
    let mut cases = Vec::new();
    let mut add = |block_size: usize, k: usize, bits: &[usize]| cases.push(Case { block_size, k, bits: bits.to_vec() });
    for block_size in [0, 1, 7, 9, 12, 4095, 4097, 4104, 65536, 1 << 32, (1 << 32) + 8, usize::MAX - 7, usize::MAX] {
        add(block_size, 2, &[0, 1]);
    }
    for k in [0, 21, 22, 255, 1 << 32, (1 << 32) + 2, usize::MAX] {
        add(64, k, &[0, 1, 2]);
    }
    for (block_size, k) in [(8, 9), (8, 10), (8, 20), (16, 17), (16, 20)] {
        add(block_size, k, &(0..k).collect::<Vec<_>>());
    }
    for bits in [vec![1, 0], vec![3, 3], vec![0, 1, 1], vec![5, 4, 6], vec![0, 7, 2], (0..20).rev().collect(), [(0..19).collect(), vec![18]].concat()] {
        add(24, bits.len(), &bits);
    }
    for (block_size, bits) in [(8, vec![8]), (8, vec![0, 9]), (64, vec![0, 63, 64]), (24, (5..25).collect()), (4096, vec![4096]), (4096, vec![1, u32::MAX as usize])] {
        add(block_size, bits.len(), &bits);
    }
    // B and the width; B and the width against B; B and the bits; B and the number of subsets.
    add(12, 0, &[0]);
    add(12, 21, &[0]);
    add(0, 1, &[0]);
    add(4, 5, &[0, 1, 2, 3, 4]);
    add(7, 2, &[1, 0]);
    add(20, 2, &[1, 20]);
    add(4095, 10, &(0..10).collect::<Vec<_>>());
    // The width, above B too; with bits that fall; with too many subsets.
    add(8, 21, &(0..20).collect::<Vec<_>>());
    add(8, 0, &[9]);
    add(64, 21, &(0..20).rev().collect::<Vec<_>>());
    add(4096, 21, &(0..20).collect::<Vec<_>>());
    // Above B, with bits that fall, with bits outside.
    add(8, 9, &(0..9).rev().collect::<Vec<_>>());
    add(8, 9, &(1..10).collect::<Vec<_>>());
    // Bits that do not increase, and one outside, in either order; with too many subsets.
    add(8, 2, &[300, 5]);
    add(8, 2, &[9, 9]);
    add(16, 3, &[4, 4, 16]);
    add(16, 3, &[16, 5, 4]);
    add(4096, 4, &[7, 6, 8, 9]);
    // A bit outside, with too many subsets.
    add(4096, 4, &[6, 7, 8, 4096]);
    // Too many subsets: B = 64 from width 7 on, and the widest.
    add(64, 7, &draws.subset(64, 7));
    add(4096, 20, &draws.subset(4096, 20));
    cases
}

fn every_subset_of_eight() -> Vec<Case> {
    let mut cases = Vec::new();
    for set in 1u32..256 {
        let bits: Vec<usize> = (0..8).filter(|bit| set >> bit & 1 == 1).collect();
        cases.push(Case { block_size: 8, k: bits.len(), bits });
    }
    cases
}

/// The first and the last subset, and those beside them; the largest block at widths 1 and 2.
fn ends(draws: &mut Draws) -> Vec<Case> {
    let mut cases = Vec::new();
    for (block_size, k) in [(16, 1), (16, 8), (16, 16), (24, 12), (24, 20), (32, 16), (64, 3), (64, 6), (128, 4), (128, 5), (512, 3), (4096, 1), (4096, 2)] {
        cases.extend([first(block_size, k), last(block_size, k)]);
        for _ in 0..4 {
            cases.push(Case { block_size, k, bits: draws.subset(block_size, k) });
        }
    }
    for bits in [vec![1], vec![2048], vec![4094], vec![0, 4095], vec![1, 2], vec![1, 4095], vec![2047, 2048], vec![4093, 4095]] {
        cases.push(Case { block_size: 4096, k: bits.len(), bits });
    }
    cases
}

/// For every width, the largest block whose subsets number 2^32 or less, and the next, which is refused.
fn at_the_limit(draws: &mut Draws) -> Vec<Case> {
    let mut cases = Vec::new();
    for k in 3..=20 {
        let sizes: Vec<usize> = (8..=4096).step_by(8).filter(|size| *size >= k).collect();
        let above = *sizes.iter().find(|size| binomial(**size, k) > LIMIT).unwrap();
        for block_size in [above - 8, above] {
            cases.extend([first(block_size, k), last(block_size, k)]);
            cases.push(Case { block_size, k, bits: draws.subset(block_size, k) });
        }
    }
    cases
}

fn drawn(draws: &mut Draws) -> Vec<Case> {
    let mut cases = Vec::new();
    while cases.len() < 300 {
        let most = [3, 16, 64, 512][draws.below(4)];
        let block_size = 8 + 8 * draws.below(most);
        let k = 1 + draws.below(20);
        if k <= block_size && binomial(block_size, k) <= LIMIT {
            cases.push(Case { block_size, k, bits: draws.subset(block_size, k) });
        }
    }
    cases
}

/// The bits past the twentieth, where the width is refused, have no place in the array.
fn case_of_run(case: run::Case) -> Option<Case> {
    let run::Case::Rank(run::Rank { block_size, bits }) = case else { return None };
    Some(Case { block_size, k: bits.len(), bits: bits.iter().take(20).map(|&bit| bit as usize).collect() })
}
