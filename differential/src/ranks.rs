//! Ranks of every subset of a block, one after another, so that a rank is known by its place; the reference answers each too. And how many entries a store
//! needs, which are as many subsets, for every block size and width.

use crate::account::Run;
use crate::case::{same, Checked};
use crate::ours;
use crate::recordings::store_size;
use answers::{choose, compute_index, Draws};

/// Block sizes and the widths of which every subset is ranked; the coefficients of 3 of 520 bits go past row 512, the last of the table of small ones (`subsets::pascal`).
const WHOLE: [(usize, usize, usize); 10] =
    [(8, 1, 8), (16, 1, 16), (24, 1, 20), (32, 1, 6), (64, 1, 4), (128, 1, 3), (256, 3, 3), (512, 3, 3), (520, 3, 3), (4096, 1, 2)];

/// The most subsets that are ranked.
const LIMIT: usize = 1 << 32;

pub fn run() {
    let mut run = Run::new();
    for (block_size, narrowest, widest) in WHOLE {
        for k in narrowest..=widest {
            println!("B {block_size}, k {k}");
            walk(&mut run, block_size, (0..k).collect(), 0, choose(block_size, k));
        }
    }
    for k in 1..=20 {
        at_the_limit(&mut run, k);
    }
    // Past the limits too.
    for (block_size, k) in (0..=4_200).flat_map(|block_size| (0..=22).map(move |k| (block_size, k))) {
        let entries = store_size(block_size, k).unwrap_or(0);
        run.compare("entries that a store needs", |_| same(&format!("B {block_size}, k {k}"), ours::store_needed(block_size, k), entries));
    }
    run.close("ranks");
}

/// The largest block that has at most 2^32 subsets of a width: the first of them, the last, those after drawn ones; the next block is refused.
fn at_the_limit(run: &mut Run, k: usize) {
    let block_size = (8..=4096).rev().step_by(8).find(|&size| size >= k && choose(size, k) <= LIMIT).unwrap();
    let all = choose(block_size, k);
    println!("B {block_size}, k {k}, at the limit");
    // Those of the highest positions are the last.
    let high = (k + 1..=block_size).find(|&high| choose(high, k) >= 2_000).unwrap_or(block_size);
    let top = choose(high, k);
    walk(run, block_size, (0..k).collect(), 0, top.min(all));
    walk(run, block_size, (block_size - high..block_size - high + k).collect(), all - top, top);
    let draws = &mut Draws::new(k as u64);
    for _ in 0..500 {
        let bits = draws.subset(block_size, k);
        let rank = compute_index(&bits, block_size);
        walk(run, block_size, bits, rank, (all - rank).min(20));
    }
    for (block_size, refusal) in [(block_size + 8, if block_size == 4096 { 1 } else { 12 }), (block_size, 0)] {
        let bits: Vec<u32> = (0..k as u32).collect();
        run.compare("refusals", |_| same("refusal and rank", ours::rank(block_size, &bits), (refusal, 0)));
    }
}

/// As many subsets from the one given on, which has the rank given.
fn walk(run: &mut Run, block_size: usize, mut bits: Vec<usize>, rank: usize, subsets: usize) {
    for place in rank..rank + subsets {
        run.compare("ranks", |_| at_its_place(block_size, &bits, place));
        let more = step(&mut bits, block_size);
        assert_eq!(more, place + 1 < choose(block_size, bits.len()), "another subset");
    }
}

fn at_its_place(block_size: usize, bits: &[usize], place: usize) -> Checked {
    let mut numbers = [0; 20];
    for (number, &bit) in numbers.iter_mut().zip(bits) {
        *number = bit as u32;
    }
    same("refusal and rank", ours::rank(block_size, &numbers[..bits.len()]), (0, place))?;
    same("the reference's rank", compute_index(bits, block_size), place)
}

/// The next subset: the last bit that can grow does, and those after it follow it. Answers whether there is one.
fn step(bits: &mut [usize], block_size: usize) -> bool {
    let k = bits.len();
    let Some(at) = (0..k).rev().find(|&at| bits[at] + k - at < block_size) else { return false };
    let bit = bits[at] + 1;
    for (further, entry) in bits[at..].iter_mut().enumerate() {
        *entry = bit + further;
    }
    true
}
