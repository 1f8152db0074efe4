//! What a store that suffices holds after a search: for each set of 1 to max(1, k - 1) bits how many blocks have all its bits set.

use crate::{choose, compute_index, multi_eval, Rows};
use itertools::Itertools;

/// The sets in the order of their counts: by size, then lexicographic.
pub fn stored_sets(block_size: usize, k: usize) -> impl Iterator<Item = Vec<usize>> {
    (1..=1.max(k - 1)).flat_map(move |d| (0..block_size).combinations(d))
}

/// The place of a set's count, by the reference's rank.
pub fn stored_place(block_size: usize, bits: &[usize]) -> usize {
    (1..bits.len()).map(|d| choose(block_size, d)).sum::<usize>() + compute_index(bits, block_size)
}

/// The sum of all counts, each times its place from 1 on, modulo 2^64: by it a program says what a store holds.
pub fn checksum(rows: &Rows, block_size: usize, k: usize) -> u64 {
    let counts = stored_sets(block_size, k).map(|bits| multi_eval(&bits, rows) as u64);
    counts.zip(1_u64..).fold(0, |sum, (count, place)| place.wrapping_mul(count).wrapping_add(sum))
}
