//! The calls on slices, each lent with its length. Safe: a slice is aligned and valid for all its entries, and one that is written overlaps no other.
//! What is lent and left, and each refusal, says include/jimrawel.h. The types beside this module size the slices themselves.

use crate::raw;
use std::ops::Range;

/// A sampler is 8 numbers and 2,048 bytes, its boards' unfinished ones.
pub fn start(block_size: usize, low_first: bool, words: &mut [u64], sampler: &mut [u64], unfinished: &mut [u8]) -> u32 {
    unsafe {
        raw::jimrawel_start(
            block_size,
            low_first,
            words.as_mut_ptr(), words.len(),
            sampler.as_mut_ptr(), sampler.len(),
            unfinished.as_mut_ptr(), unfinished.len(),
        )
    }
}

pub fn feed(sampler: &mut [u64], unfinished: &mut [u8], words: &mut [u64], board: usize, piece: &[u8]) -> u32 {
    unsafe {
        raw::jimrawel_feed(
            sampler.as_mut_ptr(), sampler.len(),
            unfinished.as_mut_ptr(), unfinished.len(),
            words.as_mut_ptr(), words.len(),
            board,
            piece.as_ptr(), piece.len(),
        )
    }
}

/// `earlier` is the 4 numbers of a sampler made under the earlier rule.
pub fn carry_over(earlier: &[u64], words: &mut [u64], sampler: &mut [u64], unfinished: &mut [u8]) -> u32 {
    unsafe {
        raw::jimrawel_carry_over(
            earlier.as_ptr(), earlier.len(),
            words.as_mut_ptr(), words.len(),
            sampler.as_mut_ptr(), sampler.len(),
            unfinished.as_mut_ptr(), unfinished.len(),
        )
    }
}

pub fn blocks(sampler: &[u64]) -> usize {
    unsafe { raw::jimrawel_blocks(sampler.as_ptr(), sampler.len()) }
}

/// `stretch` is from the first block to before the end. A `store` of [`store_needed`] entries or more afterwards begins with the counts of all sets of 1 to
/// max(1, k - 1) bits; a shorter one stays as it is.
pub fn bottomup(
    sampler: &[u64], words: &[u64], stretch: Range<usize>, k: usize,
    store: &mut [u32], bins: &mut [u32], order: &mut [u32], finding: &mut [u64],
) -> u32 {
    unsafe {
        raw::jimrawel_bottomup(
            sampler.as_ptr(), sampler.len(),
            words.as_ptr(), words.len(),
            stretch.start, stretch.end,
            k,
            store.as_mut_ptr(), store.len(),
            bins.as_mut_ptr(), bins.len(),
            order.as_mut_ptr(), order.len(),
            finding.as_mut_ptr(), finding.len(),
        )
    }
}

/// How many entries a store must have for a search by layers: the sum of C(B, d) for d from 1 to max(1, k - 1). 0 where no store makes it one: the block size
/// or the width is refused, or the sum is above 2^32.
pub fn store_needed(block_size: usize, k: usize) -> usize {
    unsafe { raw::jimrawel_store_needed(block_size, k) }
}

pub fn compute_index(block_size: usize, bits: &[u32], rank: &mut usize) -> u32 {
    unsafe { raw::jimrawel_compute_index(block_size, bits.as_ptr(), bits.len(), rank) }
}

pub fn from_bins(k: usize, bins: &[u32], order: &mut [u32], ranking: &mut [u64]) -> u32 {
    unsafe {
        raw::jimrawel_from_bins(
            k,
            bins.as_ptr(), bins.len(),
            order.as_mut_ptr(), order.len(),
            ranking.as_mut_ptr(), ranking.len(),
        )
    }
}

pub fn validate(finding: &[u64], order: &[u32], scratch: &mut [u32]) -> u32 {
    unsafe {
        raw::jimrawel_validate(
            finding.as_ptr(), finding.len(),
            order.as_ptr(), order.len(),
            scratch.as_mut_ptr(), scratch.len(),
        )
    }
}

pub fn evaluate_histogram(finding: &[u64], order: &[u32], bytes: &[u8], scratch: &mut [u32], evaluated: &mut [u64]) -> u32 {
    unsafe {
        raw::jimrawel_evaluate_histogram(
            finding.as_ptr(), finding.len(),
            order.as_ptr(), order.len(),
            bytes.as_ptr(), bytes.len(),
            scratch.as_mut_ptr(), scratch.len(),
            evaluated.as_mut_ptr(), evaluated.len(),
        )
    }
}

pub fn bracket(n: usize, c: usize, k: usize, d: usize, scratch: &mut [u64], low: &mut u64, high: &mut u64) -> u32 {
    unsafe { raw::jimrawel_bracket(n, c, k, d, scratch.as_mut_ptr(), scratch.len(), low, high) }
}

pub fn write_finding(finding: &[u64], order: &[u32], scratch: &mut [u32], out: &mut [u8], length: &mut usize) -> u32 {
    unsafe {
        raw::jimrawel_write_finding(
            finding.as_ptr(), finding.len(),
            order.as_ptr(), order.len(),
            scratch.as_mut_ptr(), scratch.len(),
            out.as_mut_ptr(), out.len(),
            length,
        )
    }
}

pub fn read_finding(text: &[u8], order: &mut [u32], scratch: &mut [u32], finding: &mut [u64]) -> u32 {
    unsafe {
        raw::jimrawel_read_finding(
            text.as_ptr(), text.len(),
            order.as_mut_ptr(), order.len(),
            scratch.as_mut_ptr(), scratch.len(),
            finding.as_mut_ptr(), finding.len(),
        )
    }
}

pub fn longest_text(k: usize) -> usize {
    unsafe { raw::jimrawel_longest_text(k) }
}

pub fn whole_blocks(bytes: &[u8], block_size: usize, training: bool, lengths: &mut [u64]) -> u32 {
    unsafe {
        raw::jimrawel_whole_blocks(
            bytes.as_ptr(), bytes.len(),
            block_size,
            training,
            lengths.as_mut_ptr(), lengths.len(),
        )
    }
}

pub fn configurations(block_size: usize, data_size: usize, plan: &mut [u64]) -> u32 {
    unsafe { raw::jimrawel_configurations(block_size, data_size, plan.as_mut_ptr(), plan.len()) }
}

/// `words` have to hold the training half of every pair of the plan; with any `store` the answer is the same.
pub fn sweep(
    bytes: &[u8], block_size: usize, low_first: bool, level: u64,
    words: &mut [u64], store: &mut [u32], bins: &mut [u32], order: &mut [u32], scratch: &mut [u32], entries: &mut [u64], swept: &mut [u64],
) -> u32 {
    unsafe {
        raw::jimrawel_sweep(
            bytes.as_ptr(), bytes.len(),
            block_size,
            low_first,
            level,
            words.as_mut_ptr(), words.len(),
            store.as_mut_ptr(), store.len(),
            bins.as_mut_ptr(), bins.len(),
            order.as_mut_ptr(), order.len(),
            scratch.as_mut_ptr(), scratch.len(),
            entries.as_mut_ptr(), entries.len(),
            swept.as_mut_ptr(), swept.len(),
        )
    }
}
