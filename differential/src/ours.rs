//! Our calls, with answers that hold something before each, so that what a call leaves unwritten is seen.

use answers::{Feed, Plain};
use jimrawel::calls;
pub use jimrawel::calls::{bracket, from_bins, longest_text, store_needed, validate};
use std::ops::Range;

/// What stands in every number of an answer before.
pub const LENT: u64 = 7;

/// A sampler, its numbers and its boards' unfinished bytes, with the words of its recording.
#[derive(Clone, PartialEq)]
pub struct Sampler {
    pub numbers: [u64; 8],
    pub unfinished: [u8; 2048],
    pub words: Vec<u64>,
}

impl Sampler {
    /// No sampler yet, in words that are all ones.
    pub fn lent(words: usize) -> Sampler {
        Sampler { numbers: [LENT; 8], unfinished: [LENT as u8; 2048], words: vec![u64::MAX; words] }
    }

    /// One that has taken nothing.
    pub fn started(block_size: usize, low_first: bool, words: usize) -> Sampler {
        let mut sampler = Sampler::lent(words);
        assert_eq!(sampler.start(block_size, low_first), 0);
        sampler
    }

    pub fn start(&mut self, block_size: usize, low_first: bool) -> u32 {
        calls::start(block_size, low_first, &mut self.words, &mut self.numbers, &mut self.unfinished)
    }

    pub fn carry_over(&mut self, earlier: &[u64]) -> u32 {
        calls::carry_over(earlier, &mut self.words, &mut self.numbers, &mut self.unfinished)
    }

    pub fn feed(&mut self, board: usize, piece: &[u8]) -> u32 {
        calls::feed(&mut self.numbers, &mut self.unfinished, &mut self.words, board, piece)
    }

    pub fn feed_one(&mut self, feed: &Feed) -> u32 {
        self.feed(feed.board, &feed.piece)
    }

    pub fn blocks(&self) -> usize {
        calls::blocks(&self.numbers)
    }

    pub fn bottomup(&self, stretch: Range<usize>, k: usize, store: &mut [u32], bins: &mut [u32], order: &mut [u32]) -> Searched {
        let mut finding = [LENT; 25];
        let refusal = calls::bottomup(&self.numbers, &self.words, stretch, k, store, bins, order, &mut finding);
        Searched { refusal, finding }
    }
}

/// The numbers and the unfinished bytes of a sampler that has taken what the plain recording has: board b's from place 512 * b on, and 0 past them.
pub fn sampler_of(plain: &Plain, low_first: bool) -> ([u64; 8], [u8; 2048]) {
    let (mut numbers, mut unfinished) = ([0; 8], [0; 2048]);
    numbers[..4].copy_from_slice(&[plain.block_size as u64, plain.words as u64, plain.blocks() as u64, low_first as u64]);
    for (board, tail) in plain.tails.iter().enumerate() {
        numbers[4 + board] = tail.len() as u64;
        unfinished[512 * board..][..tail.len()].copy_from_slice(tail);
    }
    (numbers, unfinished)
}

/// What a search answers: its refusal and the 25 numbers of its finding.
#[derive(Clone, Debug, PartialEq)]
pub struct Searched {
    pub refusal: u32,
    pub finding: [u64; 25],
}

/// The rank's refusal and the rank.
pub fn rank(block_size: usize, bits: &[u32]) -> (u32, usize) {
    let mut rank = LENT as usize;
    (calls::compute_index(block_size, bits, &mut rank), rank)
}

/// The refusal and the evaluation's numbers.
pub fn evaluate(finding: &[u64], order: &[u32], bytes: &[u8], scratch: &mut [u32]) -> (u32, [u64; 3]) {
    let mut evaluated = [LENT; 3];
    (calls::evaluate_histogram(finding, order, bytes, scratch, &mut evaluated), evaluated)
}

/// The refusal and the length of the text.
pub fn write(finding: &[u64], order: &[u32], scratch: &mut [u32], out: &mut [u8]) -> (u32, usize) {
    let mut length = LENT as usize;
    (calls::write_finding(finding, order, scratch, out, &mut length), length)
}

/// The refusal and the finding's numbers.
pub fn read(text: &[u8], order: &mut [u32], scratch: &mut [u32]) -> (u32, [u64; 25]) {
    let mut finding = [LENT; 25];
    (calls::read_finding(text, order, scratch, &mut finding), finding)
}

/// The refusal and the lengths of the two parts.
pub fn whole_blocks(bytes: &[u8], block_size: usize, training: bool) -> (u32, [u64; 2]) {
    let mut lengths = [LENT; 2];
    (calls::whole_blocks(bytes, block_size, training, &mut lengths), lengths)
}

/// The refusal and the plan's numbers.
pub fn configurations(block_size: usize, data_size: usize) -> (u32, [u64; 15]) {
    let mut plan = [LENT; 15];
    (calls::configurations(block_size, data_size, &mut plan), plan)
}
