//! The bias search for recordings of hardware random generators, over the proved library's C interface (include/jimrawel.h).
//!
//! A [`Sampler`] owns its words, so it cannot meet others; a [`Finding`] comes only from a search, a check or a sound text, with its own bin order. Buffers
//! have the right size by construction, and what is refused is a [`Refusal`]. [`sweep`](fn@sweep) tests a whole recording and gives a [`Verdict`].
//!
//! ```
//! use jimrawel::{BitOrder, Refusal, Sampler};
//! let mut sampler = Sampler::start(8, BitOrder::HighFirst, 64)?;
//! sampler.feed(&[0x00, 0x00, 0xFF])?;
//! sampler.feed(&[0xFF])?;
//! let finding = sampler.search(2)?;
//! // With no store every bin is counted anew: the same finding.
//! assert_eq!(finding, sampler.search_with(0..sampler.blocks(), 2, &mut [])?);
//! assert_eq!((finding.bits(), finding.order(), finding.division(), finding.z()), (&[0, 1][..], &[0, 3, 1, 2][..], 2, 2.0));
//! let evaluation = finding.evaluate(&[0x00, 0x80, 0xFF, 0xFF])?;
//! assert_eq!((evaluation.positive, evaluation.z), (3, Some(1.0)));
//! // A fair source has at least 3 of 4 with a chance between these, times 2^-40.
//! let bracket = finding.bracket(&[0x00, 0x80, 0xFF, 0xFF])?;
//! assert_eq!((bracket.low, bracket.high), (343_597_383_680, 343_597_383_694));
//! let later = sampler.search_in(2..sampler.blocks(), 2)?;
//! assert_eq!((later.bits(), later.counts(), later.division()), (&[0, 1][..], &[0, 0, 0, 2][..], 1));
//! assert_eq!(Sampler::start(12, BitOrder::HighFirst, 64).unwrap_err(), Refusal::BlockSize);
//!
//! // A recorder that packs the first bit at the low end of a byte: it is bit 0, and what never changes begins with bit 1.
//! let mut low = Sampler::start(8, BitOrder::LowFirst, 64)?;
//! low.feed(&[0x01, 0x01, 0x01, 0x00])?;
//! let finding = low.search(2)?;
//! assert_eq!((finding.bit_order(), finding.bits()), (BitOrder::LowFirst, &[1, 2][..]));
//! assert_eq!(finding.evaluate(&[0x01, 0x04])?.counts, [1, 0, 1, 0]);
//!
//! // Up to four boards on one sampler: blocks stand in the order of completion, and none has bytes of two boards.
//! let mut boards = Sampler::start(16, BitOrder::HighFirst, 64)?;
//! boards.feed_board(0, &[0x00])?;
//! boards.feed_board(3, &[0xFF, 0xFF, 0x5A])?;
//! boards.feed_board(0, &[0x00])?;
//! assert_eq!((boards.blocks(), boards.unfinished(0), boards.unfinished(3)), (2, &[][..], &[0x5A][..]));
//! assert_eq!((boards.search_in(0..1, 1)?.counts(), boards.search_in(1..2, 1)?.counts()), (&[0, 1][..], &[1, 0][..]));
//! assert_eq!(boards.feed_board(4, &[0x00]), Err(Refusal::Board));
//! # Ok::<(), Refusal>(())
//! ```

mod bit_order;
mod bracket;
pub mod calls;
mod finding;
mod raw;
mod refusal;
mod sampler;
mod sweep;

pub use bit_order::BitOrder;
pub use bracket::Bracket;
pub use calls::store_needed;
pub use finding::{Evaluation, Finding};
pub use refusal::Refusal;
pub use sampler::{Earlier, Sampler};
pub use sweep::{sweep, Sweep, Tested, Verdict};

use refusal::accepted;

/// How many subsets of as many bits come before these, in lexicographic order.
pub fn rank(block_size: usize, bits: &[u32]) -> Result<usize, Refusal> {
    let mut rank = 0;
    accepted(calls::compute_index(block_size, bits, &mut rank))?;
    Ok(rank)
}

/// The training and the testing blocks of raw bytes; without training the first part is all whole blocks.
pub fn split(bytes: &[u8], block_size: usize, training: bool) -> Result<(&[u8], &[u8]), Refusal> {
    let mut lengths = [0; 2];
    accepted(calls::whole_blocks(bytes, block_size, training, &mut lengths))?;
    let (first, rest) = bytes.split_at(lengths[0] as usize);
    Ok((first, &rest[..lengths[1] as usize]))
}

/// The pairs of a block size and a width that a sweep searches, for a recording of so many bytes.
pub fn plan(block_size: usize, data_size: usize) -> Result<Vec<(usize, usize)>, Refusal> {
    let mut plan = [0; 15];
    accepted(calls::configurations(block_size, data_size, &mut plan))?;
    Ok((0..plan[0] as usize).map(|i| (plan[1 + i] as usize, plan[8 + i] as usize)).collect())
}
