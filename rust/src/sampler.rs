use crate::bit_order::BitOrder;
use crate::calls;
use crate::finding::Finding;
use crate::refusal::{accepted, Refusal};
use std::ops::Range;

/// A recording of up to four boards in progress, with the words that hold its blocks and the boards' unfinished bytes.
#[derive(Clone, Debug)]
pub struct Sampler {
    numbers: [u64; 8],
    unfinished: [u8; 2048],
    words: Vec<u64>,
}

/// A recording in progress under the earlier rule, of one board: its words hold an unfinished block too. [`Sampler::carry_over`] goes on from it.
#[derive(Clone, Debug, PartialEq, Eq)]
pub struct Earlier {
    pub block_size: usize,
    pub bit_order: BitOrder,
    /// The bytes taken so far (T).
    pub taken: usize,
    pub words: Vec<u64>,
}

impl Sampler {
    /// A recording of blocks of `block_size` bits, in the recorder's bit order, with room for at least `blocks` of them, up to 16,777,216.
    pub fn start(block_size: usize, bit_order: BitOrder, blocks: usize) -> Result<Sampler, Refusal> {
        let mut sampler = Sampler::of(Vec::new());
        sampler.call_start(block_size, bit_order)?;
        sampler.words = vec![0; block_size * blocks.min(16_777_216).div_ceil(64)];
        sampler.call_start(block_size, bit_order)?;
        Ok(sampler)
    }

    fn of(words: Vec<u64>) -> Sampler {
        Sampler { numbers: [0; 8], unfinished: [0; 2048], words }
    }

    fn call_start(&mut self, block_size: usize, bit_order: BitOrder) -> Result<(), Refusal> {
        let Sampler { numbers, unfinished, words } = self;
        accepted(calls::start(block_size, bit_order.low_first(), words, numbers, unfinished))
    }

    /// The recording that goes on from one of the earlier rule: its unfinished bytes are board 0's. Refused with [`Refusal::Sampler`] where its block size is
    /// none or it has taken more than its words hold; it then comes back as it was.
    ///
    /// ```
    /// use jimrawel::{BitOrder, Earlier, Refusal, Sampler};
    /// // Three bytes 0xFF in blocks of 16 bits: word b has bit b of block 0 in its lowest bit, and the first 8 that of the unfinished block 1 in the next.
    /// let words = [[3; 8], [1; 8]].concat();
    /// let earlier = Earlier { block_size: 16, bit_order: BitOrder::HighFirst, taken: 3, words };
    /// let mut sampler = Sampler::carry_over(earlier).map_err(|(refusal, _)| refusal)?;
    /// assert_eq!((sampler.blocks(), sampler.unfinished(0)), (1, &[0xFF][..]));
    /// sampler.feed(&[0x00])?;
    /// assert_eq!((sampler.blocks(), sampler.unfinished(0)), (2, &[][..]));
    /// # Ok::<(), Refusal>(())
    /// ```
    pub fn carry_over(earlier: Earlier) -> Result<Sampler, (Refusal, Earlier)> {
        let Earlier { block_size, bit_order, taken, words } = earlier;
        let numbers = [block_size as u64, words.len() as u64, taken as u64, bit_order.low_first() as u64];
        let mut sampler = Sampler::of(words);
        match accepted(calls::carry_over(&numbers, &mut sampler.words, &mut sampler.numbers, &mut sampler.unfinished)) {
            Ok(()) => Ok(sampler),
            Err(refusal) => Err((refusal, Earlier { block_size, bit_order, taken, words: sampler.words })),
        }
    }

    pub fn block_size(&self) -> usize {
        self.numbers[0] as usize
    }

    pub fn bit_order(&self) -> BitOrder {
        BitOrder::of(self.numbers[3])
    }

    /// The blocks completed so far, of all boards.
    pub fn blocks(&self) -> usize {
        calls::blocks(&self.numbers)
    }

    /// The bytes of a board past its last whole block, fewer than a block's; none of a board above 3.
    pub fn unfinished(&self, board: usize) -> &[u8] {
        match self.numbers[4..].get(board) {
            Some(&length) => &self.unfinished[512 * board..][..length as usize],
            None => &[],
        }
    }

    /// Takes the next piece of board 0: all that a recorder with one board needs. Where it is refused nothing has changed.
    pub fn feed(&mut self, piece: &[u8]) -> Result<(), Refusal> {
        self.feed_board(0, piece)
    }

    /// Takes the next piece of one of the boards 0 to 3. A block is of one board; the blocks stand in the order in which they are completed, by whatever board.
    /// Where it is refused nothing has changed.
    pub fn feed_board(&mut self, board: usize, piece: &[u8]) -> Result<(), Refusal> {
        let Sampler { numbers, unfinished, words } = self;
        accepted(calls::feed(numbers, unfinished, words, board, piece))
    }

    /// The best set of `k` bits in all whole blocks.
    pub fn search(&self, k: usize) -> Result<Finding, Refusal> {
        self.search_in(0..self.blocks(), k)
    }

    /// The best set of `k` bits in a stretch of the whole blocks, as if these alone had been recorded. The store of a search by layers, which with many sets is
    /// the faster way, is allocated for it where 64 Mi entries, 256 MB, are enough; else it has none.
    pub fn search_in(&self, stretch: Range<usize>, k: usize) -> Result<Finding, Refusal> {
        self.search_with(stretch, k, &mut vec![0; own_store(self.block_size(), k)])
    }

    /// The same with the caller's store, and by it the way: with [`store_needed`](crate::store_needed) entries or more the search goes by layers and leaves in
    /// them the counts of the smaller sets; with fewer, or none, every bin is counted and the store stays as it is. The finding is the same.
    pub fn search_with(&self, stretch: Range<usize>, k: usize, store: &mut [u32]) -> Result<Finding, Refusal> {
        let Sampler { numbers, words, .. } = self;
        // A width above 20 is refused before the buffers are looked at.
        let entries = if k <= 20 { 1 << k } else { 0 };
        let (mut bins, mut order, mut finding) = (vec![0; entries], vec![0; entries], [0; 25]);
        accepted(calls::bottomup(numbers, words, stretch, k, store, &mut bins, &mut order, &mut finding))?;
        Ok(Finding::found(finding, order, bins))
    }
}

/// The most entries of a store that a search allocates: 256 MB.
const MOST_STORED: usize = 64 << 20;

/// The entries of the store that a search allocates: none where they would be more than the most.
pub(crate) fn own_store(block_size: usize, k: usize) -> usize {
    let needed = calls::store_needed(block_size, k);
    if needed > MOST_STORED { 0 } else { needed }
}

#[cfg(test)]
mod tests {
    use super::own_store;

    #[test]
    fn own_stores() {
        for (block_size, k, entries) in [(8, 8, 254), (24, 20, 16_764_264), (128, 4, 349_632), (4096, 3, 8_390_656)] {
            assert_eq!(own_store(block_size, k), entries, "B {block_size}, k {k}");
        }
        // 275,584,032 are needed, more than 2^32 would be, and none are.
        for (block_size, k) in [(128, 6), (128, 7), (8, 0)] {
            assert_eq!(own_store(block_size, k), 0, "B {block_size}, k {k}");
        }
    }
}
