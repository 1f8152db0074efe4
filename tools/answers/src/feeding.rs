//! Recordings that the boards of a sampler are fed in pieces, and the rules of start, carry-over and feed, since the reference takes a recording whole.

use crate::{high_first, transform_data, Draws, Sheet};

/// Stretches of 33,000 blocks from and to the ends of words and of a chunk of 32,768 marks, which begins with the word of the first block; one is refused.
pub const CHUNK_ENDS: [(usize, usize); 28] = [
    (0, 32_767), (0, 32_768), (0, 32_769), (1, 32_768), (1, 32_769), (63, 32_769), (63, 32_831), (64, 32_831), (64, 32_832), (64, 32_833),
    (65, 32_832), (65, 32_833), (127, 32_833), (128, 32_896), (128, 32_897), (129, 33_000), (32_704, 33_000), (32_767, 32_767), (32_767, 32_768),
    (32_767, 32_769), (32_767, 33_000), (32_768, 32_768), (32_768, 32_769), (32_768, 33_000), (32_769, 32_769), (32_769, 33_000), (33_000, 33_000),
    (32_769, 32_768),
];

/// The same about the 4,096 marks of a short chunk.
pub const SHORT_CHUNK_ENDS: [(usize, usize); 15] = [
    (0, 4_095), (0, 4_096), (0, 4_097), (1, 4_096), (1, 4_097), (63, 4_096), (63, 4_097), (64, 4_160), (64, 4_161), (65, 4_160),
    (65, 4_161), (28_672, 32_768), (28_672, 32_769), (28_735, 32_768), (28_735, 32_769),
];

pub fn valid(block_size: usize) -> bool {
    block_size % 8 == 0 && (8..=4096).contains(&block_size)
}

/// For a valid block size.
pub fn capacity(block_size: usize, words: usize) -> usize {
    (64 * (words / block_size)).min(16_777_216)
}

/// For a valid block size.
pub fn capacity_bytes(block_size: usize, words: usize) -> usize {
    capacity(block_size, words) * (block_size / 8)
}

/// A piece, and the board that it is fed to.
#[derive(Clone, Debug)]
pub struct Feed {
    pub board: usize,
    pub piece: Vec<u8>,
}

/// The pieces as board 0's.
pub fn alone(pieces: Vec<Vec<u8>>) -> Vec<Feed> {
    pieces.into_iter().map(|piece| Feed { board: 0, piece }).collect()
}

/// How a recording begins: with a start; or, under the earlier rule, with a recording of one board that is carried over.
#[derive(Clone, Debug)]
pub enum Begin {
    Start,
    CarryOver(Earlier),
}

/// What the earlier sampler says of its words and of the bytes taken; whether the words are all ones, not zeros, where no byte is laid; the bytes laid.
#[derive(Clone, Debug)]
pub struct Earlier {
    pub words: usize,
    pub taken: usize,
    pub ones: bool,
    pub bytes: Vec<u8>,
}

impl Earlier {
    /// As the earlier rule left it: zeros where no byte is laid.
    pub fn of(words: usize, bytes: Vec<u8>) -> Earlier {
        Earlier { words, taken: bytes.len(), ones: false, bytes }
    }
}

/// The plain recording of the rules: the blocks, in the order completed, and each board's unfinished bytes. It knows nothing of a sampler or of words.
#[derive(Clone, Debug)]
pub struct Plain {
    pub block_size: usize,
    pub words: usize,
    pub held: Vec<u8>,
    pub tails: [Vec<u8>; 4],
}

impl Plain {
    pub fn start(block_size: usize, words: usize) -> Plain {
        Plain { block_size, words, held: vec![], tails: Default::default() }
    }

    /// Of bytes recorded under the earlier rule: their whole blocks, and what is past them as board 0's.
    pub fn carry_over(block_size: usize, words: usize, bytes: &[u8]) -> Plain {
        let whole = bytes.len() - bytes.len() % (block_size / 8);
        let tails = [bytes[whole..].to_vec(), vec![], vec![], vec![]];
        Plain { held: bytes[..whole].to_vec(), tails, ..Plain::start(block_size, words) }
    }

    /// n.
    pub fn blocks(&self) -> usize {
        self.held.len() / (self.block_size / 8)
    }

    /// 4 after a refused start, 21 where there is no such board, 5 where more blocks would be completed than capacity leaves, else 0; what is refused adds
    /// nothing.
    pub fn feed(&mut self, feed: &Feed) -> usize {
        if !valid(self.block_size) {
            return 4;
        }
        if feed.board > 3 {
            return 21;
        }
        let size = self.block_size / 8;
        let mut bytes = [&self.tails[feed.board][..], &feed.piece].concat();
        let completed = bytes.len() / size;
        if self.blocks() + completed > capacity(self.block_size, self.words) {
            return 5;
        }
        self.tails[feed.board] = bytes.split_off(completed * size);
        self.held.extend(bytes);
        0
    }

    pub fn feed_all(mut self, feeds: &[Feed]) -> Plain {
        for feed in feeds {
            self.feed(feed);
        }
        self
    }
}

/// Pieces under the earlier rule, which refuses one that would bring the bytes past capacity: the bytes held after them.
pub fn earlier_bytes(block_size: usize, words: usize, pieces: &[Vec<u8>]) -> Vec<u8> {
    let mut held: Vec<u8> = vec![];
    for piece in pieces {
        if held.len() + piece.len() <= capacity_bytes(block_size, words) {
            held.extend(piece);
        }
    }
    held
}

/// Bytes of a kind: two values, a value alone, drawn, a short period, ones with a single zero, few values.
pub fn recording(draws: &mut Draws, kind: usize, bytes: usize) -> Vec<u8> {
    let period = draws.bytes(7);
    (0..bytes)
        .map(|t| match kind % 6 {
            0 => [0x0F, 0xF0][draws.below(2)],
            1 => 0xA5,
            2 => draws.next() as u8,
            3 => [0, 9, 0, 128, 9][t % 5],
            4 => if t == bytes / 2 { 0x7F } else { 0xFF },
            _ => period[draws.below(3)],
        })
        .collect()
}

/// The recording in pieces, cut at drawn places.
pub fn cut(draws: &mut Draws, recording: &[u8], parts: usize) -> Vec<Vec<u8>> {
    let mut cuts: Vec<usize> = (1..parts).map(|_| draws.below(recording.len() + 1)).collect();
    cuts.push(0);
    cuts.push(recording.len());
    cuts.sort();
    cuts.windows(2).map(|ends| recording[ends[0]..ends[1]].to_vec()).collect()
}

/// The recording in pieces of board 0, an empty one among them; between them some of the other boards, each of which completes no block, one of a board that
/// there is not, and one of board 0 that completes a block too many where it comes, unless that takes too much room here.
pub fn feeds(draws: &mut Draws, block_size: usize, words: usize, recording: &[u8]) -> Vec<Feed> {
    let (parts, size) = (2 + draws.below(5), block_size / 8);
    let mut pieces = cut(draws, recording, parts);
    pieces.insert(draws.below(parts), vec![]);
    let place = 1 + draws.below(parts);
    let held: usize = pieces[..place].iter().map(Vec::len).sum();
    let long = (capacity(block_size, words) + 1) * size - held;
    let mut feeds = alone(pieces);
    if long <= 500 {
        feeds.insert(place, Feed { board: 0, piece: draws.bytes(long) });
    }
    for board in [1, 2, 3, 4 + draws.below(3)] {
        let bytes = if board > 3 { 3 } else { draws.below(size.min(9)) };
        feeds.insert(draws.below(feeds.len() + 1), Feed { board, piece: draws.bytes(bytes) });
    }
    feeds
}

/// The recording dealt out in pieces to drawn boards, up to `most` of them; many end at a block's edge, or a byte before or behind it.
pub fn dealt(draws: &mut Draws, block_size: usize, recording: &[u8], most: usize) -> Vec<Feed> {
    let (size, mut at, mut feeds) = (block_size / 8, 0, vec![]);
    while at < recording.len() {
        let drawn = [0, 1, size - 1, size, size + 1, 2 * size, 1 + draws.below(3 * size), 1 + draws.below(size)][draws.below(8)];
        let bytes = if feeds.len() + 1 == most { recording.len() } else { drawn };
        let end = recording.len().min(at + bytes);
        feeds.push(Feed { board: draws.below(4), piece: recording[at..end].to_vec() });
        at = end;
    }
    feeds
}

/// The case: B, the bit order, the number of lent words, how the recording begins, the number of feeds, and each. The answer: the refusal of the start, which is
/// 1 where B is no multiple of 8 from 8 to 4,096, or of the carry-over, which is 4 where the earlier rule's is; for each feed its refusal, n after it and how
/// many unfinished bytes its board has; the order of the last sampler, which is 0 where the first call was refused. Returns the plain recording, as it was fed,
/// or nothing where the first call was refused.
pub fn write_recording(sheet: &mut Sheet, block_size: usize, low_first: bool, words: usize, begin: &Begin, feeds: &[Feed]) -> Option<Plain> {
    sheet.case([block_size, low_first as usize, words]);
    let (refusal, mut plain) = match begin {
        Begin::Start => {
            sheet.case([0]);
            (if valid(block_size) { 0 } else { 1 }, Plain::start(block_size, words))
        }
        Begin::CarryOver(earlier) => {
            sheet.case([1, earlier.words, earlier.taken, earlier.ones as usize]);
            sheet.list(&earlier.bytes);
            carry_over(block_size, words, earlier)
        }
    };
    let begun = refusal == 0;
    sheet.case([feeds.len()]);
    let mut line = vec![refusal];
    for feed in feeds {
        sheet.case([feed.board]);
        sheet.list(&feed.piece);
        if begun {
            line.extend([plain.feed(feed), plain.blocks(), plain.tails.get(feed.board).map_or(0, Vec::len)]);
        } else {
            line.extend([4, 0, 0]);
        }
    }
    line.push((begun && low_first) as usize);
    sheet.answer(line);
    begun.then_some(plain)
}

/// The refusal, and the plain recording where there is none: of the bytes laid, and past them what the words say.
fn carry_over(block_size: usize, words: usize, earlier: &Earlier) -> (usize, Plain) {
    if !valid(block_size) || earlier.words != words || earlier.taken > capacity_bytes(block_size, words) {
        return (4, Plain::start(block_size, words));
    }
    let mut bytes = earlier.bytes.clone();
    bytes.resize(earlier.taken, if earlier.ones { 0xFF } else { 0 });
    (0, Plain::carry_over(block_size, words, &bytes))
}

/// All words of such a recording. Bit b of block e has its place in bit e mod 64 of word b * S + e / 64. A start leaves zeros. A carry-over leaves the words as
/// they were laid, but for the bits of the bytes then unfinished, which it clears. Each block completed after it puts in its ones, which are the reference's.
pub fn words_after(plain: &Plain, low_first: bool, begin: &Begin) -> Vec<u64> {
    let Plain { block_size, words, .. } = *plain;
    let (size, stride) = (block_size / 8, words / block_size);
    let (mut all, mut first) = (vec![0u64; words], 0);
    if let Begin::CarryOver(earlier) = begin {
        all = laid(block_size, words, low_first, earlier);
        first = earlier.taken / size;
        for b in 0..8 * (earlier.taken % size) {
            all[b * stride + first / 64] &= !(1 << (first % 64));
        }
    }
    let rows = transform_data(&high_first(&plain.held, low_first), block_size);
    assert_eq!(rows.num_of_blocks(), plain.blocks());
    for (b, e) in (0..block_size).flat_map(|b| (first..plain.blocks()).map(move |e| (b, e))) {
        all[b * stride + e / 64] |= (rows.word(b, e / 64) >> (e % 64) & 1) << (e % 64);
    }
    all
}

/// Words as the earlier rule left them.
pub fn laid(block_size: usize, words: usize, low_first: bool, earlier: &Earlier) -> Vec<u64> {
    let (size, stride) = (block_size / 8, words / block_size);
    let mut all = vec![if earlier.ones { u64::MAX } else { 0 }; words];
    for (t, byte) in high_first(&earlier.bytes, low_first).iter().enumerate() {
        for r in 0..8 {
            let (e, b) = (t / size, 8 * (t % size) + r);
            let word = &mut all[b * stride + e / 64];
            *word = *word & !(1 << (e % 64)) | u64::from(byte >> (7 - r) & 1) << (e % 64);
        }
    }
    all
}
