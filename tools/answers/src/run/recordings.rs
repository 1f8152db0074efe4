//! Recordings of boards fed in pieces, with a search after them.

use super::no_bit_order;
use crate::{alone, capacity, choose, cut, dealt, earlier_bytes, recording, Draws, Feed, Plain};
use std::ops::Range;

/// A block size, the number of lent words, the feeds, the stretch that is searched, a width, and how many entries more than enough the buffers and the
/// store have: -1 is one too few.
#[derive(Clone, Debug)]
pub struct Recording {
    pub block_size: usize,
    pub words: usize,
    /// How many of the feeds come before a carry-over, under the earlier rule, where there is one: these are board 0's.
    pub carried: Option<usize>,
    pub feeds: Vec<Feed>,
    /// From the first block to before the end; it may be none of the recording.
    pub stretch: Range<usize>,
    pub k: usize,
    pub bins: isize,
    pub order: isize,
    pub store: isize,
    /// A stale sampler says that this board has a block of unfinished bytes; for a board above 3, that there is a block more than capacity.
    pub stale: Option<usize>,
    /// Whether the low bit comes first.
    pub low_first: bool,
    /// A number that stands for no bit order, in the sampler after the feeds.
    pub mark: Option<u64>,
}

impl Recording {
    pub fn draw(draws: &mut Draws) -> Recording {
        let limit = match draws.below(100_000) {
            0..=1 => 200_000_000,
            2..=40 => 20_000_000,
            41..=900 => 1_000_000,
            _ => 15_000,
        };
        let (block_size, k) = sizes(draws, limit);
        let size = block_size / 8;
        let blocks = match draws.below(8) {
            0 => [0, 1, 2, 63, 64, 65, 127, 128, 129, 191, 192, 193][draws.below(12)],
            _ => draws.below(24),
        };
        let rest = draws.below(size);
        let (parts, kind) = (1 + draws.below(5), draws.below(6));
        let held = recording(draws, kind, blocks * size + rest);
        let stride = (blocks + 1).div_ceil(64) + draws.below(2);
        let words = block_size * stride + draws.below(block_size);
        let pieces = cut(draws, &held, parts);
        let feeds = alone(between(draws, pieces, block_size, words));
        Recording {
            block_size,
            words,
            carried: None,
            feeds,
            stretch: 0..blocks,
            k: if draws.below(200) == 0 { [0, 9.max(block_size + 1), 21, 1 << 40][draws.below(4)] } else { k },
            bins: slack(draws),
            order: slack(draws),
            store: store_slack(draws),
            stale: (draws.below(300) == 0).then_some(4),
            low_first: false,
            mark: None,
        }
    }

    /// A long one, about where the counting goes from one group of words or chunk of marks to the next: every 4,096 and every 32,768 blocks.
    pub fn long(draws: &mut Draws) -> Recording {
        let block_size = 8 * (1 + draws.below(3));
        let size = block_size / 8;
        let step = [4_096, 32_768][draws.below(2)];
        let blocks = step * (1 + draws.below(2)) + [0, 1, 2, 64, 65, 66, 129][draws.below(7)] - 65;
        let (rest, kind) = (draws.below(size), draws.below(6));
        let held = recording(draws, kind, blocks * size + rest);
        let words = block_size * (blocks + 1).div_ceil(64);
        let pieces = cut(draws, &held, 3);
        let feeds = alone(between(draws, pieces, block_size, words));
        let k = 1 + draws.below(3);
        Recording { k, store: 1, ..Recording::of(block_size, words, feeds, blocks) }
    }

    /// One of few values or of a short period, so that scores tie, about a word's end long, or, one of thirty each, a chunk's or a short chunk's.
    pub fn tied(draws: &mut Draws) -> Recording {
        let (block_size, widest) = [(8, 5), (8, 3), (16, 3), (24, 2), (64, 2), (128, 1)][draws.below(6)];
        let size = block_size / 8;
        let blocks = match draws.below(15) {
            0 if size <= 2 => [32_767, 32_768, 32_833, 33_000, 65_536, 65_602][draws.below(6)] + draws.below(3),
            1 if size <= 2 => [4_094, 4_158][draws.below(2)] + draws.below(5),
            _ => [0, 2, 62, 64, 126, 128, 190][draws.below(7)] + draws.below(5),
        };
        let (rest, kind) = (draws.below(size), draws.below(8));
        let bytes = blocks * size + rest;
        let held = match kind {
            0..=3 => recording(draws, [0, 3, 4, 5][kind], bytes),
            _ => periodic(draws, bytes),
        };
        let words = block_size * ((blocks + 1).div_ceil(64) + draws.below(2)) + draws.below(block_size);
        let pieces = cut(draws, &held, 3);
        let feeds = alone(between(draws, pieces, block_size, words));
        let k = if draws.below(100) == 0 { [0, block_size + 1, 21][draws.below(3)] } else { 1 + draws.below(widest) };
        let (bins, order, store) = (slack(draws), slack(draws), store_slack(draws));
        let stale = (draws.below(300) == 0).then_some(4);
        Recording { k, bins, order, store, stale, ..Recording::of(block_size, words, feeds, blocks) }
    }

    /// These feeds from a start, the high bit first, searched in so many blocks for one bit, with buffers of just the entries needed.
    pub fn of(block_size: usize, words: usize, feeds: Vec<Feed>, blocks: usize) -> Recording {
        let (carried, stale, low_first, mark) = (None, None, false, None);
        Recording { block_size, words, carried, feeds, stretch: 0..blocks, k: 1, bins: 0, order: 0, store: 0, stale, low_first, mark }
    }

    /// The same bytes on one board, as they are; or dealt to two or all four; or some of the feeds before a carry-over. One of eight has feeds of boards that
    /// there are not. All blocks are searched.
    pub fn on_boards(self, draws: &mut Draws) -> Recording {
        let mut drawn = self;
        match draws.below(6) {
            0 => {}
            1 => drawn.feeds.iter_mut().for_each(|feed| feed.board = 3 * draws.below(2)),
            2 => drawn.feeds.iter_mut().for_each(|feed| feed.board = draws.below(4)),
            way => {
                if way == 5 {
                    drawn.carried = Some(draws.below(drawn.feeds.len() + 1));
                }
                let later = drawn.feeds.split_off(drawn.carried.unwrap_or(0));
                drawn.feeds.extend(later.into_iter().flat_map(|feed| dealt(draws, drawn.block_size, &feed.piece, 60)));
            }
        }
        if draws.below(8) == 0 {
            for board in [4, 5, 255, 256, 1 << 32, (1 << 32) + 3, usize::MAX] {
                let (from, piece) = (drawn.carried.unwrap_or(0), draws.below(5));
                let place = from + draws.below(drawn.feeds.len() + 1 - from);
                drawn.feeds.insert(place, Feed { board, piece: draws.bytes(piece) });
            }
        }
        drawn.stale = drawn.stale.map(|_| draws.below(5));
        drawn.stretch = 0..drawn.blocks();
        drawn
    }

    /// The same, searched whole or, as often, in a drawn stretch.
    pub fn whole_or_part(self, draws: &mut Draws) -> Recording {
        if draws.below(2) == 0 { self } else { self.in_part(draws) }
    }

    /// The same with a drawn stretch.
    pub fn in_part(&self, draws: &mut Draws) -> Recording {
        Recording { stretch: part(draws, self.blocks()), ..self.clone() }
    }

    /// The same in a drawn bit order, half of them low first; one of a hundred has none.
    pub fn in_bit_order(self, draws: &mut Draws) -> Recording {
        Recording { low_first: draws.below(2) == 1, mark: no_bit_order(draws), ..self }
    }

    /// The plain recording after all feeds.
    pub fn plain(&self) -> Plain {
        self.begun().feed_all(&self.feeds[self.carried.unwrap_or(0)..])
    }

    /// The plain recording before the first feed under the rule of boards.
    pub fn begun(&self) -> Plain {
        match self.carried {
            None => Plain::start(self.block_size, self.words),
            Some(feeds) => Plain::carry_over(self.block_size, self.words, &self.earlier(feeds)),
        }
    }

    /// The bytes that so many feeds leave under the earlier rule.
    pub fn earlier(&self, feeds: usize) -> Vec<u8> {
        let pieces: Vec<Vec<u8>> = self.feeds[..feeds].iter().map(|feed| feed.piece.clone()).collect();
        earlier_bytes(self.block_size, self.words, &pieces)
    }

    /// n.
    pub fn blocks(&self) -> usize {
        self.plain().blocks()
    }

    /// Whether the recording has the blocks of the stretch.
    pub fn within(&self) -> bool {
        self.stretch.start <= self.stretch.end && self.stretch.end <= self.blocks()
    }

    /// The bytes of all pieces, refused ones among them.
    pub fn bytes(&self) -> usize {
        self.feeds.iter().map(|feed| feed.piece.len()).sum()
    }

    /// Whether the block has subsets of this width that a search takes.
    pub fn searchable(&self) -> bool {
        (1..=20.min(self.block_size)).contains(&self.k)
    }
}

/// A block size and a width whose search takes at most so much work, each width of a block size as likely as another.
fn sizes(draws: &mut Draws, limit: usize) -> (usize, usize) {
    loop {
        let block_size = match draws.below(12) {
            0..=4 => 8,
            5..=7 => 16,
            8..=9 => 8 * (1 + draws.below(8)),
            10 => 8 * (1 + draws.below(32)),
            _ => 8 * (1 + draws.below(512)),
        };
        let k = 1 + draws.below(20.min(block_size));
        if direct_work(block_size, k) <= limit {
            return (block_size, k);
        }
    }
}

/// How much a direct search of a few blocks works, at the most.
fn direct_work(block_size: usize, k: usize) -> usize {
    choose(block_size, k).saturating_mul(k + 4).saturating_mul(1 << k)
}

/// Places where counting begins or ends another word, or another chunk of 32,768 marks, or goes beyond the 4,096 marks of a short one.
const EDGES: [usize; 18] =
    [0, 1, 63, 64, 65, 127, 128, 129, 4_095, 4_096, 4_097, 4_160, 32_767, 32_768, 32_769, 65_535, 65_536, 65_537];

/// A stretch of n blocks. Some hold no block, and some are refused: they end before they begin, or past n.
fn part(draws: &mut Draws, n: usize) -> Range<usize> {
    let (first, end) = (place(draws, n), place(draws, n));
    match draws.below(20) {
        0 => first..end,
        1 => first.max(end) + 1..first.min(end),
        2 => first..n + 1,
        3 => first..[1 << 32, usize::MAX][draws.below(2)],
        4 => n + draws.below(2)..n + draws.below(2),
        5..=6 => first..first,
        7..=8 => first..n,
        9..=10 => 0..end,
        _ => first.min(end)..first.max(end),
    }
}

/// A place up to n, half of them edges.
fn place(draws: &mut Draws, n: usize) -> usize {
    let edges = EDGES.iter().take_while(|&&edge| edge <= n).count();
    match draws.below(8) {
        0 => n,
        1..=4 => EDGES[draws.below(edges)],
        _ => draws.below(n + 1),
    }
}

/// A drawn period of one to nine bytes, of at most three values.
fn periodic(draws: &mut Draws, bytes: usize) -> Vec<u8> {
    let values = draws.bytes(3);
    let period: Vec<u8> = (0..1 + draws.below(9)).map(|_| values[draws.below(3)]).collect();
    period.into_iter().cycle().take(bytes).collect()
}

fn slack(draws: &mut Draws) -> isize {
    if draws.below(60) == 0 { -1 } else { draws.below(3) as isize }
}

/// The most that a store has beyond its size.
pub const STORE_SLACK: usize = 62;

/// Some stores are longer by many entries, which have to stay as lent. Two draws, as for the two stores that once were lent: what a seed draws after them
/// is what it was.
fn store_slack(draws: &mut Draws) -> isize {
    let (few, many) = (slack(draws), slack(draws));
    if few.min(many) < 0 { -1 } else { few + 30 * many }
}

/// The pieces with empty ones and, a block or much more too long, refused ones between them.
fn between(draws: &mut Draws, pieces: Vec<Vec<u8>>, block_size: usize, words: usize) -> Vec<Vec<u8>> {
    let (mut all, mut held) = (Vec::new(), 0);
    for piece in pieces {
        if draws.below(6) == 0 {
            all.push(vec![]);
        }
        let long = (capacity(block_size, words) + 1) * (block_size / 8) - held + draws.below(9);
        if draws.below(6) == 0 && (long < 2000 || draws.below(50) == 0) {
            all.push(draws.bytes(long));
        }
        held += piece.len();
        all.push(piece);
    }
    all
}
