//! Recordings at capacity, 16,777,216 blocks, fed in uneven pieces and searched with a store and with none, whole and from the first word to the last but for
//! some blocks of these, and as many blocks evaluated. Bytes of few values or of a short period, so that scores tie, and drawn ones.

use crate::account::Run;
use crate::case::Compared;
use answers::run::{Judged, Recording};
use answers::{alone, recording, Draws, Feed, Plain};
use std::ops::RangeInclusive;

const BLOCKS: usize = 16_777_216;

/// Who feeds a recording: board 0; all four boards; or board 0, about half of it under the earlier rule, before a carry-over.
#[derive(Clone, Copy, PartialEq)]
enum Way {
    Alone,
    Dealt,
    CarriedOver,
}

/// A block size, the kind of the bytes (`answers::recording`), the widths, how many words are lent beyond those that capacity needs, whether the low bit comes
/// first, and the way of feeding.
const RECORDINGS: [(usize, usize, RangeInclusive<usize>, usize, bool, Way); 11] = [
    (8, 0, 1..=8, 0, false, Way::Alone),
    (8, 1, 1..=3, 7, false, Way::Alone),
    (8, 3, 1..=8, 25, false, Way::Alone),
    (8, 4, 1..=3, 0, false, Way::Alone),
    (8, 2, 1..=8, 8, false, Way::Alone),
    (16, 5, 1..=3, 0, false, Way::Alone),
    (16, 3, 1..=2, 49, true, Way::Alone),
    (16, 2, 1..=3, 15, false, Way::Alone),
    (64, 5, 1..=2, 65, false, Way::Alone),
    (24, 5, 1..=2, 24, true, Way::Dealt),
    (24, 3, 1..=2, 0, false, Way::CarriedOver),
];

pub fn run() {
    let mut run = Run::new();
    for (number, (block_size, bytes, widths, more, low_first, way)) in RECORDINGS.into_iter().enumerate() {
        let draws = &mut Draws::new(number as u64);
        let held = recording(draws, bytes, BLOCKS * block_size / 8);
        for k in widths {
            let words = BLOCKS / 64 * block_size + more;
            let (feeds, carried) = feeds(draws, &held, block_size, words, way);
            let first = if low_first { ", low bit first" } else { "" };
            let name = ["", ", dealt to four boards", ", carried over"][way as usize];
            println!("B {block_size}, bytes of kind {bytes}, k {k}: {words} words, {} feeds{first}{name}", feeds.len());
            let store = (k % 2) as isize;
            let case = Recording { carried, k, bins: 1, store, low_first, ..Recording::of(block_size, words, feeds, BLOCKS) };
            run.compare("recordings", |searches| case.check(searches));
            if k == 2 {
                let part = Recording { stretch: 1 + 13 * number % 63..BLOCKS - 1 - 29 * number % 63, ..case };
                println!("the same, blocks {:?}", part.stretch);
                run.compare("recordings, a stretch", |searches| part.check(searches));
            }
        }
        let judged = Judged { low_first, ..judged(draws, block_size, held) };
        run.compare("checks and evaluations", |searches| judged.check(searches));
    }
    run.close("capacity");
}

/// All bytes in pieces, before one of them, past the carry-over, one that completes a block too many; then what fills the last blocks; at the end as many
/// unfinished bytes as each board may have, and then a byte more and no byte more. And how many of them come before a carry-over.
fn feeds(draws: &mut Draws, held: &[u8], block_size: usize, words: usize, way: Way) -> (Vec<Feed>, Option<usize>) {
    let mut feeds = alone(pieces(draws, held));
    if way == Way::Dealt {
        feeds.iter_mut().for_each(|feed| feed.board = draws.below(4));
    }
    let carried = (way == Way::CarriedOver).then_some(feeds.len() / 2);
    let (size, middle) = (block_size / 8, carried.unwrap_or(0));
    let place = middle + draws.below(feeds.len() - middle);
    feeds.insert(place, too_long(&Plain::start(block_size, words).feed_all(&feeds[..place]), feeds[place].board));

    let mut plain = Plain::start(block_size, words).feed_all(&feeds);
    let boards = if way == Way::Dealt { 0..4 } else { 0..1 };
    // The boards' unfinished bytes are as many as the blocks that are missing have.
    for board in boards.clone().cycle() {
        if plain.blocks() == BLOCKS {
            break;
        }
        if !plain.tails[board].is_empty() {
            let last = Feed { board, piece: vec![0xFF; size - plain.tails[board].len()] };
            assert_eq!(plain.feed(&last), 0);
            feeds.push(last);
        }
    }
    for board in boards {
        let most = size - 1 - plain.tails[board].len();
        feeds.extend([vec![0xFE; most], vec![0xFF], vec![]].map(|piece| Feed { board, piece }));
    }
    (feeds, carried)
}

/// The bytes in pieces of no byte to some millions.
fn pieces(draws: &mut Draws, held: &[u8]) -> Vec<Vec<u8>> {
    let (mut pieces, mut at) = (vec![], 0);
    while at < held.len() {
        let magnitude = draws.below(23);
        let end = held.len().min(at + draws.below(1 << magnitude));
        pieces.push(held[at..end].to_vec());
        at = end;
    }
    pieces
}

/// A piece that completes a block too many.
fn too_long(plain: &Plain, board: usize) -> Feed {
    let left = (BLOCKS + 1 - plain.blocks()) * (plain.block_size / 8);
    Feed { board, piece: vec![0xFF; left - plain.tails[board].len()] }
}

/// As many blocks and a part of one to be evaluated, by a finding of drawn bits with the bins from the last to the first.
fn judged(draws: &mut Draws, block_size: usize, mut bytes: Vec<u8>) -> Judged {
    let width = 4;
    bytes.extend(vec![0xFF; block_size / 8 - 1]);
    Judged {
        block_size,
        width,
        bits: draws.subset(block_size, width).into_iter().map(|bit| bit as u32).collect(),
        division: 5,
        order: (0..1 << width).rev().collect(),
        bytes,
        scratch: 1,
        low_first: false,
        mark: None,
    }
}
