//! One recording of a few blocks for each block size and each width whose searches take the reference some minutes at the most. Wide searches of small
//! blocks and narrow ones of large blocks are drawn too seldom to be relied on.

use crate::account::Run;
use crate::recordings::compare;
use answers::run::Recording;
use answers::{alone, cut, recording, Draws};

/// Block sizes and their greatest widths.
const SIZES: [(usize, usize); 12] =
    [(8, 8), (16, 16), (24, 8), (32, 6), (40, 5), (64, 4), (128, 3), (256, 3), (512, 2), (1024, 2), (2048, 2), (4096, 2)];

/// How much the reference's layered search may work: B 4,096 at width 2 is the most.
const WORK: usize = 40_000_000_000;

pub fn run() {
    let mut run = Run::new();
    for (block_size, widest) in SIZES {
        for k in 1..=widest {
            let case = drawn(block_size, k);
            println!("B {block_size}, k {k}{}", if case.low_first { ", low first" } else { "" });
            run.compare("recordings", |searches| compare(&case, WORK, searches));
        }
    }
    run.close("widths");
}

/// 70 blocks or a few less and a part of one, of two values, a short period or few values, so that scores tie; the bit order goes from width to width, and
/// every other two widths have a board for each piece.
fn drawn(block_size: usize, k: usize) -> Recording {
    let draws = &mut Draws::new((block_size * 32 + k) as u64);
    let held = recording(draws, [5, 0, 3][k % 3], 70 * block_size / 8 + block_size / 16);
    let (words, mut feeds) = (2 * block_size + 3, alone(cut(draws, &held, 4)));
    if k % 4 >= 2 {
        feeds.iter_mut().enumerate().for_each(|(board, feed)| feed.board = board);
    }
    let low_first = (block_size / 8 + k) % 2 == 0;
    let case = Recording { k, order: 1, store: (k % 3) as isize, low_first, ..Recording::of(block_size, words, feeds, 0) };
    Recording { stretch: 0..case.blocks(), ..case }
}
