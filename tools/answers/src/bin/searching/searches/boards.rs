//! Searches of recordings of four boards, with a carry-over before them and without.

use super::*;

pub fn cases(draws: &mut Draws) -> Vec<Case> {
    let mut cases = Vec::new();
    for (i, (block_size, blocks)) in [(8, 40), (16, 30), (16, 66), (24, 20), (64, 9), (128, 5)].into_iter().enumerate() {
        let size = block_size / 8;
        let stretches = [None, Some((0, blocks / 3)), Some((blocks / 3, blocks / 2))];
        let searches = |k: usize| stretches.map(|stretch| Search { stretch, ..search(block_size, k, 1) }).to_vec();
        for turn in 0..2 {
            let rest = draws.below(size);
            let bytes = recording(draws, [5, 2, 0][(i + turn) % 3], blocks * size + rest);
            let words = block_size * (blocks + 1).div_ceil(64);
            // The bytes before a carry-over, some of which are then unfinished.
            let before = draws.below(bytes.len() / 2);
            for (begin, later) in [(Begin::Start, &bytes[..]), (Begin::CarryOver(Earlier::of(words, bytes[..before].to_vec())), &bytes[before..])] {
                let feeds = dealt(draws, block_size, later, 40);
                cases.push(Case { block_size, words, begin, feeds, searches: searches(1 + (i + turn) % 3) });
            }
        }
    }
    cases.push(tied(draws));
    cases
}

/// Two boards with the same bytes and two with their complement, in turns of a byte: every subset of one bit ties at 0.
fn tied(draws: &mut Draws) -> Case {
    let bytes = draws.bytes(10);
    let mut feeds = Vec::new();
    for byte in bytes {
        feeds.extend([(0, byte), (1, !byte), (2, byte), (3, !byte)].map(|(board, byte)| Feed { board, piece: vec![byte] }));
    }
    let searches = vec![search(16, 1, 0), search(16, 2, 0), search(16, 3, 0)];
    Case { block_size: 16, words: 16, begin: Begin::Start, feeds, searches }
}
