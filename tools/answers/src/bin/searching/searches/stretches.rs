//! Searches of stretches: from and to the ends of words and of chunks, of no block, and refused ones; and of long blocks.

use super::*;

pub fn cases(draws: &mut Draws) -> Vec<(Case, bool)> {
    let mut cases = both(at_ends_of_words(draws));
    cases.extend(both(vec![refused(draws), other_samplers(draws), at_ends_of_chunks(draws)]));
    cases.extend(turned(long_blocks(draws), reverse));
    cases
}

fn in_stretch(first: usize, end: usize, search: Search) -> Search {
    Search { stretch: Some((first, end)), ..search }
}

/// Every pair of places about the ends of words, of the recording and past it; of those in which the first is above the end only neighbours.
fn at_ends_of_words(draws: &mut Draws) -> Vec<Case> {
    let mut cases = Vec::new();
    for (kind, block_size, n) in [(0, 8, 130), (5, 8, 65), (3, 16, 130), (5, 24, 66)] {
        let size = block_size / 8;
        let bytes = n * size + draws.below(size);
        let recording = recording(draws, kind, bytes);
        let words = block_size * (n + 1).div_ceil(64) + draws.below(block_size);
        let feeds = feeds(draws, block_size, words, &recording);
        let mut places = vec![0, 1, 63, 64, 65, 127, 128, n, n + 1];
        places.retain(|place| *place <= n + 1);
        places.dedup();
        let mut searches = Vec::new();
        for (i, first) in places.iter().enumerate() {
            for (j, end) in places.iter().enumerate() {
                if i <= j + 1 {
                    searches.push(in_stretch(*first, *end, search(block_size, 1 + (i + j) % 3, j % 2)));
                }
            }
        }
        cases.push(Case { block_size, words, begin: Begin::Start, feeds, searches });
    }
    cases
}

/// 18 in every way, and with a second fault before which or after which it comes.
fn refused(draws: &mut Draws) -> Case {
    let good = search(8, 2, 1);
    let (large, largest) = (1 << 32, usize::MAX);
    let mut searches = Vec::new();
    // n is 29. What a stretch of 2^32 and more would be in 32 bits is within it.
    for (first, end) in [(1, 0), (29, 28), (30, 29), (0, 30), (29, 30), (30, 30), (30, 31)] {
        searches.push(in_stretch(first, end, good.clone()));
    }
    for (first, end) in [(0, large), (large, large), (large, 0), (large, 29), (large, large + 5), (large + 5, 7), (0, largest), (largest, largest), (largest, 0)] {
        searches.push(in_stretch(first, end, good.clone()));
    }
    for (first, end) in [(2, 1), (0, 30)] {
        // Before 2, 3 and 7, with stores of any length.
        for (k, bins, store) in [(0, 5, 16), (21, 5, 16), (9, 600, 5000), (3, 8, 1), (3, 7, 1000), (3, 7, 1), (0, 0, 0)] {
            searches.push(in_stretch(first, end, Search { k, bins, order: bins, store, ..good.clone() }));
        }
        // After 4.
        for (block_size, words, blocks, unfinished) in [(12, 17, 29, 0), (8, 16, 29, 0), (8, 17, 129, 0), (0, 17, 29, 0), (8, 17, 29, 1)] {
            let sampler = Some(Sampler { block_size, words, blocks, turned: false, lengths: [0, 0, unfinished, 0] });
            searches.push(in_stretch(first, end, Search { sampler, ..good.clone() }));
        }
    }
    // Within it, where the later refusals come as they did.
    for (k, bins, store) in [(0, 5, 16), (9, 600, 5000), (3, 8, 1), (3, 7, 1000), (3, 8, 1000)] {
        searches.push(in_stretch(3, 29, Search { k, bins, order: bins, store, ..good.clone() }));
    }
    recorded(8, 17, vec![draws.bytes(21), draws.bytes(8)], searches)
}

/// A sampler that says fewer or more blocks than were completed: n goes by what it says. 32 blocks are fed, 128 are capacity.
fn other_samplers(draws: &mut Draws) -> Case {
    let (block_size, words) = (16, 35);
    let mut searches = Vec::new();
    for (blocks, first, end) in [
        (10, 0, 10), (10, 3, 10), (10, 0, 11), (0, 0, 0), (0, 0, 1), (32, 30, 32), (32, 0, 33), (33, 0, 33), (33, 32, 33),
        (127, 0, 127), (127, 0, 128), (128, 20, 128), (128, 63, 65), (128, 64, 128), (128, 128, 128), (128, 0, 129),
    ] {
        let sampler = Some(Sampler { block_size, words, blocks, turned: false, lengths: [1, 0, 1, 0] });
        searches.push(in_stretch(first, end, Search { sampler, ..search(block_size, 2, 1) }));
    }
    recorded(block_size, words, vec![recording(draws, 5, 64)], searches)
}

/// A recording longer than the marks of one chunk, which begins with the word of a stretch's first block; up to 4,096 blocks from there on there is room for
/// fewer marks. Each byte is one digit, to keep the file small; at width 5 the four bits that are never set are chosen with one that is.
fn at_ends_of_chunks(draws: &mut Draws) -> Case {
    let recording: Vec<u8> = (0..33_000).map(|t| if t % 32_768 < 2 { 9 } else { draws.below(8) as u8 }).collect();
    let pieces = cut(draws, &recording, 3);
    let places = [&CHUNK_ENDS[..], &[(32_768, 33_001)], &SHORT_CHUNK_ENDS].concat();
    let mut searches = vec![search(8, 5, 1)];
    // All blocks, and one block more than are marked at once.
    for k in [1, 3] {
        searches.extend([search(8, k, 1), in_stretch(0, 32_769, search(8, k, 1))]);
    }
    searches.extend(places.into_iter().map(|(first, end)| in_stretch(first, end, search(8, 5, 1))));
    recorded(8, 8 * 516 + 3, pieces, searches)
}

/// Blocks of as many bits as the small room for counts has, of more, and of all; the last bit is the biased one.
fn long_blocks(draws: &mut Draws) -> Vec<Case> {
    let mut cases = Vec::new();
    for (block_size, widest) in [(256, 2), (264, 2), (4096, 1)] {
        let mut recording = draws.bytes(5 * block_size / 8);
        for block in recording.chunks_mut(block_size / 8) {
            *block.last_mut().unwrap() |= 1;
        }
        let mut searches = Vec::new();
        for k in 1..=widest {
            searches.extend([search(block_size, k, 1), in_stretch(1, 5, search(block_size, k, 1))]);
        }
        cases.push(recorded(block_size, block_size, vec![recording], searches));
    }
    cases
}
