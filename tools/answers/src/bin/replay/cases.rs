//! The replays that are stored.

use crate::{store_entries, Case};
use answers::order::{both, high_first, reversed, turned};
use answers::*;

/// As many entries as the program's arrays have.
const BYTES: usize = 8192;
const WORDS: usize = 8192;
const BUFFER: usize = 512;
const STORE: usize = 8448;
const LENGTHS: usize = 64;

/// Each with its bit order.
pub fn all(draws: &mut Draws) -> Vec<(Case, bool)> {
    let reverse = |case: &mut Case| case.recording = reversed(&case.recording);
    let mut cases = both(examples());
    cases.extend(both(refused(draws)));
    cases.extend(both(nothing_held(draws)));
    cases.extend(both(full(draws)));
    cases.extend(turned(stores(draws), reverse));
    cases.extend(turned(buffers(draws), reverse));
    cases.extend(both(widths(draws)));
    cases.extend(turned(tied(draws), reverse));
    cases.extend(both(unfinished(draws)));
    cases.extend(both(blocks(draws)));
    cases.extend(both(longest_block(draws)));
    cases.extend(run::sample().filter_map(case_of_run));
    for (case, _) in &cases {
        assert!(case.recording.len() <= BYTES && case.words <= WORDS && case.lengths.len() <= LENGTHS);
        assert!(case.bins.max(case.order) <= BUFFER && case.store <= STORE);
    }
    cases
}

/// A replay of these pieces with buffers and a store of just the entries needed, and `more` each.
fn replay(block_size: usize, k: usize, words: usize, pieces: &[Vec<u8>], more: usize) -> Case {
    let (bins, store) = ((1 << k) + more, store_entries(block_size, k) + more);
    let lengths = pieces.iter().map(Vec::len).collect();
    Case { block_size, k, words, bins, order: bins, store, recording: pieces.concat(), lengths }
}

/// Cut in a few pieces, with an empty one among them.
fn few(draws: &mut Draws, recording: &[u8]) -> Vec<Vec<u8>> {
    let parts = 2 + draws.below(4);
    let mut pieces = cut(draws, recording, parts);
    pieces.insert(draws.below(parts + 1), vec![]);
    pieces
}

/// .. and one that completes a block too many where it comes, unless that takes too much room here.
fn with_refused(draws: &mut Draws, block_size: usize, words: usize, recording: &[u8]) -> Vec<Vec<u8>> {
    let mut pieces = few(draws, recording);
    let place = 1 + draws.below(pieces.len() - 1);
    let held: usize = pieces[..place].iter().map(Vec::len).sum();
    let long = capacity_bytes(block_size, words) + block_size / 8 - held;
    if long <= 500 {
        pieces.insert(place, draws.bytes(long));
    }
    pieces
}

/// A recording whose winner is not the first subset, unless there is one alone.
fn telling(draws: &mut Draws, block_size: usize, k: usize, kind: usize, bytes: usize) -> Vec<u8> {
    loop {
        let held = recording(draws, kind, bytes);
        if k == block_size || bottomup(&held, block_size, k, 1).unwrap().bits[k - 1] >= k {
            return held;
        }
    }
}

/// The searches of the rules' examples and other recordings, a piece to a byte, and eight words that are full; and bytes of which one bit alone is biased,
/// whose number the bit order tells.
fn examples() -> Vec<Case> {
    let mut cases = Vec::new();
    for (k, recording) in [(1, vec![0x80; 4]), (1, vec![0xFF, 0x00]), (3, vec![]), (2, vec![0x00, 0x00, 0xFF, 0xFF])] {
        let pieces: Vec<Vec<u8>> = recording.into_iter().map(|byte| vec![byte]).collect();
        cases.push(replay(8, k, 8, &pieces, 1));
    }
    for (block_size, k, bytes) in [(8, 3, 64), (24, 2, 62), (64, 1, 60)] {
        let pieces: Vec<Vec<u8>> = (0..bytes).map(|t| vec![(t * t / 3) as u8]).collect();
        cases.push(replay(block_size, k, block_size, &pieces, 0));
    }
    cases.push(replay(8, 1, 8, &[vec![0; 64], vec![0], vec![]], 0));
    let biased = [0x02, 0xFF].repeat(5);
    for (low_first, bit) in [(false, 6), (true, 1)] {
        assert_eq!(bottomup(&high_first(&biased, low_first), 8, 1, 1).unwrap().bits, [bit]);
    }
    cases.extend([1, 2].map(|k| replay(8, k, 8, &[biased.clone()], 0)));
    cases
}

/// Each refusal alone, every two faults of which the earlier is answered, and all faults at once.
fn refused(draws: &mut Draws) -> Vec<Case> {
    let good = replay(8, 3, 9, &[draws.bytes(7), vec![], draws.bytes(5)], 1);
    let mut cases = Vec::new();
    // 24: bytes are left over, or missing; none though there are bytes; sums that are 12 only where they wrap at 2^64.
    let wrong = [
        vec![7, 0, 4], vec![7, 0, 6], vec![7, 6], vec![13], vec![11], vec![0, 0], vec![], vec![12, 1], vec![1, 12], vec![usize::MAX],
        vec![usize::MAX, 13], vec![13, usize::MAX], vec![1 << 63, 1 << 63, 12], vec![12, 1 << 63, 1 << 63],
    ];
    cases.extend(wrong.map(|lengths| Case { lengths, ..good.clone() }));
    cases.push(Case { recording: vec![], lengths: vec![1], ..good.clone() });
    cases.push(Case { recording: vec![], lengths: vec![1, usize::MAX], ..good.clone() });
    for block_size in [0, 4, 7, 9, 12, 4095, 4097, 4104, 1 << 32, (1 << 32) + 8, usize::MAX - 7, usize::MAX] {
        cases.push(Case { block_size, k: 1, ..good.clone() });
    }
    for k in [0, 21, 1 << 32, (1 << 32) + 3, usize::MAX] {
        cases.push(Case { k, block_size: 64, ..good.clone() });
    }
    for (block_size, k) in [(8, 9), (16, 17), (16, 20), (8, 20)] {
        // Enough bins for 9 bits; for more there is no room here, and 7 would come next.
        cases.push(Case { block_size, k, bins: BUFFER, order: BUFFER, ..good.clone() });
    }
    for (k, bins, order) in [(3, 7, 8), (3, 8, 7), (3, 7, 7), (3, 0, 8), (3, 8, 0), (1, 1, 2), (1, 2, 1), (8, 255, 256), (8, 256, 255)] {
        cases.push(Case { k, bins, order, ..good.clone() });
    }
    cases.extend(pairs(&good));
    cases
}

/// Every two faults that a case can have together, and all of them.
fn pairs(good: &Case) -> Vec<Case> {
    // In the order of the refusals; the last, a store that is too short, is none. Two widths cannot both stand: 2 with 3 is made below.
    let faults: [fn(&mut Case); 6] = [
        |case| case.lengths = vec![8, 5],
        |case| case.block_size = 12,
        |case| case.k = 0,
        |case| case.k = 13,
        |case| case.bins = 0,
        |case| case.store = 0,
    ];
    let mut cases = Vec::new();
    for i in 0..faults.len() {
        for j in i + 1..faults.len() {
            let mut case = good.clone();
            faults[i](&mut case);
            faults[j](&mut case);
            cases.push(case);
        }
    }
    cases.push(Case { k: 21, ..good.clone() });
    cases.push(Case { k: 21, order: 0, ..good.clone() });
    cases.push(Case { block_size: 4104, k: 21, bins: 0, order: 0, store: 0, words: 0, lengths: vec![], ..good.clone() });
    cases
}

/// Fewer words than B, no pieces, empty pieces, and only refused ones.
fn nothing_held(draws: &mut Draws) -> Vec<Case> {
    let mut cases = Vec::new();
    for (block_size, k, words) in [(8, 1, 0), (8, 8, 7), (16, 2, 15), (32, 3, 31), (64, 2, 63), (4096, 1, 4095)] {
        cases.push(replay(block_size, k, words, &[vec![], vec![255], vec![], draws.bytes(block_size / 8)], 1));
        cases.push(replay(block_size, k, words.min(70), &[], 0));
    }
    for (block_size, k, words) in [(8, 2, 8), (8, 5, 19), (16, 3, 33)] {
        cases.push(replay(block_size, k, words, &[], 2));
        cases.push(replay(block_size, k, words, &[vec![]], 1));
        cases.push(replay(block_size, k, words, &[vec![], vec![], vec![]], 0));
        let past = capacity_bytes(block_size, words) + block_size / 8;
        cases.push(replay(block_size, k, words, &[draws.bytes(past), vec![], draws.bytes(past + 3)], 1));
    }
    cases
}

/// Up to capacity and past it: a block too many, all but a byte of the last block that fits, a block too many again, that byte, a block more, all but a byte of
/// it, that byte, nothing more; and one piece of just as many.
fn full(draws: &mut Draws) -> Vec<Case> {
    let mut cases = Vec::new();
    for (i, (block_size, k, words)) in [(8, 3, 8), (8, 2, 17), (8, 5, 31), (16, 2, 16), (16, 3, 31), (24, 2, 25)].into_iter().enumerate() {
        let (size, capacity) = (block_size / 8, capacity_bytes(block_size, words));
        let first = 3 + draws.below(20);
        let lengths = [first, capacity - first + size, capacity - first - 1, size + 1, 1, size, size - 1, 1, 0];
        let pieces: Vec<Vec<u8>> = lengths.iter().map(|length| recording(draws, i + 2 * (length % 2), *length)).collect();
        cases.push(replay(block_size, k, words, &pieces, i % 3));
        let whole = recording(draws, i, capacity);
        cases.push(replay(block_size, k, words, &[whole.clone()], 0));
        cases.push(replay(block_size, k, words, &[vec![0xFF; 2], vec![], whole, draws.bytes(1)], 1));
    }
    cases
}

/// Stores one entry too short, without the last layer, empty, just enough and longer, over one recording.
fn stores(draws: &mut Draws) -> Vec<Case> {
    let mut cases = Vec::new();
    for (i, (block_size, k)) in [(8, 1), (8, 4), (8, 8), (16, 2), (16, 3), (32, 3)].into_iter().enumerate() {
        let size = block_size / 8;
        let held = telling(draws, block_size, k, [5, 2][i % 2], 11 * size + size / 2);
        let good = replay(block_size, k, block_size + 1, &few(draws, &held), i % 2);
        let enough = store_entries(block_size, k);
        let last = choose(block_size, 1.max(k - 1));
        for store in [enough, enough - 1, enough - last, 0, enough + 1, enough + 40] {
            cases.push(Case { store, ..good.clone() });
        }
    }
    cases
}

/// Buffers of just the entries needed and longer ones, each beside the other.
fn buffers(draws: &mut Draws) -> Vec<Case> {
    let mut cases = Vec::new();
    for (block_size, k) in [(8, 1), (8, 8), (16, 3)] {
        let held = telling(draws, block_size, k, 5, 9 * block_size / 8);
        let good = replay(block_size, k, block_size, &few(draws, &held), 0);
        let m = 1 << k;
        for (bins, order) in [(m, m), (m + 1, m), (m, m + 1), (m + 3, m + 2), (2 * m, 2 * m)] {
            cases.push(Case { bins, order, ..good.clone() });
        }
    }
    cases
}

/// Every width of a block of 8 bits, widths 1 to 3 of blocks of 16 to 32, and 1 and 2 of longer ones, over recordings of every kind.
fn widths(draws: &mut Draws) -> Vec<Case> {
    let sizes = (1..=8).map(|i| 8 * i);
    let all = sizes.flat_map(|size| (1..=[8, 3, 3, 3, 2, 2, 2, 2][size / 8 - 1]).map(move |k| (size, k)));
    let mut cases = Vec::new();
    for (i, (block_size, k)) in all.enumerate() {
        for turn in 0..2 {
            let size = block_size / 8;
            let bytes = (4 + draws.below(20)) * size + draws.below(size);
            let held = recording(draws, i + 3 * turn, bytes);
            let words = block_size + draws.below(block_size);
            let pieces = if block_size < 24 { with_refused(draws, block_size, words, &held) } else { few(draws, &held) };
            cases.push(replay(block_size, k, words, &pieces, turn));
        }
    }
    cases
}

/// Every byte once, so that all subsets and divisions tie at 0; and recordings whose winner has its z at a later division too: the first is to be answered.
fn tied(draws: &mut Draws) -> Vec<Case> {
    let every: Vec<u8> = (0..=255).collect();
    let mut cases = [1, 3, 7].map(|k| replay(8, k, 8 * 4, &few(draws, &every), 1)).to_vec();
    while cases.len() < 9 {
        let k = 2 + cases.len() % 2;
        let n = 4 + draws.below(13);
        let held = draws.bytes(n);
        let finding = bottomup(&held, 8, k, 1).unwrap();
        let bins = evaluate_histogram(&finding, &held).bins;
        let size_at = |i: usize| {
            let count = finding.order[..i].iter().map(|bin| bins[*bin]).sum();
            z_score(n, count, i as f64 / bins.len() as f64).abs()
        };
        if (finding.division + 1..bins.len()).any(|i| size_at(i) == finding.z) {
            cases.push(replay(8, k, 8, &few(draws, &held), 0));
        }
    }
    cases
}

/// No whole block, and every number of bytes past the last.
fn unfinished(draws: &mut Draws) -> Vec<Case> {
    let mut cases = Vec::new();
    for block_size in [16, 24, 40, 64] {
        let size = block_size / 8;
        cases.push(replay(block_size, 2, block_size, &[vec![], vec![0xFF; size - 1]], 1));
        for rest in 0..size {
            // Ones in the unfinished block, which never enters the words.
            let mut held = recording(draws, 5 * (rest % 2), 3 * size);
            held.extend(vec![0xFF; rest]);
            cases.push(replay(block_size, 1 + rest % 2, block_size, &few(draws, &held), 0));
        }
    }
    cases
}

/// Rows of one word and more, at the numbers of blocks where a word ends.
fn blocks(draws: &mut Draws) -> Vec<Case> {
    let mut cases = Vec::new();
    for (i, blocks) in [1, 2, 63, 64, 65, 127, 128, 129, 200].into_iter().enumerate() {
        for (block_size, k) in [(8, 2 + i % 3), (16, 1 + i % 2)] {
            let held = recording(draws, [0, 3, 5][i % 3], blocks * block_size / 8);
            let words = block_size * (blocks.div_ceil(64) + i % 2) + i;
            cases.push(replay(block_size, k, words, &few(draws, &held), 1));
        }
    }
    cases
}

/// The longest block, and the most subsets here.
fn longest_block(draws: &mut Draws) -> Vec<Case> {
    let long = recording(draws, 5, 3 * 512 + 100);
    let held = recording(draws, 0, 8 * 9 + 3);
    let wide = replay(64, 3, 70, &few(draws, &held), 2);
    vec![replay(4096, 1, 4099, &few(draws, &long), 1), Case { store: wide.store - 3, ..wide.clone() }, wide]
}

/// A short recording of the differential run in four pieces or more, replayed as it was cut there, on one board; a buffer has one entry too few, just enough, or one or two
/// more, the store also some more.
fn case_of_run(case: run::Case) -> Option<(Case, bool)> {
    let run::Case::Recording(drawn) = case else { return None };
    let (block_size, words, k) = (drawn.block_size, drawn.words, drawn.k);
    let searchable = drawn.searchable();
    // As much as the program's arrays hold, and little to print.
    if drawn.feeds.len() < 4 || drawn.feeds.len() > LENGTHS || drawn.bytes() > 80 || words > 100 || (searchable && (k > 5 || store_entries(block_size, k) > STORE - run::STORE_SLACK)) {
        return None;
    }
    // Where the width is refused, any buffer will do.
    let (m, store) = if searchable { (1 << k, store_entries(block_size, k)) } else { (2, 2) };
    let entries = |needed: usize, more: isize| (needed as isize + more) as usize;
    let (bins, order, store) = (entries(m, drawn.bins), entries(m, drawn.order), entries(store, drawn.store));
    let pieces: Vec<Vec<u8>> = drawn.feeds.into_iter().map(|feed| feed.piece).collect();
    let lengths = pieces.iter().map(Vec::len).collect();
    Some((Case { block_size, k, words, bins, order, store, recording: pieces.concat(), lengths }, drawn.low_first))
}
