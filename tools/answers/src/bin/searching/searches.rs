//! Whole searches, each with a store and with none, over recordings full of ties.

use crate::binomial;
use answers::order::{both, high_first, reversed, turned};
use answers::*;

mod boards;
mod stretches;

/// The most entries of a store, for which the program has room.
const STORE: usize = 65_536;

/// A recording, and the searches made after it.
#[derive(Clone)]
struct Case {
    block_size: usize,
    words: usize,
    begin: Begin,
    feeds: Vec<Feed>,
    searches: Vec<Search>,
}

/// A recording of one board from a start.
fn recorded(block_size: usize, words: usize, pieces: Vec<Vec<u8>>, searches: Vec<Search>) -> Case {
    Case { block_size, words, begin: Begin::Start, feeds: alone(pieces), searches }
}

/// The stretch where it is not from 0 to the sampler's n, the width, the lengths of the buffers and the store, and the sampler where it is not the one last
/// returned.
#[derive(Clone)]
struct Search {
    stretch: Option<(usize, usize)>,
    k: usize,
    bins: usize,
    order: usize,
    store: usize,
    sampler: Option<Sampler>,
}

/// Its numbers, and whether its bit order is not the recording's.
#[derive(Clone, Copy)]
struct Sampler {
    block_size: usize,
    words: usize,
    blocks: usize,
    turned: bool,
    lengths: [usize; 4],
}

pub fn write(sheet: &mut Sheet, draws: &mut Draws) {
    let mut cases = both(examples());
    cases.extend(both(refused(draws)));
    cases.extend(both(other_samplers(draws)));
    cases.extend(both(plain()));
    cases.extend(both(with_ties(draws)));
    cases.extend(turned(tied_divisions(draws), reverse));
    cases.extend(both(long(draws)));
    cases.extend(stretches::cases(draws));
    cases.extend(order::by_turns(boards::cases(draws)));
    cases.extend(run::sample().filter_map(case_of_run));
    sheet.note("Searches: the reference's bottomup on the blocks of the stretch alone, in the order completed, with threads = 0 where the store has the S entries needed and S is at most 2^32,");
    sheet.note("else with threads = 1; the winner's counts by its evaluate_histogram. Counts of a store: its multi_eval on transform_data of these blocks. Refusals, and S,");
    sheet.note("by the rules in that tool.");
    sheet.note(&order::note("recordings of four boards by turns, and the last ones as they are drawn"));
    sheet.note("Each: B, the bit order and the number of lent words; 0 for a start, or 1 for a carry-over, with what the earlier sampler says of its words and of the bytes");
    sheet.note("taken, 1 where the words are all ones before they are laid, the number of bytes laid and each; the number of feeds, and for each its board, its length and");
    sheet.note("its bytes; the number of searches, and for each first and end, k, the lengths of bin buffer, order buffer and store, and 0, or 1 with another sampler's B,");
    sheet.note("words, n, bit order and four lengths. Answer: a line with the refusal of the start or the carry-over, for each feed its refusal, n and the unfinished bytes of");
    sheet.note("its board, and the bit order; for each search, first with the store, then with none: a line with refusal, B, width, 20 bits, division, the pattern of z");
    sheet.note("and the bit order; a line with the counts, one with the order, and one with how many other entries of each buffer and of the store, past S where it has S,");
    sheet.note("are no longer as lent; then, where it has S, the sum of (i + 1) x entry i of the store for i below S, modulo 2^64, else 0, as where the search is refused.");
    sheet.note(&run::note());
    sheet.case([cases.len()]);
    for (case, low_first) in &cases {
        write_case(sheet, case, *low_first);
    }
}

/// The same blocks in the other bit order.
fn reverse(case: &mut Case) {
    if let Begin::CarryOver(earlier) = &mut case.begin {
        earlier.bytes = reversed(&earlier.bytes);
    }
    for feed in &mut case.feeds {
        feed.piece = reversed(&feed.piece);
    }
}

/// The entries that a store needs at width k.
fn store_entries(block_size: usize, k: usize) -> u128 {
    (1..=1.max(k - 1)).map(|d| binomial(block_size, d)).fold(0, u128::saturating_add)
}

/// Whether a store of so many entries is long enough, and may be.
fn suffices(block_size: usize, k: usize, entries: usize) -> bool {
    let needed = store_entries(block_size, k);
    needed <= 1 << 32 && needed <= entries as u128
}

/// A search with buffers and a store of just the entries needed, and `more` each.
fn search(block_size: usize, k: usize, more: usize) -> Search {
    let m = 1 << k;
    let store = store_entries(block_size, k) as usize;
    Search { stretch: None, k, bins: m + more, order: m + more, store: store + more, sampler: None }
}

/// The searches of the rules' examples; and bytes of which one bit alone is biased, whose number the bit order tells.
fn examples() -> Vec<Case> {
    let mut cases = Vec::new();
    for (k, recording) in [(1, vec![0x80; 4]), (1, vec![0xFF, 0x00]), (3, vec![]), (2, vec![0x00, 0x00, 0xFF, 0xFF])] {
        cases.push(recorded(8, 8, vec![recording], vec![search(8, k, 1)]));
    }
    let biased = [0x02, 0xFF].repeat(5);
    for (low_first, bit) in [(false, 6), (true, 1)] {
        assert_eq!(bottomup(&high_first(&biased, low_first), 8, 1, 1).unwrap().bits, [bit]);
    }
    cases.push(recorded(8, 8, vec![biased], vec![search(8, 1, 1), search(8, 2, 1)]));
    cases
}

/// Each refusal alone, and pairs of faults of which the earlier is answered.
fn refused(draws: &mut Draws) -> Vec<Case> {
    let mut cases = Vec::new();
    let held = vec![draws.bytes(21), draws.bytes(8)];
    let good = search(8, 2, 1);
    // A sampler of B = 8 that was lent 17 words: 128 blocks at most, of a byte each, so that no byte is unfinished.
    let returned = Sampler { block_size: 8, words: 17, blocks: 29, turned: false, lengths: [0; 4] };
    let mut bad = Vec::new();
    for block_size in [0, 4, 12, 4104, 1 << 32] {
        bad.push(Sampler { block_size, ..returned });
    }
    for words in [0, 16, 18, 1 << 32] {
        bad.push(Sampler { words, ..returned });
    }
    for blocks in [129, 1 << 24, usize::MAX] {
        bad.push(Sampler { blocks, ..returned });
    }
    for lengths in [[1, 0, 0, 0], [0, 1, 0, 0], [0, 0, 1, 0], [0, 0, 0, 1], [0, usize::MAX, 0, 0], [0, 0, 1 << 32, 0]] {
        bad.push(Sampler { lengths, ..returned });
    }
    let mut searches: Vec<Search> = bad.iter().map(|sampler| Search { sampler: Some(*sampler), ..good.clone() }).collect();
    // 4 before 2, 3 and 7, with stores of any length.
    for (k, bins, store) in [(0, 5, 16), (21, 5, 16), (9, 600, 5000), (3, 8, 1), (3, 7, 1000), (3, 7, 1)] {
        searches.push(Search { stretch: None, k, bins, order: bins, store, sampler: Some(bad[6]) });
    }
    // 2 alone, and before 7; a width above both limits is refused with 2.
    for (k, bins, store) in [(0, 5, 16), (21, 300, 5000), (usize::MAX, 300, 5000), (0, 0, 0), (21, 0, 0)] {
        searches.push(Search { stretch: None, k, bins, order: bins, store, sampler: None });
    }
    // 3 alone, and before 7.
    for (k, bins, store) in [(9, 600, 5000), (20, 600, 5000), (9, 600, 100), (9, 511, 5000), (9, 0, 0)] {
        searches.push(Search { stretch: None, k, bins, order: bins, store, sampler: None });
    }
    // No refusal: a store of just enough entries, longer, and too short by one entry, by the last layer or by all. What is enough for width 7 is not for 8.
    for (k, store) in [
        (8, 254), (8, 255), (8, 300), (8, 253), (8, 246), (8, 0), (7, 246), (7, 245), (3, 36), (3, 35), (2, 8), (2, 7), (1, 8), (1, 9), (1, 7), (1, 0),
    ] {
        searches.push(Search { stretch: None, k, bins: 257, order: 257, store, sampler: None });
    }
    // 7, whatever the store.
    for (bins, order) in [(255, 256), (256, 255)] {
        searches.extend([253, 0, 254].map(|store| Search { stretch: None, k: 8, bins, order, store, sampler: None }));
    }
    // 7: either buffer, by one entry or by all.
    for (bins, order) in [(255, 256), (256, 255), (255, 255), (0, 256), (256, 0), (256, 256)] {
        searches.push(Search { stretch: None, k: 8, bins, order, store: 255, sampler: None });
    }
    for (bins, order) in [(1, 2), (2, 1), (0, 0)] {
        searches.push(Search { stretch: None, k: 1, bins, order, store: 9, sampler: None });
    }
    searches.push(good);
    cases.push(recorded(8, 17, held, searches));
    // After a refused start.
    cases.push(recorded(12, 24, vec![vec![1]], vec![search(8, 1, 1), Search { k: 0, ..search(8, 1, 0) }]));
    // A sum above 2^32, where buffers that are too short keep the search from starting.
    for (block_size, k) in [(128, 7), (512, 6), (4096, 4), (4096, 20)] {
        let short = Search { stretch: None, k, bins: (1 << k.min(8)) - 1, order: 300, store: 5000, sampler: None };
        cases.push(recorded(block_size, block_size, vec![draws.bytes(3)], vec![short]));
    }
    cases
}

/// Samplers that say fewer or more blocks than were completed, within capacity: blocks that were not are all zeros. Ones with other unfinished bytes, which no
/// search sees. And one that says the other bit order, which its finding has: the words stay as they were fed.
fn other_samplers(draws: &mut Draws) -> Vec<Case> {
    let mut cases = Vec::new();
    for (block_size, words, fed) in [(8, 16, 100), (16, 35, 150), (24, 24, 60)] {
        let pieces = vec![recording(draws, 5, fed)];
        let (size, n) = (block_size / 8, fed / (block_size / 8));
        let said = Sampler { block_size, words, blocks: n, turned: false, lengths: [0; 4] };
        let blocks = [0, 1, n / 2, n - 1, n + 1, capacity(block_size, words)].map(|blocks| Sampler { blocks, ..said });
        let lengths = [[size - 1; 4], [0, size - 1, 0, size - 1], [0, 0, 0, size], [size, 0, 0, 0]].map(|lengths| Sampler { lengths, ..said });
        let samplers = blocks.into_iter().chain(lengths).chain([Sampler { turned: true, ..said }]);
        let searches = samplers.map(|sampler| Search { sampler: Some(sampler), ..search(block_size, 2, 1) }).collect();
        cases.push(recorded(block_size, words, pieces, searches));
    }
    cases
}

/// Recordings of zeros, of ones, and of both with the final byte missing.
fn plain() -> Vec<Case> {
    let mut cases = Vec::new();
    for block_size in [8, 16, 24, 64, 128] {
        let size = block_size / 8;
        for recording in [vec![0x00; 9 * size], vec![0xFF; 9 * size], [vec![0x00; 5 * size], vec![0xFF; 5 * size - 1]].concat()] {
            let searches = [1, 2].map(|k| search(block_size, k, 1)).to_vec();
            cases.push(recorded(block_size, block_size, vec![recording], searches));
        }
    }
    cases
}

/// Every block size with recordings of every kind.
fn with_ties(draws: &mut Draws) -> Vec<Case> {
    let mut cases = Vec::new();
    for (i, block_size) in [8, 16, 24, 64, 128].into_iter().enumerate() {
        for (j, blocks) in [0, 1, 2, 3, 5, 16, 63, 64, 65, 127, 128, 129].into_iter().enumerate() {
            let size = block_size / 8;
            // Long blocks at the smaller numbers only, to save room here; some recordings end inside a block.
            if size * blocks > 700 {
                continue;
            }
            let rest = if (i + j) % 3 == 0 { 0 } else { draws.below(size) };
            let bytes = blocks * size + rest;
            let recording = recording(draws, 2 * i + j, bytes);
            let stride = bytes.div_ceil(64 * size) + (j % 2) * draws.below(2);
            let words = stride * block_size + draws.below(block_size);
            let feeds = feeds(draws, block_size, words, &recording);
            let searches = widths(block_size, j).into_iter().map(|k| search(block_size, k, (j + k) % 3)).collect();
            cases.push(Case { block_size, words, begin: Begin::Start, feeds, searches });
        }
    }
    cases
}

/// The widths searched: fewer where there are many subsets.
fn widths(block_size: usize, j: usize) -> Vec<usize> {
    match block_size {
        8 => if j % 4 == 1 { (1..=8).collect() } else { (1..=4).collect() },
        16 => (1..=4).collect(),
        24 => if j % 4 == 2 { (1..=4).collect() } else { (1..=3).collect() },
        _ => if j == 4 { (1..=3).collect() } else { (1..=2).collect() },
    }
}

/// Recordings whose winner has its z at a later division too: the first is to be answered.
fn tied_divisions(draws: &mut Draws) -> Vec<Case> {
    let mut cases = Vec::new();
    while cases.len() < 8 {
        let k = 2 + cases.len() / 4;
        let n = 4 + draws.below(13);
        let recording = draws.bytes(n);
        let finding = bottomup(&recording, 8, k, 1).unwrap();
        let bins = evaluate_histogram(&finding, &recording).bins;
        let size_at = |i: usize| {
            let count = finding.order[..i].iter().map(|bin| bins[*bin]).sum();
            z_score(n, count, i as f64 / bins.len() as f64).abs()
        };
        if (finding.division + 1..bins.len()).any(|i| size_at(i) == finding.z) {
            cases.push(recorded(8, 8, vec![recording], vec![search(8, k, 1)]));
        }
    }
    cases
}

/// Rows of more words than are counted at once, and a wide search of a long block.
fn long(draws: &mut Draws) -> Vec<Case> {
    let mut cases = Vec::new();
    for (kind, blocks) in [(0, 4095), (3, 4097)] {
        let recording = recording(draws, kind, blocks);
        let pieces = cut(draws, &recording, 3);
        cases.push(recorded(8, 8 * blocks.div_ceil(64) + 5, pieces, vec![search(8, 1, 1), search(8, 3, 1)]));
    }
    let recording = recording(draws, 5, 8 * 70);
    cases.push(recorded(64, 128, vec![recording], vec![search(64, 4, 1)]));
    cases
}

/// A short recording of the differential run with its search, of all blocks and of the drawn stretch where that is another. A buffer has one entry too few,
/// just enough, or one or two more; the store also some more.
fn case_of_run(case: run::Case) -> Option<(Case, bool)> {
    let run::Case::Recording(drawn) = case else { return None };
    let (block_size, words, k) = (drawn.block_size, drawn.words, drawn.k);
    let searchable = drawn.searchable();
    let store = if searchable { store_entries(block_size, k) } else { 2 };
    // As much as the program's buffers hold, and little to print: the more bins, the fewer bytes.
    if drawn.bytes() > 200 || words > 8192 || (searchable && (k > 8 || drawn.bytes() << k > 1200)) || store > (STORE - run::STORE_SLACK) as u128 {
        return None;
    }
    let entries = |needed: usize, more: isize| (needed as isize + more) as usize;
    // Where the width is refused, any buffer will do.
    let m = if searchable { 1 << k } else { 2 };
    let mut past = Sampler { block_size, words, blocks: 0, turned: false, lengths: [0; 4] };
    match drawn.stale {
        Some(board @ 0..=3) => past.lengths[board] = block_size / 8,
        _ => past.blocks = capacity(block_size, words) + 1,
    }
    let (bins, order, store) = (entries(m, drawn.bins), entries(m, drawn.order), entries(store as usize, drawn.store));
    let search = Search { stretch: None, k, bins, order, store, sampler: drawn.stale.map(|_| past) };
    let stretch = Some((drawn.stretch.start, drawn.stretch.end));
    let whole = drawn.stretch == (0..drawn.blocks());
    let searches = if whole { vec![search] } else { vec![search.clone(), Search { stretch, ..search }] };
    let (begin, later) = match drawn.carried {
        None => (Begin::Start, &drawn.feeds[..]),
        Some(feeds) => (Begin::CarryOver(Earlier::of(words, drawn.earlier(feeds))), &drawn.feeds[feeds..]),
    };
    Some((Case { block_size, words, begin, feeds: later.to_vec(), searches }, drawn.low_first))
}

fn write_case(sheet: &mut Sheet, case: &Case, low_first: bool) {
    let plain = write_recording(sheet, case.block_size, low_first, case.words, &case.begin, &case.feeds);
    let held = plain.as_ref().map_or(vec![], |plain| plain.held.clone());
    // Where the first call was refused every number of the sampler is 0.
    let none = Sampler { block_size: 0, words: 0, blocks: 0, turned: false, lengths: [0; 4] };
    let returned = plain.map_or(none, |plain| {
        let lengths = plain.tails.each_ref().map(Vec::len);
        Sampler { block_size: case.block_size, words: case.words, blocks: plain.blocks(), turned: false, lengths }
    });
    sheet.case([case.searches.len()]);
    for search in &case.searches {
        assert!(search.store <= STORE);
        let sampler = search.sampler.unwrap_or(returned);
        let (first, end) = search.stretch.unwrap_or((0, sampler.blocks));
        // What the sampler says was completed; words that were not filled are zero.
        let mut seen = high_first(&held, low_first).into_owned();
        seen.resize(sampler.blocks.min(1 << 16) * (sampler.block_size.min(4096) / 8), 0);
        let refusal = refusal(case, search, sampler);
        let order = (low_first != sampler.turned) as usize;
        let [a, b, c, d] = sampler.lengths;
        let given = [sampler.block_size, sampler.words, sampler.blocks, order, a, b, c, d];
        let lengths = [first, end, search.k, search.bins, search.order, search.store];
        sheet.case(lengths.into_iter().chain(match search.sampler {
            None => vec![0],
            Some(_) => [vec![1], given.to_vec()].concat(),
        }));
        let size = sampler.block_size / 8;
        let blocks = if refusal == 0 { &seen[first * size..end * size] } else { &[] };
        for entries in [search.store, 0] {
            answer(sheet, search.k, [sampler.block_size, order], blocks, refusal, entries);
        }
    }
}

/// The first condition that applies, in the order of a search's refusals; 0 where none does.
fn refusal(case: &Case, search: &Search, sampler: Sampler) -> usize {
    let (block_size, k) = (sampler.block_size, search.k);
    if !valid(block_size) || sampler.words != case.words || sampler.blocks > capacity(block_size, case.words) {
        return 4;
    }
    if sampler.lengths.iter().any(|bytes| *bytes >= block_size / 8) {
        return 4;
    }
    if search.stretch.is_some_and(|(first, end)| first > end || end > sampler.blocks) {
        return 18;
    }
    if k == 0 || k > 20 {
        return 2;
    }
    if k > block_size {
        return 3;
    }
    if search.bins < 1 << k || search.order < 1 << k {
        return 7;
    }
    0
}

/// What a search of width k answers with a store of so many entries, given B and the sampler's bit order.
fn answer(sheet: &mut Sheet, k: usize, [block_size, order]: [usize; 2], blocks: &[u8], refusal: usize, entries: usize) {
    if refusal != 0 {
        // Every field 0, no counts, no order, and all entries as lent.
        sheet.answer([refusal].into_iter().chain([0; 25]));
        sheet.answer(Vec::<usize>::new());
        sheet.answer(Vec::<usize>::new());
        sheet.answer([0; 4]);
        return;
    }
    let layered = suffices(block_size, k, entries);
    let finding = bottomup(blocks, block_size, k, if layered { 0 } else { 1 }).unwrap();
    let mut line = vec![0, finding.block_size as u64, finding.bits.len() as u64];
    line.extend(finding.bits.iter().map(|bit| *bit as u64));
    line.resize(23, 0);
    line.extend([finding.division as u64, finding.z.to_bits(), order as u64]);
    sheet.answer(line);
    sheet.answer(evaluate_histogram(&finding, blocks).bins);
    sheet.answer(finding.order);
    let sum = if layered { checksum(&transform_data(blocks, block_size), block_size, k) } else { 0 };
    sheet.answer([0, 0, 0, sum]);
}
