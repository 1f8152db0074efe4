//! Cases for `crates/counting_cases`: single blocks, and samplers fed a recording in pieces.

use answers::order::{both, by_turns, high_first, turned};
use answers::*;

const SIZES: [usize; 5] = [8, 16, 24, 64, 128];
const COUNTS: [usize; 8] = [0, 1, 63, 64, 65, 127, 128, 129];

/// A sampler's case: the call of start, the feeds, the subsets counted.
#[derive(Clone)]
struct Case {
    block_size: usize,
    words: usize,
    feeds: Vec<Feed>,
    subsets: Vec<Subset>,
}

/// The stretch of blocks counted, all whole ones where there is none, and the bits.
#[derive(Clone)]
struct Subset {
    stretch: Option<(usize, usize)>,
    bits: Vec<usize>,
}

/// Each counted over all whole blocks.
fn whole(subsets: Vec<Vec<usize>>) -> Vec<Subset> {
    subsets.into_iter().map(|bits| Subset { stretch: None, bits }).collect()
}

/// Each counted over each of the stretches.
fn in_stretches(stretches: &[(usize, usize)], subsets: &[&[usize]]) -> Vec<Subset> {
    stretches.iter().flat_map(|stretch| subsets.iter().map(|bits| Subset { stretch: Some(*stretch), bits: bits.to_vec() })).collect()
}

fn main() {
    let mut draws = Draws::new(1);
    let mut sheet = Sheet::default();
    sheet.note("Cases of the counting crate. Made, with their answers, by `tools/answers/run counting REFERENCE`; no answer is our own program's.");
    sheet.note("Bits and bins of a block: the reference's bit_value_in_block and bits_block_eval.");
    sheet.note("Rows: its transform_data on the blocks in the order completed, each 128-wide word as two of 64, the low half first, up to the word of the last block.");
    sheet.note("Counts: its multi_eval_neg for every bin, on transform_data and negate of the blocks of the stretch alone, and its multi_eval. 99999999 alone where");
    sheet.note("the stretch ends before it begins, or after the blocks that the rows hold.");
    sheet.note("Refusals and blocks: the rules of start and feed, in a few lines of that tool, since the reference takes a recording whole.");
    sheet.note(&order::note("recordings of 4,095 to 8,193 blocks by turns, and the last ones as they are drawn"));
    sheet.note("Single blocks. Each: the bit order; the number of bytes and the bytes; the number of bits and the bits.");
    block_cases(&mut sheet, &mut draws);
    let mut cases = both(edge_cases(&mut draws));
    cases.extend(both(counted_cases(&mut draws)));
    cases.extend(by_turns(long_cases(&mut draws)));
    cases.extend(both(stretch_cases(&mut draws)));
    cases.extend(turned(vec![chunk_case(&mut draws)], mirror));
    cases.extend(run::sample().filter_map(short).map(case_of_run));
    sheet.note("Samplers. Each: B, the bit order and the number of lent words; 0 for a start; the number of feeds, and for each its board, its length and its bytes;");
    sheet.note("where B is valid, the number of subsets, and for each the first block and the end of a stretch, its width and its bits.");
    sheet.note(&run::note());
    sheet.case([cases.len()]);
    for (case, low_first) in &cases {
        write_case(&mut sheet, case, *low_first);
    }
    sheet.save();
}

fn block_cases(sheet: &mut Sheet, draws: &mut Draws) {
    let mut cases: Vec<(Vec<u8>, Vec<usize>)> = Vec::new();
    for byte in [0x00, 0x01, 0x80, 0xA5, 0xFF] {
        cases.push((vec![byte], (0..8).collect()));
    }
    cases.push((vec![0x5A], vec![]));
    cases.push((vec![0x93], vec![7, 0, 3, 3]));
    for size in [2, 3, 8, 16, 512] {
        for k in [1, 2, 8, 16] {
            cases.push((draws.bytes(size), draws.subset(8 * size, k)));
        }
    }
    cases.push((draws.bytes(3), (4..24).collect()));
    cases.push((draws.bytes(512), draws.subset(4096, 20)));
    cases.push((vec![0xFF; 512], (4076..4096).collect()));
    let cases = both(cases);
    sheet.case([cases.len()]);
    for ((block, bits), low_first) in &cases {
        sheet.case([*low_first as usize]);
        sheet.list(block);
        sheet.list(bits);
        let block = high_first(block, *low_first);
        let values = bits.iter().map(|bit| bit_value_in_block(*bit, &block) as usize);
        sheet.answer(values.chain([bits_block_eval(bits, &block)]));
    }
}

/// The limits of B, of the words and of capacity.
fn edge_cases(draws: &mut Draws) -> Vec<Case> {
    let mut cases = Vec::new();
    for block_size in [0, 4, 7, 12, 4095, 4104, 65536] {
        cases.push(Case { block_size, words: 64, feeds: vec![], subsets: vec![] });
    }
    // After a refused start the sampler is none of these words.
    cases.push(Case { block_size: 20, words: 64, feeds: alone(vec![vec![], vec![1]]), subsets: vec![] });
    cases.push(Case { block_size: 0, words: 0, feeds: alone(vec![vec![]]), subsets: vec![] });
    // No whole word to a row: no block fits.
    for (block_size, words) in [(8, 0), (8, 7), (128, 127)] {
        let pieces = vec![vec![], vec![255; block_size / 8 - 1], vec![255], vec![]];
        cases.push(Case { block_size, words, feeds: alone(pieces), subsets: whole(vec![vec![0], vec![1, 2]]) });
    }
    // A block too many, all but a byte of the last block that fits, a block too many again, that byte, a block more, all but a byte of it, that byte, nothing.
    for (block_size, words) in [(8, 8), (8, 15), (16, 40), (24, 47), (64, 64)] {
        let (size, all) = (block_size / 8, capacity_bytes(block_size, words));
        let first = 3 + draws.below(20);
        let lengths = [first, all - first + size, all - first - 1, size + 1, 1, size, size - 1, 1, 0];
        let pieces = lengths.iter().map(|length| draws.bytes(*length)).collect();
        cases.push(Case { block_size, words, feeds: alone(pieces), subsets: subsets(draws, block_size) });
    }
    // The largest block, whose rows are a word each.
    for (words, bytes) in [(4096, 1030), (4100, 512), (8191, 511)] {
        let recording = draws.bytes(bytes);
        let pieces = cut(draws, &recording, 3);
        cases.push(Case { block_size: 4096, words, feeds: alone(pieces), subsets: whole(vec![vec![4095], vec![0, 2047, 2048, 4095]]) });
    }
    cases
}

/// Every block size with every number of blocks, over recordings full of ties.
fn counted_cases(draws: &mut Draws) -> Vec<Case> {
    let mut cases = Vec::new();
    for (i, block_size) in SIZES.into_iter().enumerate() {
        for (j, blocks) in COUNTS.into_iter().enumerate() {
            let size = block_size / 8;
            // Some recordings end inside a block, some rows have more words than needed, and words may be left over.
            let rest = if (i + j) % 3 == 0 { 0 } else { draws.below(size) };
            let bytes = blocks * size + rest;
            let stride = bytes.div_ceil(64 * size) + (j % 2) * draws.below(3);
            let words = stride * block_size + draws.below(block_size);
            let recording = recording(draws, i + j, bytes);
            let feeds = feeds(draws, block_size, words, &recording);
            cases.push(Case { block_size, words, feeds, subsets: subsets(draws, block_size) });
        }
    }
    cases
}

/// Rows of more words than are counted at once.
fn long_cases(draws: &mut Draws) -> Vec<Case> {
    let mut cases = Vec::new();
    for (kind, blocks) in [(0, 4095), (3, 4096), (2, 4097), (3, 8193)] {
        let recording = recording(draws, kind, blocks);
        let pieces = cut(draws, &recording, 3);
        let words = 8 * blocks.div_ceil(64) + 5;
        cases.push(Case { block_size: 8, words, feeds: alone(pieces), subsets: subsets(draws, 8) });
    }
    cases
}

/// Stretches from and to every place about the ends of words, some of no block; first above end, and past the rows.
fn stretch_cases(draws: &mut Draws) -> Vec<Case> {
    let mut cases = Vec::new();
    for (kind, block_size, n) in [(2, 8, 130), (5, 8, 65), (0, 24, 130), (2, 64, 66)] {
        let size = block_size / 8;
        let recording = recording(draws, kind, n * size + size / 2);
        let words = block_size * (n + 1).div_ceil(64) + draws.below(block_size);
        let feeds = feeds(draws, block_size, words, &recording);
        let mut places = vec![0, 1, 63, 64, 65, 127, 128, n];
        places.retain(|place| *place <= n);
        let mut stretches = Vec::new();
        for (i, first) in places.iter().enumerate() {
            stretches.extend(places[i..].iter().map(|end| (*first, *end)));
        }
        let held = 64 * (words / block_size);
        stretches.extend([(1, 0), (65, 64), (n, 0), (0, held + 1), (held + 1, held + 1), (0, 1 << 32), (usize::MAX, 0), (0, usize::MAX)]);
        let bits = [draws.subset(block_size, 1), draws.subset(block_size, 3)];
        cases.push(Case { block_size, words, feeds, subsets: in_stretches(&stretches, &[&bits[0], &bits[1]]) });
    }
    cases
}

/// A recording longer than the marks of one chunk, which begins with the word of a stretch's first block; up to 4,096 blocks from there on there is room for
/// fewer marks. Each byte is one digit, to keep the file small.
fn chunk_case(draws: &mut Draws) -> Case {
    let recording: Vec<u8> = (0..33_000).map(|_| draws.below(10) as u8).collect();
    let pieces = cut(draws, &recording, 3);
    let stretches = [&[(0, 33_000)][..], &CHUNK_ENDS, &SHORT_CHUNK_ENDS].concat();
    Case { block_size: 8, words: 8 * 516 + 3, feeds: alone(pieces), subsets: in_stretches(&stretches, &[&[4], &[5, 7], &[4, 5, 6, 7]]) }
}

/// The same bits of each byte by their numbers in the other bit order: of the chunks' digits the high half of a byte is zeros.
fn mirror(case: &mut Case) {
    for bit in case.subsets.iter_mut().flat_map(|subset| &mut subset.bits) {
        *bit = *bit / 8 * 8 + 7 - *bit % 8;
    }
}

/// A short recording of the differential run that begins with a start.
fn short(case: run::Case) -> Option<run::Recording> {
    let run::Case::Recording(drawn) = case else { return None };
    (drawn.carried.is_none() && drawn.bytes() <= 200 && drawn.block_size <= 128 && drawn.searchable() && drawn.k <= 8).then_some(drawn)
}

/// The subset that the reference finds in it, counted over all blocks and over the drawn stretch where that is another of its blocks.
fn case_of_run(drawn: run::Recording) -> (Case, bool) {
    let another = drawn.within() && drawn.stretch != (0..drawn.blocks());
    let held = drawn.plain().held;
    let run::Recording { block_size, words, feeds, stretch, k, low_first, .. } = drawn;
    let bits = bottomup(&high_first(&held, low_first), block_size, k, 1).unwrap().bits;
    let mut subsets = whole(vec![bits.clone()]);
    if another {
        subsets.push(Subset { stretch: Some((stretch.start, stretch.end)), bits });
    }
    (Case { block_size, words, feeds, subsets }, low_first)
}

fn subsets(draws: &mut Draws, block_size: usize) -> Vec<Subset> {
    let mut subsets = vec![vec![0], vec![block_size - 1], vec![0, 1]];
    for k in [2, 3, 5] {
        subsets.push(draws.subset(block_size, k));
    }
    // Any list of bits can be counted, also one out of order that repeats a bit.
    subsets.push(vec![5, 2, 5]);
    if block_size == 24 {
        subsets.push(draws.subset(block_size, 9));
    }
    whole(subsets)
}

fn write_case(sheet: &mut Sheet, case: &Case, low_first: bool) {
    let Some(plain) = write_recording(sheet, case.block_size, low_first, case.words, &Begin::Start, &case.feeds) else { return };
    let n = plain.blocks();
    sheet.case([case.subsets.len()]);
    for Subset { stretch, bits } in &case.subsets {
        let (first, end) = stretch.unwrap_or((0, n));
        sheet.case([first, end, bits.len()].iter().chain(bits));
    }
    answer_counts(sheet, case, &high_first(&plain.held, low_first));
}

fn answer_counts(sheet: &mut Sheet, case: &Case, held: &[u8]) {
    let rows = transform_data(held, case.block_size);
    let n = rows.num_of_blocks();
    sheet.answer([n]);
    for bit in 0..case.block_size {
        sheet.answer((0..n.div_ceil(64)).map(|i| rows.word(bit, i)));
    }
    let (size, stride) = (case.block_size / 8, case.words / case.block_size);
    for Subset { stretch, bits } in &case.subsets {
        let (first, end) = stretch.unwrap_or((0, n));
        if first > end || end > 64 * stride {
            sheet.answer([99_999_999]);
            continue;
        }
        let rows = transform_data(&held[first * size..end * size], case.block_size);
        let negated = negate(&rows);
        let bins = (0..1 << bits.len()).map(|bin| multi_eval_neg(bits, &rows, &negated, bin));
        sheet.answer(bins.chain([multi_eval(bits, &rows)]));
    }
}
