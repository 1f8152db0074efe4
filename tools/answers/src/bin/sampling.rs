//! Cases for `crates/sampling_cases`: samplers of four boards, carried over or not, with every number, byte and word that they have in the end.

use answers::order::both;
use answers::*;

#[derive(Clone)]
struct Case {
    block_size: usize,
    words: usize,
    begin: Begin,
    feeds: Vec<Feed>,
}

fn main() {
    let mut draws = Draws::new(12);
    let mut sheet = Sheet::default();
    sheet.note("Cases of the sampling crate. Made, with their answers, by `tools/answers/run sampling REFERENCE`; no answer is our own program's.");
    sheet.note("Refusals, n and unfinished bytes: the rules of start, carry-over and feed, in a few lines of that tool, since the reference takes a recording whole.");
    sheet.note("Words: the reference's transform_data on the blocks in the order completed, each 128-wide word as two of 64, the low half first, put in behind those that");
    sheet.note("the program itself has laid for a carry-over.");
    sheet.note(&order::note("the last ones as they are drawn"));
    sheet.note("Each: B, the bit order and the number of lent words; 0 for a start, or 1 for a carry-over, with what the earlier sampler says of its words and of the bytes");
    sheet.note("taken, 1 where the words are all ones before they are laid, the number of bytes laid and each; the number of feeds, and for each its board, its length and");
    sheet.note("its bytes.");
    sheet.note("Answer: a line with the refusal of the start or the carry-over, for each feed its refusal, n and the unfinished bytes of its board, and the bit order; a line");
    sheet.note("with B, the words, n, the bit order and the lengths of the boards' unfinished bytes; for each board a line with these bytes, and how many of its places past");
    sheet.note("them are not 0; a line with all words.");
    sheet.note(&run::note());
    let mut cases = both(orders());
    cases.extend(both(edges(&mut draws)));
    cases.extend(both(boards_that_are_not(&mut draws)));
    cases.extend(both(full(&mut draws)));
    cases.extend(both(carried(&mut draws)));
    cases.extend(both(carried_full(&mut draws)));
    cases.extend(both(not_carried(&mut draws)));
    cases.extend(both(longest_blocks(&mut draws)));
    cases.extend(run::sample().filter_map(case_of_run));
    sheet.case([cases.len()]);
    for (case, low_first) in &cases {
        write_case(&mut sheet, case, *low_first);
    }
    sheet.save();
}

fn started(block_size: usize, words: usize, feeds: Vec<Feed>) -> Case {
    Case { block_size, words, begin: Begin::Start, feeds }
}

fn feed(board: usize, piece: &[u8]) -> Feed {
    Feed { board, piece: piece.to_vec() }
}

/// The first bytes of four blocks, then the boards complete them in every order: the blocks stand in the order completed, not begun.
fn orders() -> Vec<Case> {
    let mut cases = Vec::new();
    for a in 0..4 {
        for b in (0..4).filter(|b| *b != a) {
            for c in (0..4).filter(|c| *c != a && *c != b) {
                let order = [a, b, c, 6 - a - b - c];
                let mut feeds: Vec<Feed> = (0..4).map(|board| feed(board, &[16 * board as u8 + 1, 2])).collect();
                feeds.extend(order.map(|board| feed(board, &[16 * board as u8 + 3])));
                cases.push(started(24, 24, feeds));
            }
        }
    }
    cases
}

/// Pieces that end a byte before a block's edge, at it, and a byte behind it, on each board in turn, empty ones between.
fn edges(draws: &mut Draws) -> Vec<Case> {
    let mut cases = Vec::new();
    for block_size in [8, 16, 24, 64] {
        let size = block_size / 8;
        for lengths in [[size - 1, 1, size], [size, size - 1, 2], [size + 1, size - 1, 1], [2 * size - 1, 2, 2 * size], [1, 3 * size, 0]] {
            let feeds = (0..12).map(|i| feed(i % 4, &draws.bytes(lengths[i / 4]))).collect();
            cases.push(started(block_size, block_size + 3, feeds));
        }
    }
    cases
}

/// 21 between feeds that are taken, also with nothing to feed, with a piece that would be refused with 5, and after a refused start, where 4 comes first.
fn boards_that_are_not(draws: &mut Draws) -> Vec<Case> {
    let mut cases = Vec::new();
    for board in [4, 5, 255, 256, 1 << 32, (1 << 32) + 1, usize::MAX] {
        let feeds = [(0, 1), (board, 1), (3, 2), (board, 0), (board, 140), (0, 1), (board - 1, 1)].map(|(board, bytes)| feed(board, &draws.bytes(bytes)));
        cases.push(started(16, 16, feeds.to_vec()));
    }
    cases.push(started(12, 16, vec![feed(4, &[1]), feed(0, &[1]), feed(3, &[])]));
    cases.push(started(0, 0, vec![feed(usize::MAX, &[])]));
    cases
}

/// Capacity, 64 blocks, all but two completed by one board while the others hold unfinished bytes; then each of them at the limit: with 5 where a block too many
/// would be completed, by one piece or by what was unfinished, taken where it is the last, and unfinished bytes past it.
fn full(draws: &mut Draws) -> Vec<Case> {
    let mut cases = Vec::new();
    for (block_size, words) in [(8, 8), (16, 17), (24, 30), (64, 64)] {
        let size = block_size / 8;
        let mut lengths: Vec<(usize, usize)> = (1..4).map(|board| (board, size - 1)).collect();
        lengths.extend([(0, 62 * size), (2, 2 * size + 1), (1, 1), (3, size + 1), (3, 1), (2, 1), (0, size), (0, size - 1), (0, 1), (1, size - 1), (2, 0), (3, size)]);
        let feeds = lengths.into_iter().map(|(board, bytes)| feed(board, &draws.bytes(bytes))).collect();
        cases.push(started(block_size, words, feeds));
    }
    // No row has a word: no block fits, but bytes do.
    for (block_size, words) in [(16, 0), (16, 15), (128, 127)] {
        let size = block_size / 8;
        let feeds = [(0, size), (0, size - 1), (0, 1), (3, size - 1), (3, 1), (2, 0)].map(|(board, bytes)| feed(board, &draws.bytes(bytes)));
        cases.push(started(block_size, words, feeds.to_vec()));
    }
    cases
}

/// Every number of unfinished bytes carried over, none laid and a few blocks, then feeds: board 0's first piece completes the block.
fn carried(draws: &mut Draws) -> Vec<Case> {
    let mut cases = Vec::new();
    for block_size in [8, 16, 24, 64, 128] {
        let size = block_size / 8;
        for left in 0..size {
            for blocks in [0, 1 + draws.below(3)] {
                let words = block_size * (1 + left % 2) + left % 5;
                let begin = Begin::CarryOver(Earlier::of(words, draws.bytes(blocks * size + left)));
                let feeds = [(1, size), (0, size - left), (0, size - 1), (2, 1), (0, 2)].map(|(board, bytes)| feed(board, &draws.bytes(bytes)));
                cases.push(Case { block_size, words, begin, feeds: feeds.to_vec() });
                // Words that no recording left: the bits of the unfinished bytes are cleared, and no other.
                let earlier = Earlier { words, taken: blocks * size + left, ones: true, bytes: draws.bytes(blocks * size) };
                cases.push(Case { block_size, words, begin: Begin::CarryOver(earlier), feeds: vec![] });
            }
        }
    }
    cases
}

/// Lanes at the ends of words, and recordings that are full or all but a byte full.
fn carried_full(draws: &mut Draws) -> Vec<Case> {
    let mut cases = Vec::new();
    for (block_size, words, blocks) in [(16, 32, 63), (16, 32, 64), (16, 32, 65), (24, 48, 127), (24, 48, 128), (16, 16, 64), (8, 8, 64)] {
        let size = block_size / 8;
        let room = 64 * (words / block_size) * size;
        for left in 0..size {
            let taken = (blocks * size + left).min(room);
            let begin = Begin::CarryOver(Earlier::of(words, recording(draws, 2, taken)));
            let feeds = [(0, size), (1, size - 1), (1, 1), (0, size - 1), (0, 1)].map(|(board, bytes)| feed(board, &draws.bytes(bytes)));
            cases.push(Case { block_size, words, begin, feeds: feeds.to_vec() });
        }
    }
    cases
}

/// 4 as the earlier rule has it, the words as they were laid: B, the words and the bytes taken that the earlier sampler says.
fn not_carried(draws: &mut Draws) -> Vec<Case> {
    let mut cases = Vec::new();
    for (block_size, words, said, taken) in [
        (16, 33, 32, 5), (16, 33, 34, 5), (16, 33, 0, 5), (16, 33, 1 << 32, 5), (16, 33, 33, 257), (16, 33, 33, 1 << 24), (16, 33, 33, usize::MAX),
        (16, 15, 15, 1), (16, 0, 0, 1), (20, 33, 33, 0), (0, 33, 33, 0), (4104, 33, 33, 0), (4, 33, 33, 0),
    ] {
        let bytes = if block_size == 16 && words == 33 { draws.bytes(5) } else { vec![] };
        let begin = Begin::CarryOver(Earlier { words: said, taken, ones: true, bytes });
        cases.push(Case { block_size, words, begin, feeds: vec![feed(0, &[1]), feed(4, &[])] });
    }
    // Within capacity, where it is taken: nothing taken, and all that there is room for.
    for taken in [0, 256] {
        cases.push(Case { block_size: 16, words: 33, begin: Begin::CarryOver(Earlier { words: 33, taken, ones: true, bytes: vec![] }), feeds: vec![] });
    }
    cases.push(Case { block_size: 16, words: 15, begin: Begin::CarryOver(Earlier::of(15, vec![])), feeds: vec![feed(0, &[1]), feed(0, &[2])] });
    cases
}

/// Blocks of 512 bytes, whose boards' bytes fill all their places but one.
fn longest_blocks(draws: &mut Draws) -> Vec<Case> {
    let mut feeds: Vec<Feed> = (0..4).map(|board| feed(board, &draws.bytes(511))).collect();
    feeds.extend([(2, 1), (0, 2), (3, 1)].map(|(board, bytes)| feed(board, &draws.bytes(bytes))));
    let carried = Begin::CarryOver(Earlier::of(4096, draws.bytes(512 + 511)));
    vec![started(4096, 4096, feeds), Case { block_size: 4096, words: 4096, begin: carried, feeds: vec![feed(0, &draws.bytes(2)), feed(1, &draws.bytes(3))] }]
}

/// A short recording of the differential run.
fn case_of_run(case: run::Case) -> Option<(Case, bool)> {
    let run::Case::Recording(drawn) = case else { return None };
    if drawn.bytes() > 200 || drawn.words > 200 {
        return None;
    }
    let (block_size, words) = (drawn.block_size, drawn.words);
    let (begin, feeds) = match drawn.carried {
        None => (Begin::Start, drawn.feeds),
        Some(feeds) => (Begin::CarryOver(Earlier::of(words, drawn.earlier(feeds))), drawn.feeds[feeds..].to_vec()),
    };
    Some((Case { block_size, words, begin, feeds }, drawn.low_first))
}

fn write_case(sheet: &mut Sheet, case: &Case, low_first: bool) {
    let plain = write_recording(sheet, case.block_size, low_first, case.words, &case.begin, &case.feeds);
    let Some(plain) = plain else {
        // Every number and byte 0, and the words as lent.
        sheet.answer([0; 8]);
        for _ in 0..4 {
            sheet.answer([0]);
        }
        sheet.answer(match &case.begin {
            Begin::Start => vec![u64::MAX; case.words],
            Begin::CarryOver(earlier) if valid(case.block_size) => laid(case.block_size, case.words, low_first, earlier),
            Begin::CarryOver(_) => vec![u64::MAX; case.words],
        });
        return;
    };
    let lengths = plain.tails.each_ref().map(Vec::len);
    sheet.answer([case.block_size, case.words, plain.blocks(), low_first as usize].into_iter().chain(lengths));
    for tail in &plain.tails {
        sheet.answer(tail.iter().map(|byte| *byte as usize).chain([0]));
    }
    sheet.answer(words_after(&plain, low_first, &case.begin));
}
