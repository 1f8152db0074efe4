//! Cases for `crates/replay_cases`: a recording in pieces, the search with the store and with none after it, and all that was lent.

use answers::order::high_first;
use answers::*;

mod cases;

/// What a replay is given: numbers, how many entries of each kind are lent, the recording, and the lengths of its pieces.
#[derive(Clone)]
struct Case {
    block_size: usize,
    k: usize,
    words: usize,
    bins: usize,
    order: usize,
    store: usize,
    recording: Vec<u8>,
    lengths: Vec<usize>,
}

/// Words and entries as they are lent.
const WORD: u64 = u64::MAX;
const ENTRY: usize = 99;

fn main() {
    let mut sheet = Sheet::default();
    sheet.note("Cases of the replay crate. Made, with their answers, by `tools/answers/run replay REFERENCE`; no answer is our own program's.");
    sheet.note("Findings: the reference's bottomup on the blocks held, with threads = 1; where the store suffices, they agree where threads = 0 gives the same.");
    sheet.note("Counts: its evaluate_histogram on those blocks; of a store its multi_eval on transform_data of them, by which the words are, too. Refusals, refused feeds");
    sheet.note("and the entries S that a store needs by the rules in that tool. Every word is lent with all ones, every other entry as 99.");
    sheet.note(&order::note("the last ones as they are drawn"));
    sheet.note("Each: B, the bit order, k, how many words, bins, entries of the order and of the store are lent; the number of the recording's bytes, and each; the");
    sheet.note("number of lengths, and each.");
    sheet.note("Answer: a line with refusal, refused feeds, whether the store suffices, whether the findings agree, B, width, 20 bits, division, the pattern of z and");
    sheet.note("the bit order; all words; the whole bin buffer; the whole order buffer; a line with how many entries of the store, where it suffices of those past S, are");
    sheet.note("no longer as lent, and, where it does, the sum of (i + 1) x entry i for i below S, modulo 2^64, else 0.");
    sheet.note(&run::note());
    let cases = cases::all(&mut Draws::new(10));
    sheet.case([cases.len()]);
    for (case, low_first) in &cases {
        write_case(&mut sheet, case, *low_first);
    }
    sheet.save();
}

/// The entries that a store needs at width k.
fn store_entries(block_size: usize, k: usize) -> usize {
    (1..=1.max(k - 1)).map(|d| choose(block_size, d)).fold(0, usize::saturating_add)
}

/// The first condition that applies, in the order of a replay's refusals; 0 where none does.
fn refusal(case: &Case) -> usize {
    let total: u128 = case.lengths.iter().map(|length| *length as u128).sum();
    if total != case.recording.len() as u128 {
        24
    } else if !valid(case.block_size) {
        1
    } else if case.k == 0 || case.k > 20 {
        2
    } else if case.k > case.block_size {
        3
    } else if case.bins < 1 << case.k || case.order < 1 << case.k {
        7
    } else {
        0
    }
}

/// The plain recording after all pieces, which are board 0's, and how many feeds are refused.
fn fed(case: &Case) -> (Plain, usize) {
    let (mut plain, mut refused, mut at) = (Plain::start(case.block_size, case.words), 0, 0);
    for length in &case.lengths {
        let piece = case.recording[at..at + length].to_vec();
        at += length;
        refused += (plain.feed(&Feed { board: 0, piece }) != 0) as usize;
    }
    (plain, refused)
}

fn write_case(sheet: &mut Sheet, case: &Case, low_first: bool) {
    let refusal = refusal(case);
    sheet.case([case.block_size, low_first as usize, case.k, case.words, case.bins, case.order, case.store]);
    sheet.list(&case.recording);
    sheet.list(&case.lengths);
    if refusal != 0 {
        // Every field 0, and all as lent.
        sheet.answer([refusal].into_iter().chain([0; 28]));
        sheet.answer(vec![WORD; case.words]);
        sheet.answer(vec![ENTRY; case.bins]);
        sheet.answer(vec![ENTRY; case.order]);
        sheet.answer([0, 0]);
    } else {
        answer(sheet, case, low_first);
    }
}

/// The lines of a case that is not refused.
fn answer(sheet: &mut Sheet, case: &Case, low_first: bool) {
    let (plain, refused) = fed(case);
    let blocks = high_first(&plain.held, low_first);
    let layered = case.store >= store_entries(case.block_size, case.k);
    let finding = bottomup(&blocks, case.block_size, case.k, 1).unwrap();
    let agree = bottomup(&blocks, case.block_size, case.k, if layered { 0 } else { 1 }).unwrap() == finding;
    let mut line = vec![0, refused as u64, layered as u64, agree as u64, finding.block_size as u64, finding.bits.len() as u64];
    line.extend(finding.bits.iter().map(|bit| *bit as u64));
    line.resize(26, 0);
    line.extend([finding.division as u64, finding.z.to_bits(), low_first as u64]);
    sheet.answer(line);
    sheet.answer(words_after(&plain, low_first, &Begin::Start));
    let mut bins = evaluate_histogram(&finding, &blocks).bins;
    bins.resize(case.bins, ENTRY);
    sheet.answer(bins);
    let mut order = finding.order;
    order.resize(case.order, ENTRY);
    sheet.answer(order);
    let sum = if layered { checksum(&transform_data(&blocks, case.block_size), case.block_size, case.k) } else { 0 };
    sheet.answer([0, sum]);
}
