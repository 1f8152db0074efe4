//! The inputs of docs/DIFFERENCES.md, each given to our calls and to the reference's: that both answer as is written there.
//! Beside them, where there is no difference: a finding's large numbers, and bit entries past its width.

use crate::case::{same, Checked};
use crate::ours::{self, Sampler, Searched};
use crate::recordings::{numbers, numbers_in};
use answers::{
    arguments, bottomup, compute_index, configurations, evaluate_histogram, from_bins, from_json, laid, reversed, to_json, transform_data, validate,
    whole_blocks, with_low_first, Earlier, Finding,
};
use jimrawel::calls;
use std::panic;

const ROWS: [(&str, fn() -> Checked); 44] = [
    ("pieces", pieces),
    ("row words", row_words),
    ("boards", boards),
    ("boards that are none", other_boards),
    ("unfinished bytes", unfinished_bytes),
    ("a carry-over", carry_over),
    ("large block sizes", large_block_sizes),
    ("other block sizes", other_block_sizes),
    ("many blocks", many_blocks),
    ("widths", widths),
    ("stores", stores),
    ("buffers", buffers),
    ("lengths of records", records),
    ("samplers", samplers),
    ("stretches", stretches),
    ("stretches that are none", other_stretches),
    ("bit orders", bit_orders),
    ("bit orders that are none", other_bit_orders),
    ("threads", threads),
    ("large ranks", large_ranks),
    ("ranks of no subset", ranks_of_no_subset),
    ("counts of a ranking", counts_of_a_ranking),
    ("no sample", no_sample),
    ("p-values", p_values),
    ("unsound findings", unsound_findings),
    ("numbers of 2^32 and more", large_numbers),
    ("entries past the width", past_the_width),
    ("a refused split", refused_split),
    ("sweeps: blocks evaluated", blocks_evaluated),
    ("sweeps: verdicts", verdicts),
    ("sweeps: levels", levels),
    ("sweeps: nothing to test", nothing_to_test),
    ("sweeps: long recordings", long_sweeps),
    ("sweeps: rooms", rooms_of_sweeps),
    ("texts: low_first is written", low_first_written),
    ("texts: low_first is passed over", low_first_passed_over),
    ("texts: other values of low_first", other_values_of_low_first),
    ("texts: other keys", other_keys),
    ("texts: an array for the object", array_for_object),
    ("texts: large block sizes", large_block_sizes_in_texts),
    ("texts: z_score", scores_in_texts),
    ("texts: no such object", no_such_object),
    ("texts: rooms", rooms_of_texts),
    ("powers of one half", powers_of_one_half),
];

pub fn run() {
    panic::set_hook(Box::new(|_| {}));
    for (name, row) in ROWS {
        match row() {
            Ok(()) => println!("{name}: as written"),
            Err(what) => {
                println!("{name}: {what}");
                std::process::exit(1);
            }
        }
    }
    println!("{} inputs, each as written", ROWS.len());
}

/// That an answer is the one that is written.
fn is<T: PartialEq + std::fmt::Debug>(what: &str, answer: T, written: T) -> Checked {
    if answer == written {
        return Ok(());
    }
    Err(format!("{what}: {answer:?}, where {written:?} is written"))
}

/// That the reference panics.
fn panics<T>(what: &str, call: impl FnOnce() -> T + panic::UnwindSafe) -> Checked {
    is(what, panic::catch_unwind(call).is_err(), true)
}

/// A sampler with just enough words for the bytes, all fed to board 0.
fn sampled(block_size: usize, pieces: &[&[u8]]) -> Sampler {
    sampled_in(false, block_size, pieces)
}

/// The same in a bit order.
fn sampled_in(low_first: bool, block_size: usize, pieces: &[&[u8]]) -> Sampler {
    let bytes: usize = pieces.iter().map(|piece| piece.len()).sum();
    let mut sampler = Sampler::started(block_size, low_first, block_size * bytes.div_ceil(8 * block_size).max(1));
    for piece in pieces {
        assert_eq!(sampler.feed(0, piece), 0);
    }
    sampler
}

/// A finding of two bits of a block of 8, with another order, or another division.
fn finding(order: &[usize], division: usize) -> Finding {
    Finding { block_size: 8, bits: vec![0, 1], order: order.to_vec(), division, z: 0.0 }
}

fn check(finding: &Finding, scratch: &mut [u32]) -> u32 {
    let order: Vec<u32> = finding.order.iter().map(|&bin| bin as u32).collect();
    ours::validate(&numbers(finding), &order, scratch)
}

fn pieces() -> Checked {
    let sampler = sampled(8, &[&[0, 0, 255], &[], &[255]]);
    let found = bottomup(&[0, 0, 255, 255], 8, 2, 1)?;
    same("finding", sampler.bottomup(0..4, 2, &mut [], &mut [0; 4], &mut [0; 4]).finding, numbers(&found))
}

fn row_words() -> Checked {
    let bytes = [0x80; 65];
    is("ours", &sampled(8, &[&bytes]).words[..4], &[u64::MAX, 1, 0, 0])?;
    is("the reference's", transform_data(&bytes, 8).row(0), &[(1 << 65) - 1])
}

fn boards() -> Checked {
    let mut sampler = Sampler::started(16, false, 16);
    for (board, piece, blocks) in [(0, 0x00, 0), (1, 0xFF, 0), (1, 0xFF, 1), (0, 0x00, 2)] {
        is("feed", (sampler.feed(board, &[piece]), sampler.blocks()), (0, blocks))?;
    }
    let completed = [0xFF, 0xFF, 0x00, 0x00];
    is("the word of bit 0", (sampler.words[0], transform_data(&completed, 16).row(0)), (1, &[1][..]))?;
    let ours = sampler.bottomup(0..2, 2, &mut [], &mut [0; 4], &mut [0; 4]).finding;
    same("finding", ours, numbers(&bottomup(&completed, 16, 2, 1)?))?;
    let mut counts = [0; 2];
    is("search of the first block", sampler.bottomup(0..1, 1, &mut [], &mut counts, &mut [0; 2]).refusal, 0)?;
    is("its counts", counts, [0, 1])?;
    is("the reference's row of the bytes as they came", transform_data(&[0x00, 0xFF, 0xFF, 0x00], 16).row(0), &[2])
}

fn other_boards() -> Checked {
    let mut sampler = sampled(16, &[&[0xFF; 3]]);
    let lent = sampler.clone();
    for board in [4, 5, 1 << 32, usize::MAX] {
        // Also a piece that no board could take.
        for piece in [&[][..], &[0xFF], &[0xFF; 200]] {
            is("feed", (sampler.feed(board, piece), sampler == lent), (21, true))?;
        }
    }
    sampler.numbers[1] = 17;
    is("feed with other words", sampler.feed(4, &[0xFF]), 4)
}

fn unfinished_bytes() -> Checked {
    let bytes = [0xFF; 129];
    let mut sampler = Sampler::started(16, false, 16);
    is("129 bytes", (sampler.feed(0, &bytes), sampler.blocks()), (0, 64))?;
    let lent = sampler.clone();
    is("a byte more", (sampler.feed(0, &[0xFF]), sampler == lent), (5, true))?;
    is("a byte on another board", (sampler.feed(3, &[0xFF]), sampler.blocks()), (0, 64))?;
    let rows = transform_data(&bytes, 16);
    is("the reference's", (rows.num_of_blocks(), rows.word(0, 0)), (64, u64::MAX))?;
    is("ours", sampler.words, vec![u64::MAX; 16])
}

fn carry_over() -> Checked {
    let bytes = [0x80, 0x01, 0xF0, 0x0F];
    let lent = laid(16, 16, false, &Earlier::of(16, bytes[..3].to_vec()));
    is("the earlier words of bits 0 and 15", (lent[0], lent[15]), (3, 1))?;
    let mut sampler = Sampler { words: lent.clone(), ..Sampler::lent(0) };
    is("past capacity", sampler.carry_over(&[16, 16, 129, 0]), 4)?;
    is("beside 4", (sampler.numbers, sampler.unfinished == [0; 2048], &sampler.words), ([0; 8], true, &lent))?;
    is("carry-over", (sampler.carry_over(&[16, 16, 3, 0]), sampler.numbers), (0, [16, 16, 1, 0, 1, 0, 0, 0]))?;
    is("the unfinished byte, and the word of bit 0", (sampler.unfinished[0], sampler.words[0]), (0xF0, 1))?;
    is("feed", (sampler.feed(0, &bytes[3..]), sampler.blocks()), (0, 2))?;
    let rows = transform_data(&bytes, 16);
    is("the rows", sampler.words, (0..16).map(|bit| rows.word(bit, 0)).collect())
}

fn large_block_sizes() -> Checked {
    let raw = [7; 2 * 513];
    is("the reference's arguments", arguments(&["-b", "4104"]), Ok((4104, 2)))?;
    let found = bottomup(&raw, 4104, 1, 1)?;
    is("the reference's bits", &found.bits[..], &[0])?;
    is("the reference's check", validate(&found), Ok(()))?;
    is("the reference's parts", whole_blocks(&raw, 4104, true).map(|parts| parts.1.len()), Ok(513))?;
    is("the reference's plan", configurations(4104, 1), vec![(8, 8), (4104, 2)])?;
    is("the reference's rank", compute_index(&[4103], 4104), 4103)?;
    is("start", Sampler::lent(5000).start(4104, false), 1)?;
    is("check", ours::validate(&numbers(&found), &[0, 1], &mut [0; 2]), 1)?;
    is("evaluation", ours::evaluate(&numbers(&found), &[0, 1], &raw, &mut [0; 2]), (1, [0; 3]))?;
    is("split", ours::whole_blocks(&raw, 4104, true), (1, [0; 2]))?;
    is("plan", ours::configurations(4104, 1), (1, [0; 15]))?;
    is("rank", ours::rank(4104, &[4103]), (1, 0))
}

fn other_block_sizes() -> Checked {
    let raw = [1, 2, 3, 4];
    is("the reference's blocks", transform_data(&raw, 12).num_of_blocks(), 4)?;
    panics("the reference's rows", || transform_data(&[1, 2, 3, 4], 4))?;
    panics("the reference's split", || whole_blocks(&[1, 2, 3, 4], 4, true).is_ok())?;
    is("the reference's plan", configurations(0, 1000), configurations(8, 1000))?;
    for block_size in [0, 4, 12] {
        is("the reference's arguments", arguments(&["-b", &block_size.to_string()]).is_err(), true)?;
        let mut sampler = Sampler::lent(64);
        is("start", (sampler.start(block_size, true), sampler.numbers, sampler.unfinished == [0; 2048]), (1, [0; 8], true))?;
        is("split", ours::whole_blocks(&raw, block_size, true).0, 1)?;
        is("plan", ours::configurations(block_size, 1000).0, 1)?;
    }
    Ok(())
}

fn many_blocks() -> Checked {
    let bytes = vec![0x80; (1 << 24) + 1];
    let mut sampler = Sampler::started(8, false, 8 * ((1 << 18) + 1));
    is("feed", sampler.feed(0, &bytes), 5)?;
    is("feed of a byte less", sampler.feed(0, &bytes[1..]), 0)?;
    is("the reference's blocks", transform_data(&bytes, 8).num_of_blocks(), (1 << 24) + 1)?;
    let finding = finding(&[0, 1, 2, 3], 1);
    is("evaluation", ours::evaluate(&numbers(&finding), &[0, 1, 2, 3], &bytes, &mut [0; 4]), (12, [0; 3]))?;
    is("the reference's bins", evaluate_histogram(&finding, &bytes).bins, vec![0, (1 << 24) + 1, 0, 0])
}

fn widths() -> Checked {
    let sampler = sampled(8, &[&[0, 255]]);
    let refusal = |k: usize| sampler.bottomup(0..2, k, &mut [], &mut [0; 512], &mut [0; 512]).refusal;
    is("widths 0, 9, 21", [0, 9, 21].map(refusal), [2, 3, 2])?;
    is("the reference's bits at width 0", bottomup(&[0, 255], 8, 0, 1)?.bits, vec![])?;
    for k in ["0", "9", "21"] {
        is("the reference's arguments", arguments(&["-b", "8", "-k", k]).is_err(), true)?;
    }
    for k in [9, 21] {
        let words = bottomup(&[0, 255], 8, k, 1).unwrap_err();
        is("the reference's words", words.starts_with("no distinguisher found"), true)?;
    }
    Ok(())
}

fn stores() -> Checked {
    let sampler = sampled(8, &[&[0, 255]]);
    let found = Searched { refusal: 0, finding: numbers(&bottomup(&[0, 255], 8, 8, 0)?) };
    // One block of the two has every bit.
    for (entries, left) in [(253, vec![5; 253]), (254, vec![1; 254]), (255, [vec![1; 254], vec![5]].concat())] {
        let mut store = vec![5; entries];
        same("finding", &sampler.bottomup(0..2, 8, &mut store, &mut [0; 256], &mut [0; 256]), &found)?;
        is("store", store, left)?;
    }
    // C(128, 6) is above 2^32. The reference would need more memory than there is.
    is("the entries needed", [ours::store_needed(8, 8), ours::store_needed(128, 7)], [254, 0])
}

fn buffers() -> Checked {
    let sampler = sampled(8, &[&[0, 255]]);
    let mut bins = [5; 3];
    is("search", sampler.bottomup(0..2, 2, &mut [], &mut bins, &mut [0; 4]).refusal, 7)?;
    is("bins", bins, [5; 3])?;
    is("check", check(&finding(&[0, 1, 2, 3], 1), &mut [0; 3]), 7)
}

fn records() -> Checked {
    is("a finding of 24 numbers", ours::validate(&numbers(&finding(&[0, 1, 2, 3], 1))[..24], &[0, 1, 2, 3], &mut [0; 4]), 25)?;
    let (mut sampler, lent) = (sampled(8, &[&[0, 255]]), sampled(8, &[&[0, 255]]));
    let Sampler { numbers, unfinished, words } = &mut sampler;
    for (length, bytes) in [(7, 2048), (8, 2047)] {
        let (numbers, unfinished) = (&mut numbers[..length], &mut unfinished[..bytes]);
        is("start", calls::start(8, false, words, numbers, unfinished), 25)?;
        is("feed", calls::feed(numbers, unfinished, words, 0, &[255]), 25)?;
        is("carry-over", calls::carry_over(&[8, 8, 0, 0], words, numbers, unfinished), 25)?;
    }
    is("an earlier sampler of 3 numbers", calls::carry_over(&[8, 8, 0], words, numbers, unfinished), 25)?;
    is("search", calls::bottomup(&numbers[..7], words, 0..2, 1, &mut [], &mut [0; 2], &mut [0; 2], &mut [0; 25]), 25)?;
    is("blocks", calls::blocks(&numbers[..7]), 0)?;
    is("all as lent", sampler == lent, true)
}

fn samplers() -> Checked {
    let sampler = sampled(16, &[&[0, 255]]);
    // The number of words, B, n above capacity, and a block of unfinished bytes.
    for (at, number) in [(1, 17), (0, 12), (0, 4104), (2, 65), (4, 2), (7, 2)] {
        let mut other = sampler.clone();
        other.numbers[at] = number;
        let lent = other.clone();
        is("search", other.bottomup(0..1, 1, &mut [], &mut [0; 2], &mut [0; 2]).refusal, 4)?;
        is("feed", (other.feed(0, &[255]), other == lent), (4, true))?;
    }
    let other = Sampler { words: vec![0; 15], ..sampler };
    is("15 words of 16", other.bottomup(0..1, 1, &mut [], &mut [0; 2], &mut [0; 2]).refusal, 4)
}

fn stretches() -> Checked {
    let bytes = [0xAA, 0xAA, 0xAA, 0, 0, 255, 255];
    let sampler = sampled(8, &[&bytes]);
    let mut bins = [9; 4];
    let ours = sampler.bottomup(3..7, 2, &mut [], &mut bins, &mut [0; 4]);
    same("finding", ours.finding, numbers(&bottomup(&bytes[3..], 8, 2, 1)?))?;
    is("counts", bins, [2, 0, 0, 2])?;
    is("the chosen bits", &ours.finding[4..6], &[0, 1])?;
    is("the reference's bits of all blocks", &bottomup(&bytes, 8, 2, 1)?.bits[..], &[0, 2])
}

fn other_stretches() -> Checked {
    let sampler = sampled(8, &[&[0xAA, 0xAA, 0xAA, 0, 0, 255, 255]]);
    for stretch in [4..3, 0..8, 8..8] {
        for entries in [8, 0] {
            let (mut bins, mut order, mut store) = ([5; 4], [5; 4], vec![5; entries]);
            let answer = sampler.bottomup(stretch.clone(), 2, &mut store, &mut bins, &mut order);
            is("search", (answer.refusal, answer.finding, bins, order), (18, [0; 25], [5; 4], [5; 4]))?;
            is("store", store, vec![5; entries])?;
        }
    }
    Ok(())
}

fn bit_orders() -> Checked {
    let bytes = [0x01, 0x01, 0x01, 0x00];
    let sampler = sampled_in(true, 8, &[&bytes]);
    let ours = sampler.bottomup(0..4, 2, &mut [], &mut [0; 4], &mut [0; 4]).finding;
    is("the chosen bits", &ours[4..6], &[1, 2])?;
    same("finding", ours, numbers_in(&bottomup(&reversed(&bytes), 8, 2, 1)?, true))?;
    is("the reversed bytes", reversed(&bytes), vec![0x80, 0x80, 0x80, 0x00])?;
    is("the reference's bits of the bytes as they are", &bottomup(&bytes, 8, 2, 1)?.bits[..], &[0, 1])
}

fn other_bit_orders() -> Checked {
    let mut sampler = sampled(8, &[&[0, 255]]);
    let taken = sampler.clone();
    is("carry-over", (sampler.carry_over(&[8, 8, 2, 2]), sampler == taken), (27, true))?;
    sampler.numbers[3] = 2;
    let lent = sampler.clone();
    is("feed", (sampler.feed(0, &[255]), sampler == lent), (27, true))?;
    is("blocks", sampler.blocks(), 0)?;
    let (mut bins, mut order, mut store) = ([5; 4], [5; 4], [5; 8]);
    for entries in [8, 0] {
        let answer = sampler.bottomup(0..2, 2, &mut store[..entries], &mut bins, &mut order);
        is("search", (answer.refusal, answer.finding), (27, [ours::LENT; 25]))?;
    }
    is("buffers and store", (bins, order, store), ([5; 4], [5; 4], [5; 8]))?;
    let mut numbers = numbers(&finding(&[0, 1, 2, 3], 1));
    numbers[24] = 2;
    let (mut scratch, mut out) = ([5; 4], [5; 99]);
    is("check", ours::validate(&numbers, &[0, 1, 2, 3], &mut scratch), 27)?;
    is("evaluation", ours::evaluate(&numbers, &[0, 1, 2, 3], &[0], &mut scratch), (27, [ours::LENT; 3]))?;
    is("writing", ours::write(&numbers, &[0, 1, 2, 3], &mut scratch, &mut out), (27, ours::LENT as usize))?;
    is("scratch and output", (scratch, out), ([5; 4], [5; 99]))
}

fn threads() -> Checked {
    let bytes: Vec<u8> = (0..999).map(|i| (i * i % 251) as u8).collect();
    let sampler = sampled(24, &[&bytes]);
    for entries in [300, 0] {
        let ours = sampler.bottomup(0..333, 3, &mut vec![0; entries], &mut [0; 8], &mut [0; 8]).finding;
        for threads in 0..4 {
            same("finding", ours, numbers(&bottomup(&bytes, 24, 3, threads)?))?;
        }
    }
    Ok(())
}

fn large_ranks() -> Checked {
    is("the reference's rank", compute_index(&[4093, 4094, 4095], 4096), 11_444_858_879)?;
    is("rank", ours::rank(4096, &[4093, 4094, 4095]), (12, 0))?;
    let bits: Vec<usize> = (2..22).collect();
    let narrow: Vec<u32> = (2..22).collect();
    is("the reference's sum of two that are too large", compute_index(&bits, 4096), usize::MAX - 1)?;
    is("rank", ours::rank(4096, &narrow), (12, 0))
}

fn ranks_of_no_subset() -> Checked {
    let lists: [(usize, Vec<u32>, usize, u32); 5] = [
        (8, vec![1, 0], 7, 9),
        (8, vec![8], 8, 10),
        (8, vec![], 0, 2),
        (8, (0..9).collect(), 0, 3),
        (24, (3..24).collect(), 2023, 2),
    ];
    for (block_size, bits, rank, refusal) in lists {
        let wide: Vec<usize> = bits.iter().map(|&bit| bit as usize).collect();
        is("the reference's rank", compute_index(&wide, block_size), rank)?;
        is("rank", ours::rank(block_size, &bits), (refusal, 0))?;
    }
    Ok(())
}

fn counts_of_a_ranking() -> Checked {
    let rank = |counts: &[u32]| {
        let (mut order, mut ranking) = ([9; 3], [9; 2]);
        let refusal = ours::from_bins(1, counts, &mut order, &mut ranking);
        (refusal, order, ranking)
    };
    is("a sum of 2^32", rank(&[u32::MAX, 1]), (26, [9; 3], [9; 2]))?;
    is("the reference's z", from_bins(&[0], &[u32::MAX as usize, 1], 8).z, 65535.99996948242)?;
    is("three counts for two bins", rank(&[0, 0, 9]), (0, [0, 1, 9], [1, 0]))?;
    is("the reference's order", from_bins(&[0], &[0, 0, 9], 8).order, vec![2, 0, 1])
}

fn no_sample() -> Checked {
    let finding = Finding { block_size: 16, ..finding(&[0, 1, 2, 3], 1) };
    is("ours", ours::evaluate(&numbers(&finding), &[0, 1, 2, 3], &[255], &mut [0; 4]), (0, [0; 3]))?;
    is("the reference's z", evaluate_histogram(&finding, &[255]).z.is_nan(), true)
}

fn p_values() -> Checked {
    let bracket = |n, c| {
        let (mut scratch, mut low, mut high) = ([9; 4098], ours::LENT, ours::LENT);
        let refusal = ours::bracket(n, c, 3, 3, &mut scratch, &mut low, &mut high);
        (refusal, low, high, scratch == [9; 4098])
    };
    is("at least 2 of 3", bracket(3, 2), (0, 347_892_350_976, 347_892_350_985, false))?;
    is("its exact chance", (1_u64 << 40) * 162 / 512, 347_892_350_976)?;
    is("4,097 blocks", bracket(4097, 2), (19, 0, 0, true))?;
    is("4 of 3", bracket(3, 4), (19, 0, 0, true))
}

fn unsound_findings() -> Checked {
    let twice = finding(&[0, 0, 1, 2], 2);
    is("check", check(&twice, &mut [0; 4]), 13)?;
    is("the reference's check", validate(&twice).is_err(), true)?;
    is("evaluation", ours::evaluate(&numbers(&twice), &[0, 0, 1, 2], &[0], &mut [0; 4]), (13, [0; 3]))?;
    is("the reference's positive blocks of one", evaluate_histogram(&twice, &[0]).positive, 2)?;
    let outside = finding(&[0, 1, 2, 4], 4);
    is("evaluation", ours::evaluate(&numbers(&outside), &[0, 1, 2, 4], &[0], &mut [0; 4]), (13, [0; 3]))?;
    panics("the reference's evaluation", || evaluate_histogram(&finding(&[0, 1, 2, 4], 4), &[0]).positive)
}

/// That our check and our evaluation refuse a finding with the number, all lent as it was, and the reference's check in words that hold these.
fn refused(finding: &Finding, number: u32, words: &str) -> Checked {
    let mut scratch = [5; 4];
    is("check", (check(finding, &mut scratch), scratch), (number, [5; 4]))?;
    is("evaluation", ours::evaluate(&numbers(finding), &[0, 1, 2, 3], &[0], &mut scratch), (number, [0; 3]))?;
    is("scratch", scratch, [5; 4])?;
    is("the reference's check", validate(finding).is_err_and(|said| said.contains(words)), true)
}

fn large_numbers() -> Checked {
    let large = |first: usize, second: usize| Finding { bits: vec![first, second], ..finding(&[0, 1, 2, 3], 1) };
    refused(&large(1, (1 << 32) + 1), 10, "outside a")?;
    refused(&large(1 << 32, (1 << 32) + 1), 10, "outside a")?;
    refused(&large(1 << 32, 1 << 32), 9, "increasing")?;
    refused(&large((1 << 32) + 1, 1 << 32), 9, "increasing")?;
    let divided = finding(&[0, 1, 2, 3], (1 << 32) + 1);
    is("check", check(&divided, &mut [0; 4]), 14)?;
    is("evaluation", ours::evaluate(&numbers(&divided), &[0, 1, 2, 3], &[0], &mut [0; 4]), (14, [0; 3]))?;
    is("the reference's check", validate(&divided).is_err(), true)
}

fn past_the_width() -> Checked {
    let plain = numbers(&finding(&[0, 1, 2, 3], 1));
    for left in [1, 8, u32::MAX as u64, 1 << 32, u64::MAX] {
        let mut strewn = plain;
        strewn[6..24].fill(left);
        is("check", ours::validate(&strewn, &[0, 1, 2, 3], &mut [0; 4]), 0)?;
        let answer = |numbers: &[u64]| ours::evaluate(numbers, &[0, 1, 2, 3], &[0, 255], &mut [0; 4]);
        is("evaluation", answer(&strewn), answer(&plain))?;
        strewn[1] = 21;
        is("check of width 21", ours::validate(&strewn, &[0, 1, 2, 3], &mut [0; 4]), 2)?;
    }
    Ok(())
}

fn refused_split() -> Checked {
    is("split", ours::whole_blocks(&[1, 2, 3], 16, true), (8, [0; 2]))?;
    is("the reference's split", whole_blocks(&[1, 2, 3], 16, true).is_err(), true)
}

/// What our sweep answers with so many words and entries of the other buffers, and whether it left them as lent.
fn sweep_in(words: usize, bins: usize, entries: usize, bytes: &[u8], block_size: usize, level: u64) -> (u32, [u64; 60], bool) {
    let (mut words, mut store, mut bins, mut entries) = (vec![5; words], [5; 254], vec![5; bins], vec![5; entries]);
    let (mut order, mut scratch, mut swept) = (bins.clone(), bins.clone(), [ours::LENT; 60]);
    let refusal =
        calls::sweep(bytes, block_size, false, level, &mut words, &mut store, &mut bins, &mut order, &mut scratch, &mut entries, &mut swept);
    let narrow = [&store[..], &bins, &order, &scratch].concat();
    (refusal, swept, narrow.iter().all(|&entry| entry == 5) && words.iter().chain(&entries).all(|&entry| entry == 5))
}

/// With enough of each: up to blocks of 512 bits a training half has a word for every 16 bytes, and 512 more at the most.
fn sweep(bytes: &[u8], block_size: usize, level: u64) -> (u32, [u64; 60], bool) {
    sweep_in(bytes.len() / 8 + 512, 256, 4097, bytes, block_size, level)
}

/// A verdict's number, the pairs tested, and of the last one the block size, the blocks, the positive ones and both ends.
fn judged(swept: (u32, [u64; 60], bool)) -> [u64; 7] {
    assert_eq!(swept.0, 0);
    [0, 1, 31, 56, 57, 58, 59].map(|at: usize| swept.1[at])
}

fn blocks_evaluated() -> Checked {
    let bytes = [&[0x80; 8192][..], &[0]].concat();
    is("the last pair", judged(sweep(&bytes, 8, 1 << 39)), [1, 1, 8, 4096, 4096, 0, 8_394_752])?;
    let (training, testing) = whole_blocks(&bytes, 8, true)?;
    let positive = |testing: &[u8]| Ok::<_, String>(evaluate_histogram(&bottomup(training, 8, 8, 1)?, testing).positive);
    is("the reference's testing blocks, and those positive", (testing.len(), positive(testing)?), (4097, 4096))?;
    is("the reference's positive ones of the first 4,096", positive(&testing[..4096])?, 4096)
}

fn verdicts() -> Checked {
    // One block, at 1 / 256: exactly 2^32.
    let below = 1_u64 << 32;
    is("the reference's positive blocks", evaluate_histogram(&bottomup(&[0x80], 8, 8, 1)?, &[0x80]).positive, 1)?;
    is("the reference's pairs", configurations(8, 2).len(), 7)?;
    for (level, verdict) in [(7 * below, 2), (7 * below + 6, 2), (7 * (below + 1), 0), (7 * (below + 2) + 6, 0), (7 * (below + 3), 1)] {
        is("the last pair", judged(sweep(&[0x80; 2], 8, level)), [verdict, 1, 8, 1, 1, below, below + 2])?;
    }
    Ok(())
}

fn levels() -> Checked {
    for level in [0, 1 << 40, u64::MAX] {
        is("a level that is none, and a block size", sweep(&[0x80; 2], 7, level), (20, [0; 60], true))?;
    }
    is("a block size", sweep(&[0x80; 2], 7, 1), (1, [0; 60], true))?;
    is("the least level, whose shares are 0", judged(sweep(&[0x80; 2], 8, 1))[0], 2)?;
    for alpha in ["0", "1"] {
        is("the reference's arguments", arguments(&["-a", alpha]).is_err_and(|words| words.contains("alpha")), true)?;
    }
    is("the reference's arguments below 2^-40", arguments(&["-a", "1e-13"]).is_ok(), true)
}

fn nothing_to_test() -> Checked {
    is("sweep", sweep(&[0x80], 8, 1), (8, [0; 60], true))?;
    for (block_size, _) in configurations(8, 1) {
        is("the reference's split", whole_blocks(&[0x80], block_size, true).is_err(), true)?;
    }
    Ok(())
}

fn long_sweeps() -> Checked {
    let bytes = vec![0x80; (1 << 25) + 2];
    is("the reference's training blocks", whole_blocks(&bytes, 8, true)?.0.len(), (1 << 24) + 1)?;
    is("sweep", sweep(&bytes, 8, 1 << 39), (5, [0; 60], true))?;
    is("the last pair of a byte less", judged(sweep(&bytes[1..], 8, 1 << 39)), [1, 1, 8, 4096, 4096, 0, 8_394_752])
}

fn rooms_of_sweeps() -> Checked {
    // 300 bytes of training are 8 rows of 5 words, and 4 blocks of 512 bits as many words; the refusals come pair by pair.
    let bytes = [0x80; 600];
    for (words, bins, entries, refusal) in [(39, 255, 300, 5), (40, 255, 301, 7), (40, 256, 300, 7), (511, 256, 301, 5)] {
        is("sweep", sweep_in(words, bins, entries, &bytes, 512, 1), (refusal, [0; 60], true))?;
    }
    is("just enough", sweep_in(512, 256, 301, &bytes, 512, 1).0, 0)?;
    let mut swept = [5; 59];
    let refusal = calls::sweep(&bytes, 512, false, 0, &mut [], &mut [], &mut [], &mut [], &mut [], &mut [], &mut swept);
    is("a record of 59 numbers", (refusal, swept), (25, [5; 59]))
}

/// What our reading answers, in an order and a scratch of four entries, and whether it left them as lent.
fn read(text: &str) -> (u32, [u64; 25], bool) {
    let (mut order, mut scratch) = ([5; 4], [5; 4]);
    let (refusal, finding) = ours::read(text.as_bytes(), &mut order, &mut scratch);
    (refusal, finding, (order, scratch) == ([5; 4], [5; 4]))
}

/// That the reference reads a text as this finding and finds it sound, and that ours refuses it with 16, all as lent.
fn there_alone(text: &str, finding: &Finding) -> Checked {
    is("the reference's reading", from_json(text.as_bytes()).as_ref(), Ok(finding))?;
    is("the reference's check", validate(finding), Ok(()))?;
    is("reading", read(text), (16, [0; 25], true))
}

/// A finding of one bit of a block of 8, its text, and the text with more behind its last number.
fn one_bit(block_size: usize) -> Finding {
    Finding { block_size, bits: vec![3], order: vec![1, 0], division: 1, z: 0.0 }
}

fn with(more: &str) -> String {
    to_json(&one_bit(8)).replace(":8}", &format!(":8{more}}}"))
}

/// Our text of that finding in a bit order.
fn written(low_first: bool) -> String {
    let mut out = [5; 99];
    let (refusal, length) = ours::write(&numbers_in(&one_bit(8), low_first), &[1, 0], &mut [0; 2], &mut out);
    assert_eq!(refusal, 0);
    String::from_utf8(out[..length].to_vec()).unwrap()
}

fn low_first_written() -> Checked {
    is("the reference's text", to_json(&one_bit(8)), r#"{"bits":[3],"sorted_indices":[1,0],"best_division":1,"block_size":8}"#.into())?;
    for low_first in [false, true] {
        is("text", written(low_first), with_low_first(&to_json(&one_bit(8)), low_first))?;
    }
    is("reading of the reference's text", read(&to_json(&one_bit(8))), (0, numbers(&one_bit(8)), false))
}

fn low_first_passed_over() -> Checked {
    let text = written(true);
    let there = from_json(text.as_bytes())?;
    is("the reference's reading", (&there, validate(&there)), (&one_bit(8), Ok(())))?;
    is("reading", read(&text), (0, numbers_in(&one_bit(8), true), false))?;
    // Bit 3 of the byte 08 is set where the low bit comes first; where the high bit does it is that of the byte 10.
    let mut counts = [0; 2];
    is("evaluation", ours::evaluate(&numbers_in(&one_bit(8), true), &[1, 0], &[0x08], &mut counts).0, 0)?;
    is("counts", counts, [0, 1])?;
    is("the reference's counts", evaluate_histogram(&there, &[0x08]).bins, vec![1, 0])?;
    is("the reference's counts of the reversed byte", evaluate_histogram(&there, &reversed(&[0x08])).bins, vec![0, 1])
}

fn other_values_of_low_first() -> Checked {
    for value in ["1", "null", "\"true\"", "[true]", "true,\"low_first\":true"] {
        there_alone(&with(&format!(",\"low_first\":{value}")), &one_bit(8))?;
    }
    Ok(())
}

fn other_keys() -> Checked {
    there_alone(&with(",\"note\":\"lot 7\""), &one_bit(8))?;
    there_alone(&with(",\"note\":null,\"note\":[{}]"), &one_bit(8))?;
    there_alone(&with("").replace("bits", "b\\u0069ts"), &one_bit(8))
}

fn array_for_object() -> Checked {
    there_alone("[[3],[1,0],1,0,8]", &one_bit(8))
}

fn large_block_sizes_in_texts() -> Checked {
    let text = to_json(&one_bit(4104));
    is("the reference's reading", from_json(text.as_bytes()).and_then(|found| validate(&found)), Ok(()))?;
    is("reading", read(&text), (1, [0; 25], false))?;
    there_alone(&to_json(&one_bit(1 << 32)), &one_bit(1 << 32))
}

fn scores_in_texts() -> Checked {
    let scored = with(",\"z_score\":-2.5");
    is("the reference's z", from_json(scored.as_bytes())?.z, -2.5)?;
    is("reading", read(&scored), (0, numbers(&one_bit(8)), false))?;
    let large = with(",\"z_score\":1e400");
    is("the reference's words", from_json(large.as_bytes()).is_err_and(|words| words.contains("out of range")), true)?;
    is("reading", read(&large), (0, numbers(&one_bit(8)), false))
}

fn no_such_object() -> Checked {
    let [fraction, sign, zero] = [(":8", ":8.0"), (":8", ":-0"), (":1,", ":01,")].map(|(number, other)| with("").replace(number, other));
    for text in [fraction, sign, zero, with(","), with(",\"block_size\":8"), with(",\"z_score\":null")] {
        is("the reference's reading", from_json(text.as_bytes()).is_err(), true)?;
        is("reading", read(&text), (16, [0; 25], true))?;
    }
    // Above 2^32 - 1: read there, and refused by the check.
    let bits = with("").replace("[3]", "[4294967296]");
    is("the reference's check", validate(&from_json(bits.as_bytes())?).is_err_and(|words| words.contains("outside a")), true)?;
    is("reading", read(&bits), (16, [0; 25], true))
}

fn rooms_of_texts() -> Checked {
    let (text, mut order, mut scratch) = (with(""), [5; 1], [5; 2]);
    is("reading", ours::read(text.as_bytes(), &mut order, &mut scratch), (17, [0; 25]))?;
    is("order and scratch", (order, scratch), ([5; 1], [5; 2]))?;
    is("our text's length", written(false).len(), 86)?;
    let mut out = [5; 85];
    is("writing", ours::write(&numbers(&one_bit(8)), &[1, 0], &mut scratch, &mut out), (17, 0))?;
    is("output and scratch", (out, scratch), ([5; 85], [0; 2]))
}

fn powers_of_one_half() -> Checked {
    for k in 1..=20 {
        is("the reference's power", 2_f64.powf(-(k as f64)).to_bits(), (1023 - k as u64) << 52)?;
    }
    Ok(())
}
