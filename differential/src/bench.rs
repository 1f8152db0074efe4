//! Times of our calls and of the reference's, in one run, on drawn bytes.

use crate::ours::{self, Sampler};
use crate::recordings::{check_sampler, check_words, numbers, numbers_in, store_size};
use answers::run::sound;
use answers::{
    bottomup, brute_force, brute_force_threads, compute_index, configurations, evaluate_histogram, from_bins, reversed, to_json, transform_data, whole_blocks,
    with_low_first, Draws, Feed, Finding, Histogram, Plain,
};
use jimrawel::calls;
use std::{hint::black_box, time::Instant};

pub fn seconds(run: &mut dyn FnMut()) -> f64 {
    let start = Instant::now();
    run();
    start.elapsed().as_secs_f64()
}

/// The most that a call may take with the low bit first, beside the high bit first in the same run.
const LOW_FIRST: f64 = 1.1;

/// The most that a rank may take beside the reference's at B 512, k 3 and at B 4,096, k 2.
pub const RANK: f64 = 0.5;

/// The least time of ours and of the reference's over a few runs in turn: more runs where one is short. Answers their ratio. Of a row with the low bit first
/// the other side is ours too, with the high bit first and the same bytes.
fn compare(name: &str, ours: &mut dyn FnMut(), reference: &mut dyn FnMut()) -> f64 {
    let (mut best, mut all, mut runs) = ([f64::INFINITY; 2], 0.0, 0);
    while runs == 0 || (all < 2.0 && runs < 200) {
        let times = [seconds(ours), seconds(reference)];
        best = [best[0].min(times[0]), best[1].min(times[1])];
        all += times[0] + times[1];
        runs += 1;
    }
    println!("| {name} | {:.3} | {:.3} | {:.2} |", best[0] * 1e3, best[1] * 1e3, best[0] / best[1]);
    best[0] / best[1]
}

/// Answers the ratio of a feeding with the low bit first to one with the high bit first, both ours.
fn searches(block_size: usize, k: usize, bytes: usize) -> f64 {
    let data = Draws::new(1).bytes(bytes);
    let blocks = bytes / (block_size / 8);
    let mut sampler = Sampler::lent(block_size * blocks.div_ceil(64));
    let name = format!("B {block_size}, k {k}, {} MB", bytes / 1_000_000);

    let mut low_first = sampler.clone();
    let feed = |low_first: bool, sampler: &mut Sampler| {
        assert_eq!(sampler.start(block_size, low_first), 0);
        assert_eq!(sampler.feed(0, black_box(&data)), 0);
    };
    compare(&format!("{name}, feeding"), &mut || feed(false, &mut sampler), &mut || {
        black_box(transform_data(black_box(&data), block_size));
    });
    let mut low = || feed(true, &mut low_first);
    let ratio = compare(&format!("{name}, feeding, low first beside high first"), &mut low, &mut || feed(false, &mut sampler));

    let rows = transform_data(&data, block_size);
    let mut store = vec![0; store_size(block_size, k).unwrap()];
    let (mut bins, mut order) = (vec![0; 1 << k], vec![0; 1 << k]);
    let (mut found, mut expected) = (None, None);
    compare(
        &format!("{name}, layered"),
        &mut || found = Some(sampler.bottomup(0..blocks, k, &mut store, &mut bins, &mut order)),
        &mut || expected = brute_force(&rows, block_size, k),
    );
    assert_eq!(found.take().unwrap().finding[3], expected.take().unwrap().z.to_bits());
    compare(
        &format!("{name}, direct"),
        &mut || found = Some(sampler.bottomup(0..blocks, k, &mut [], &mut bins, &mut order)),
        &mut || expected = brute_force_threads(&rows, block_size, k, 1),
    );
    assert_eq!(found.unwrap().finding[3], expected.unwrap().z.to_bits());
    ratio
}

/// Block sizes, and the bytes of a piece: one, a block less one, and 64 KB.
const PIECES: [(usize, usize); 6] = [(8, 1), (24, 2), (8, 65_536), (128, 1), (128, 15), (128, 65_536)];

/// 1 MB in pieces, to one board and to four in turn, beside the reference's rows of the same bytes at once.
fn pieces(block_size: usize, piece: usize) {
    let data = Draws::new(1).bytes(1_000_000);
    let words = block_size * (data.len() / (block_size / 8)).div_ceil(64);
    for (boards, name) in [(1, "one board"), (4, "four boards in turn")] {
        let mut sampler = Sampler::lent(words);
        compare(
            &format!("B {block_size}, 1 MB in pieces of {piece}, feeding {name}"),
            &mut || {
                assert_eq!(sampler.start(block_size, false), 0);
                for (turn, piece) in black_box(&data).chunks(piece).enumerate() {
                    assert_eq!(sampler.feed(turn % boards, piece), 0);
                }
            },
            &mut || drop(black_box(transform_data(black_box(&data), block_size))),
        );
        let feeds: Vec<Feed> = data.chunks(piece).enumerate().map(|(turn, piece)| Feed { board: turn % boards, piece: piece.to_vec() }).collect();
        let plain = Plain::start(block_size, words).feed_all(&feeds);
        check_sampler("sampler", &sampler, &plain, false).and_then(|()| check_words(block_size, &sampler.words, &plain.held)).unwrap();
    }
}

/// Answers the ratio of an evaluation with the low bit first to one with the high bit first, both ours.
fn evaluations(block_size: usize, k: usize, bytes: usize) -> f64 {
    let draws = &mut Draws::new(4);
    let (bits, order, data) = (draws.subset(block_size, k), draws.shuffled(1 << k), draws.bytes(bytes));
    let finding = Finding { block_size, bits, order, division: 1, z: 0.0 };
    let order: Vec<u32> = finding.order.iter().map(|&bin| bin as u32).collect();
    let evaluate = |low_first: bool, data: &[u8]| {
        let mut counts = vec![0; 1 << k];
        let (refusal, evaluated) = ours::evaluate(&numbers_in(&finding, low_first), &order, black_box(data), &mut counts);
        assert_eq!(refusal, 0);
        evaluated
    };
    let name = format!("B {block_size}, k {k}, {} MB, evaluation", bytes / 1_000_000);
    let (mut high, mut low, mut expected) = ([0; 3], [0; 3], None);
    compare(&name, &mut || high = evaluate(false, &data), &mut || expected = Some(evaluate_histogram(&finding, black_box(&data))));
    assert_eq!(high[2], expected.unwrap().z.to_bits());
    let ratio = compare(&format!("{name}, low first beside high first"), &mut || low = evaluate(true, &data), &mut || high = evaluate(false, &data));
    assert_eq!(low, evaluate(false, &reversed(&data)));
    ratio
}

/// A thousand drawn subsets, as the reference takes them and as ours does.
pub fn drawn_subsets(block_size: usize, k: usize) -> (Vec<Vec<usize>>, Vec<Vec<u32>>) {
    let draws = &mut Draws::new(5);
    let there: Vec<Vec<usize>> = (0..1_000).map(|_| draws.subset(block_size, k)).collect();
    let here = there.iter().map(|bits| bits.iter().map(|&bit| bit as u32).collect()).collect();
    (there, here)
}

/// Ranks of drawn subsets. Answers the ratio.
fn ranks(block_size: usize, k: usize) -> f64 {
    let (there, here) = drawn_subsets(block_size, k);
    let (mut sum, mut expected) = (0, 0);
    let ratio = compare(
        &format!("B {block_size}, k {k}, 1,000 ranks"),
        &mut || sum = black_box(&here).iter().map(|bits| ours::rank(block_size, bits).1).sum(),
        &mut || expected = black_box(&there).iter().map(|bits| compute_index(bits, block_size)).sum(),
    );
    assert_eq!(sum, expected);
    ratio
}

/// One ranking of 2^k bins, by drawn counts of which many are equal.
fn ranking(k: usize) {
    let mut draws = Draws::new(2);
    let counts: Vec<usize> = (0..1_usize << k).map(|_| draws.below(24)).collect();
    let bins: Vec<u32> = counts.iter().map(|&count| count as u32).collect();
    let bits: Vec<usize> = (0..k).collect();
    let mut order = vec![0; 1 << k];
    let mut numbers = [0; 2];
    let mut expected = None;
    compare(
        &format!("a ranking of width {k}"),
        &mut || assert_eq!(ours::from_bins(k, black_box(&bins), &mut order, &mut numbers), 0),
        &mut || expected = Some(from_bins(&bits, black_box(&counts), 24)),
    );
    let expected = expected.unwrap();
    assert_eq!(numbers, [expected.division as u64, expected.z.to_bits()]);
}

/// Of two ways the one that takes less time in a few runs.
fn faster<'a>(ways: [&'a mut dyn FnMut(); 2]) -> &'a mut dyn FnMut() {
    let [one, other] = ways;
    let least = |way: &mut dyn FnMut()| (0..9).map(|_| seconds(way)).fold(f64::INFINITY, f64::min);
    if least(one) < least(other) { one } else { other }
}

/// A finding of a width, its order drawn, as text: ours with its check; the reference's type by the faster of serde's ways, then checked too.
fn exchange(k: usize) {
    let finding = sound(&mut Draws::new(3), k);
    let (there, histogram) = (to_json(&finding), Histogram::of(&finding));
    let text = with_low_first(&there, false);
    let numbers = numbers(&finding);
    let order: Vec<u32> = finding.order.iter().map(|&bin| bin as u32).collect();
    let (mut scratch, mut out, mut length) = (vec![0; 1 << k], vec![0; ours::longest_text(k)], 0);
    let mut buffer = Vec::with_capacity(text.len());
    compare(
        &format!("a finding of width {k}, written"),
        &mut || length = ours::write(black_box(&numbers), &order, &mut scratch, &mut out).1,
        faster([&mut || drop(black_box(black_box(&histogram).write())), &mut || {
            buffer.clear();
            black_box(&histogram).write_to(&mut buffer);
        }]),
    );
    assert!(out[..length] == *text.as_bytes() && buffer == there.as_bytes());

    let (mut read_order, mut read_numbers) = (vec![0; 1 << k], [0; 25]);
    let mut read = || read_numbers = ours::read(black_box(text.as_bytes()), &mut read_order, &mut scratch).1;
    let from_slice = || Histogram::from_slice(black_box(text.as_bytes()));
    let from_str = || Histogram::from_str(black_box(&text));
    compare(
        &format!("a finding of width {k}, read"),
        &mut read,
        faster([&mut || drop(black_box(from_slice())), &mut || drop(black_box(from_str()))]),
    );
    compare(&format!("a finding of width {k}, read, and checked there too"), &mut read, &mut || black_box(from_slice()).validate());
    assert!(read_order == order && read_numbers[4..] == numbers[4..]);
}

/// A sweep, its buffers made before and with a store for every pair, beside the reference's split, layered search and evaluation of the same pairs on the same
/// blocks. The bracket and the verdict are in ours alone: p-values are another crate's there. No pair of drawn bytes is rejected at one in 1,024, so that all are
/// tested.
fn sweep(block_size: usize, bytes: usize) {
    let data = Draws::new(6).bytes(bytes);
    let pairs = configurations(block_size, bytes);
    let most = |need: fn(usize, usize, usize) -> usize| pairs.iter().map(|&(size, k)| need(size, k, bytes / (size / 8) / 2)).max().unwrap();
    let (mut words, mut store) = (vec![0; most(|size, _, half| size * half.div_ceil(64))], vec![0; most(|size, k, _| store_size(size, k).unwrap())]);
    let (mut bins, mut order, mut scratch, mut entries, mut swept) = ([0; 256], [0; 256], [0; 256], [0; 4097], [0; 60]);
    let mut expected = Vec::new();
    compare(
        &format!("B {block_size}, {} MB, sweep", bytes / 1_000_000),
        &mut || {
            let data = black_box(&data);
            let refusal = calls::sweep(
                data, block_size, false, 1 << 30, &mut words, &mut store, &mut bins, &mut order, &mut scratch, &mut entries, &mut swept,
            );
            assert_eq!(refusal, 0);
        },
        &mut || {
            let test = |&(size, k): &(usize, usize)| {
                let (training, testing) = whole_blocks(black_box(&data), size, true).unwrap();
                let found = bottomup(training, size, k, 0).unwrap();
                let positive = evaluate_histogram(&found, &testing[..testing.len().min(4096 * size / 8)]).positive;
                (numbers(&found), positive as u64)
            };
            expected = pairs.iter().map(test).collect();
        },
    );
    let (found, positive) = expected.last().unwrap();
    assert_eq!((swept[1] as usize, &swept[31..56], swept[57]), (pairs.len(), &found[..], *positive));
}

fn sweeps() {
    for (block_size, bytes) in [(8, 1_000_000), (128, 1_000_000), (128, 10_000_000)] {
        sweep(block_size, bytes);
    }
}

fn feeding() {
    for (block_size, piece) in PIECES {
        pieces(block_size, piece);
    }
}

/// All rows, or those of the feeding in pieces or of the sweeps.
pub fn run(rows: Option<&str>) {
    println!("| Case | ours, ms | reference, ms | ratio |");
    println!("|---|---|---|---|");
    match rows {
        Some("feeding") => return feeding(),
        Some("sweeps") => return sweeps(),
        _ => (),
    }
    sweeps();
    feeding();
    for k in [4, 8, 12, 16, 18, 20] {
        ranking(k);
    }
    for (block_size, k) in [(8, 2), (8, 8), (64, 3), (64, 6), (128, 4), (24, 20), (32, 16)] {
        ranks(block_size, k);
    }
    let rank = [(512, 3), (4096, 2)].map(|(block_size, k)| ranks(block_size, k));
    exchange(16);
    let sizes = [(8, 8, 1_000_000), (128, 2, 1_000_000), (256, 2, 10_000_000), (128, 3, 1_000_000), (64, 4, 1_000_000)];
    let evaluation = sizes.map(|(block_size, k, bytes)| evaluations(block_size, k, bytes));
    let feeding = sizes.map(|(block_size, k, bytes)| searches(block_size, k, bytes));
    let most = |ratios: &[f64]| ratios.iter().copied().fold(0.0, f64::max);
    println!("low first beside high first: feeding at most {:.2}, evaluation at most {:.2}; the bound is {LOW_FIRST}", most(&feeding), most(&evaluation));
    println!("a rank at B 512, k 3 and at B 4,096, k 2 beside the reference's: at most {:.2}; the bound is {RANK}", most(&rank));
}
