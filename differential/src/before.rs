//! Times of an earlier commit's ranks, feeds, evaluations, texts and searches, of ours and of the reference's, in turn in one run, on drawn bytes. The earlier
//! library is linked beside ours with other names for its calls, and its own Rust declares them (differential/run). Where a call has other arguments there
//! than here, its lines below say so.

use crate::bench::{drawn_subsets, seconds, RANK};
use crate::ours::Sampler;
use crate::recordings::{numbers, numbers_in, store_size};
use answers::run::sound;
use answers::{
    brute_force, brute_force_threads, compute_index, evaluate_histogram, to_json, transform_data, with_low_first, Draws, Finding, Histogram,
};
use earlier::calls as earlier_calls;
use jimrawel::calls;
use std::{cell::RefCell, hint::black_box};

/// The calls of that commit, of which some are not made.
#[allow(dead_code)]
mod earlier {
    mod raw {
        include!(concat!(env!("JIMRAWEL_BEFORE"), "/raw.rs"));
    }
    pub mod calls {
        include!(concat!(env!("JIMRAWEL_BEFORE"), "/calls.rs"));
    }
}

/// Block size and width of the ranks; of the first the ratio to the reference's has a bound.
const RANKS: [(usize, usize); 10] = [(512, 3), (512, 4), (4_096, 2), (64, 3), (64, 6), (128, 4), (24, 20), (32, 16), (8, 2), (8, 8)];

/// Block size, width, bytes and the searches of one turn. First short recordings, of which some have just more than 4,096 blocks.
const SEARCHES: [(usize, usize, usize, usize); 27] = [
    (8, 1, 64, 100), (8, 4, 64, 100), (8, 2, 1_000, 100), (8, 4, 1_000, 100), (8, 8, 1_000, 100), (16, 2, 1_000, 100), (16, 3, 2_000, 100),
    (16, 6, 4_000, 1), (24, 2, 3_000, 100), (32, 2, 200, 100), (64, 2, 8_000, 10), (64, 3, 1_000, 1), (512, 2, 6_400, 1),
    (8, 1, 5_000, 100), (8, 2, 5_000, 100), (8, 4, 5_000, 20), (8, 8, 5_000, 20), (16, 2, 10_000, 20), (16, 3, 10_000, 10), (64, 1, 40_000, 20),
    (8, 2, 1_000_000, 1), (8, 8, 1_000_000, 1), (64, 3, 100_000, 1), (128, 2, 1_000_000, 1), (256, 2, 10_000_000, 1), (128, 3, 1_000_000, 1),
    (64, 4, 1_000_000, 1),
];

/// Block size, bytes and the feeds of one turn, each after a start.
const FEEDS: [(usize, usize, usize); 7] =
    [(8, 64, 1_000), (8, 5_000, 100), (64, 8_000, 100), (4_096, 65_536, 10), (8, 1_000_000, 1), (128, 1_000_000, 1), (256, 10_000_000, 1)];

/// Block size and bytes of a piece of a recording of 1 MB: one byte, a block less one, and 64 KB.
const PIECES: [(usize, usize); 9] =
    [(8, 1), (24, 2), (8, 65_536), (128, 1), (128, 15), (128, 65_536), (4_096, 1), (4_096, 511), (4_096, 65_536)];

/// The most that a search may take beside its time before, in one run.
const SEARCH: f64 = 1.05;

/// Block size, width, bytes and the evaluations of one turn.
const EVALUATIONS: [(usize, usize, usize, usize); 6] =
    [(8, 1, 64, 1_000), (8, 8, 5_000, 100), (64, 3, 8_000, 100), (8, 8, 1_000_000, 1), (128, 2, 1_000_000, 1), (4_096, 12, 1_000_000, 1)];

/// Width and the texts of one turn.
const TEXTS: [(usize, usize); 6] = [(1, 1_000), (2, 1_000), (4, 500), (8, 100), (16, 1), (20, 1)];

/// Ratios of the time now.
struct Ratios {
    to_before: f64,
    to_reference: f64,
}

/// The least times of the three over turns of some seconds in all, ten at the least unless they are long; the reference takes part in fewer.
fn compare(name: &str, calls: usize, before: &mut dyn FnMut(), now: &mut dyn FnMut(), reference: &mut dyn FnMut()) -> Ratios {
    let (mut best, mut all, mut turns) = ([f64::INFINITY; 3], [0.0; 2], 0);
    let turn = |best: &mut f64, all: &mut f64, run: &mut dyn FnMut()| {
        let time = seconds(&mut || (0..calls).for_each(|_| run()));
        *best = best.min(time / calls as f64);
        *all += time;
    };
    while turns < 2 || all[0] < 4.0 || (turns < 10 && all[0] < 30.0) {
        let [b, n, r] = &mut best;
        if turns % 2 == 0 {
            turn(b, &mut all[0], before);
            turn(n, &mut all[0], now);
        } else {
            turn(n, &mut all[0], now);
            turn(b, &mut all[0], before);
        }
        if turns < 2 || all[1] < 1.0 {
            turn(r, &mut all[1], reference);
        }
        turns += 1;
    }
    let [before, now, reference] = best;
    let times = best.map(|time| format!("{:.2}", time * 1e6)).join(" | ");
    println!("| {name} | {times} | {:.2} | {:.2} | {:.2} | {turns} |", before / reference, now / reference, now / before);
    Ratios { to_before: now / before, to_reference: now / reference }
}

/// Ranks of a thousand drawn subsets.
fn ranks(block_size: usize, k: usize) -> Ratios {
    let (there, here) = drawn_subsets(block_size, k);
    let mut sums = [0; 3];
    let [before, now, reference] = &mut sums;
    let earlier_rank = |bits: &Vec<u32>| {
        let mut rank = 0;
        assert_eq!(earlier_calls::compute_index(block_size, bits, &mut rank), 0);
        rank
    };
    let rank = |bits: &Vec<u32>| {
        let mut rank = 0;
        assert_eq!(calls::compute_index(block_size, bits, &mut rank), 0);
        rank
    };
    let ratios = compare(
        &format!("B {block_size}, k {k}, 1,000 ranks"),
        10,
        &mut || *before = black_box(&here).iter().map(earlier_rank).sum(),
        &mut || *now = black_box(&here).iter().map(rank).sum(),
        &mut || *reference = black_box(&there).iter().map(|bits| compute_index(bits, block_size)).sum(),
    );
    assert_eq!(sums, [sums[0]; 3]);
    ratios
}

/// What a search writes.
#[derive(Clone, PartialEq)]
struct Lent {
    store: Vec<u32>,
    bins: Vec<u32>,
    order: Vec<u32>,
    finding: [u64; 25],
}

/// Both sides are lent the same buffers: in buffers of its own each would have other pages, and that alone can make a tenth. Answers the greater ratio of now
/// to before, with a store and with none.
fn searches(block_size: usize, k: usize, bytes: usize, searches: usize) -> f64 {
    let data = Draws::new(1).bytes(bytes);
    let blocks = bytes / (block_size / 8);
    let mut sampler = Sampler::started(block_size, false, block_size * blocks.div_ceil(64));
    assert_eq!(sampler.feed(0, &data), 0);
    let Sampler { numbers, words, .. } = sampler;
    let rows = transform_data(&data, block_size);
    let (size, m) = (store_size(block_size, k).unwrap(), 1 << k);
    let blank = Lent { store: vec![0; size], bins: vec![0; m], order: vec![0; m], finding: [0; 25] };
    let lent = RefCell::new(blank.clone());
    let before = |entries: usize| {
        let Lent { store, bins, order, finding } = &mut *lent.borrow_mut();
        assert_eq!(earlier_calls::bottomup(&numbers, &words, 0..blocks, k, &mut store[..entries], bins, order, finding), 0);
    };
    let now = |entries: usize| {
        let Lent { store, bins, order, finding } = &mut *lent.borrow_mut();
        assert_eq!(calls::bottomup(&numbers, &words, 0..blocks, k, &mut store[..entries], bins, order, finding), 0);
    };
    let ratio = |entries: usize, name: &str, reference: &dyn Fn() -> Option<Finding>| {
        let (name, mut expected) = (format!("B {block_size}, k {k}, {bytes} bytes, {name}"), None);
        let ratios = compare(&name, searches, &mut || before(entries), &mut || now(entries), &mut || expected = reference());
        lent.replace(blank.clone());
        before(entries);
        let earlier = lent.replace(blank.clone());
        now(entries);
        assert!(*lent.borrow() == earlier);
        assert_eq!(expected.unwrap().z.to_bits(), earlier.finding[3]);
        ratios.to_before
    };
    let layered = ratio(size, "with a store", &|| brute_force(&rows, block_size, k));
    layered.max(ratio(0, "with none", &|| brute_force_threads(&rows, block_size, k, 1)))
}

/// A start and a feed of all bytes, in both bit orders; the reference's high first.
fn feeds(block_size: usize, bytes: usize, feeds: usize) {
    let data = Draws::new(1).bytes(bytes);
    for (low_first, name) in [(false, ""), (true, ", low first")] {
        feed(&format!("B {block_size}, {bytes} bytes, feeding{name}"), block_size, &data, bytes, low_first, feeds);
    }
}

/// The same of whole blocks of 1 MB in pieces of so many bytes, the high bit first.
fn pieces(block_size: usize, piece: usize) {
    let size = block_size / 8;
    let data = Draws::new(1).bytes(1_000_000 / size * size);
    feed(&format!("B {block_size}, 1 MB in pieces of {piece}, feeding"), block_size, &data, piece, false, 1);
}

/// A start and the bytes, whole blocks, in pieces to board 0.
fn feed(name: &str, block_size: usize, data: &[u8], piece: usize, low_first: bool, feeds: usize) {
    let words = block_size * (data.len() / (block_size / 8)).div_ceil(64);
    let (mut earlier, mut sampler) = (Sampler::lent(words), Sampler::lent(words));
    compare(
        name,
        feeds,
        &mut || {
            let Sampler { numbers, unfinished, words } = &mut earlier;
            assert_eq!(earlier_calls::start(block_size, low_first, words, numbers, unfinished), 0);
            for piece in black_box(data).chunks(piece) {
                assert_eq!(earlier_calls::feed(numbers, unfinished, words, 0, piece), 0);
            }
        },
        &mut || {
            assert_eq!(sampler.start(block_size, low_first), 0);
            for piece in black_box(data).chunks(piece) {
                assert_eq!(sampler.feed(0, piece), 0);
            }
        },
        &mut || drop(black_box(transform_data(black_box(data), block_size))),
    );
    assert_eq!(sampler.blocks(), data.len() / (block_size / 8));
    assert!(sampler == earlier);
}

/// Evaluations in both bit orders; the reference's high first.
fn evaluations(block_size: usize, k: usize, bytes: usize, evaluations: usize) {
    let draws = &mut Draws::new(4);
    let (bits, order, data) = (draws.subset(block_size, k), draws.shuffled(1 << k), draws.bytes(bytes));
    let finding = Finding { block_size, bits, order, division: 1, z: 0.0 };
    let order: Vec<u32> = finding.order.iter().map(|&bin| bin as u32).collect();
    let (mut earlier_counts, mut counts) = (vec![0_u32; 1 << k], vec![0; 1 << k]);
    for (low_first, name) in [(false, ""), (true, ", low first")] {
        let (mut earlier, mut now) = ([0; 3], [0; 3]);
        compare(
            &format!("B {block_size}, k {k}, {bytes} bytes, evaluation{name}"),
            evaluations,
            &mut || {
                let numbers = numbers_in(&finding, low_first);
                assert_eq!(earlier_calls::evaluate_histogram(&numbers, &order, black_box(&data), &mut earlier_counts, &mut earlier), 0);
            },
            &mut || {
                let numbers = numbers_in(&finding, low_first);
                assert_eq!(calls::evaluate_histogram(&numbers, &order, black_box(&data), &mut counts, &mut now), 0);
            },
            &mut || drop(black_box(evaluate_histogram(&finding, black_box(&data)))),
        );
        assert!(now == earlier && counts == earlier_counts);
    }
}

/// Each writes a finding and reads its own text, the reference's by serde and checked.
fn texts(k: usize, texts: usize) {
    let finding = sound(&mut Draws::new(3), k);
    let (numbers, histogram) = (numbers(&finding), Histogram::of(&finding));
    let order: Vec<u32> = finding.order.iter().map(|&bin| bin as u32).collect();
    let (m, room) = (1 << k, calls::longest_text(k));
    let (mut earlier_scratch, mut scratch) = (vec![0_u32; m], vec![0; m]);
    let (mut earlier_out, mut out) = (vec![0; room], vec![0; room]);
    let (mut earlier_length, mut length) = (0, 0);
    compare(
        &format!("a finding of width {k}, written"),
        texts,
        &mut || assert_eq!(earlier_calls::write_finding(black_box(&numbers), &order, &mut earlier_scratch, &mut earlier_out, &mut earlier_length), 0),
        &mut || assert_eq!(calls::write_finding(black_box(&numbers), &order, &mut scratch, &mut out, &mut length), 0),
        &mut || drop(black_box(black_box(&histogram).write())),
    );
    let there = to_json(&finding);
    let text = with_low_first(&there, false);
    assert!(earlier_out[..earlier_length] == *text.as_bytes() && out[..length] == *text.as_bytes());

    let (mut earlier_order, mut read_order) = (vec![0_u32; m], vec![0; m]);
    let (mut earlier, mut read) = ([0; 25], [0; 25]);
    compare(
        &format!("a finding of width {k}, read"),
        texts,
        &mut || assert_eq!(earlier_calls::read_finding(black_box(text.as_bytes()), &mut earlier_order, &mut earlier_scratch, &mut earlier), 0),
        &mut || assert_eq!(calls::read_finding(black_box(text.as_bytes()), &mut read_order, &mut scratch, &mut read), 0),
        &mut || black_box(Histogram::from_slice(black_box(there.as_bytes()))).validate(),
    );
    assert!(read == earlier && read_order == earlier_order && read_order == order);
}

/// All rows, or those of the feeding, of the ranks or of the searches.
pub fn run(rows: Option<&str>) {
    println!("| Call | before, µs | now, µs | reference, µs | before / reference | now / reference | now / before | turns |");
    println!("|---|---|---|---|---|---|---|---|");
    let asked = |kind: &str| rows.is_none_or(|rows| rows == kind);
    if asked("feeding") {
        for (block_size, bytes, turn) in FEEDS {
            feeds(block_size, bytes, turn);
        }
        for (block_size, piece) in PIECES {
            pieces(block_size, piece);
        }
    }
    if rows.is_none() {
        for (block_size, k, bytes, turn) in EVALUATIONS {
            evaluations(block_size, k, bytes, turn);
        }
        for (k, turn) in TEXTS {
            texts(k, turn);
        }
    }
    if asked("ranks") {
        let [ratio, ..] = RANKS.map(|(block_size, k)| ranks(block_size, k).to_reference);
        println!("a rank at B 512, k 3 beside the reference's: {ratio:.2}; the bound is {RANK}");
    }
    if asked("searches") {
        let ratios = SEARCHES.map(|(block_size, k, bytes, turn)| searches(block_size, k, bytes, turn));
        println!("a search beside before: at most {:.3}; the bound is {SEARCH}", ratios.into_iter().fold(0.0, f64::max));
    }
}
