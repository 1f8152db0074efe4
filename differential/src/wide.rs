//! Searches of widths 17 to 20, which take too long to be drawn: one recording at B 24, one width a run. Its bytes have three values, so that most
//! bins are empty and many sets of bits tie. The reference's answer is kept below `target`, so that its hours are spent once.

use crate::case::{same, Checked};
use crate::ours::Sampler;
use crate::recordings::{numbers, store_size, LENT};
use answers::{bottomup, choose, evaluate_histogram, recording, Draws};
use std::{fs, path::PathBuf, process::exit, time::Instant};

const BLOCK_SIZE: usize = 24;
const BLOCKS: usize = 43;
const SEED: u64 = 24;

/// The finding's numbers but its bit order, which is high first, the counts and the order.
#[derive(PartialEq)]
struct Answer {
    finding: Vec<u64>,
    counts: Vec<u32>,
    order: Vec<u32>,
}

/// 43 blocks and two bytes of an unfinished one.
fn held() -> Vec<u8> {
    recording(&mut Draws::new(SEED), 5, BLOCKS * BLOCK_SIZE / 8 + 2)
}

pub fn run(width: &str, side: Option<&str>) {
    let k: usize = width.parse().ok().filter(|k| (17..=20).contains(k)).expect("the width is 17 to 20");
    println!("wide: B {BLOCK_SIZE}, {BLOCKS} blocks of seed {SEED}, width {k}: {} subsets of {} bins", choose(BLOCK_SIZE, k), 1_usize << k);
    if side == Some("reference") {
        reference(k);
        return;
    }
    let layered = ours(k, "layered", store_size(BLOCK_SIZE, k).unwrap());
    if side == Some("layered") {
        tell(k, &layered);
        return;
    }
    let direct = ours(k, "direct", 0);
    if let Err(what) = compare(&layered, &direct).and_then(|()| compare(&direct, &reference(k))) {
        println!("wide: width {k} differs: {what}");
        exit(1);
    }
    tell(k, &direct);
    println!("wide: width {k}: 1 compared, 0 different");
}

fn tell(k: usize, answer: &Answer) {
    let bits = &answer.finding[4..4 + k];
    println!("wide: width {k}: bits {bits:?}, division {}, z {}", answer.finding[2], f64::from_bits(answer.finding[3]));
}

fn compare(ours: &Answer, reference: &Answer) -> Checked {
    same("finding", &ours.finding, &reference.finding)?;
    same("counts", ours.counts == reference.counts, true)?;
    same("order", ours.order == reference.order, true)
}

/// With a store of so many entries, by which it is layered or direct; fed to one board in three pieces, with an empty and a refused one between and an
/// unfinished one of another board.
fn ours(k: usize, way: &str, entries: usize) -> Answer {
    let held = held();
    let mut sampler = Sampler::started(BLOCK_SIZE, false, BLOCK_SIZE);
    let long = vec![0xFF; 65 * BLOCK_SIZE / 8];
    for (board, piece, refusal) in [(2, &held[..50], 0), (2, &[], 0), (1, &long, 5), (1, &held[..2], 0), (2, &held[50..61], 0), (2, &held[61..], 0)] {
        assert_eq!(sampler.feed(board, piece), refusal);
    }
    let m = 1 << k;
    let (mut counts, mut order) = (vec![LENT; m + 1], vec![LENT; m + 1]);
    let start = Instant::now();
    let searched = sampler.bottomup(0..BLOCKS, k, &mut vec![LENT; entries], &mut counts, &mut order);
    println!("wide: width {k}: ours, {way}, took {:.0} s", start.elapsed().as_secs_f64());
    assert_eq!((searched.refusal, searched.finding[24], counts.pop(), order.pop()), (0, 0, Some(LENT), Some(LENT)));
    Answer { finding: searched.finding[..24].to_vec(), counts, order }
}

/// From the file that an earlier run left, or by the search.
fn reference(k: usize) -> Answer {
    let file = PathBuf::from(concat!(env!("CARGO_MANIFEST_DIR"), "/../target")).join(format!("wide-{k}"));
    let text = fs::read_to_string(&file).unwrap_or_else(|_| {
        let text = search(k);
        fs::write(&file, &text).unwrap();
        text
    });
    let mut lines = text.lines();
    println!("wide: width {k}: the reference took {} s", lines.next().unwrap());
    let mut list = || lines.next().unwrap().split(' ').map(|number| number.parse().unwrap()).collect::<Vec<u64>>();
    let finding = list();
    let mut entries = || list().into_iter().map(|entry| entry as u32).collect();
    Answer { finding, counts: entries(), order: entries() }
}

/// The seconds, the finding, the counts and the order, a line each.
fn search(k: usize) -> String {
    let held = held();
    let start = Instant::now();
    let found = bottomup(&held, BLOCK_SIZE, k, 1).unwrap();
    let seconds = start.elapsed().as_secs_f64();
    let counts = evaluate_histogram(&found, &held).bins;
    let line = |list: Vec<String>| list.join(" ");
    [
        format!("{seconds:.0}"),
        line(numbers(&found)[..24].iter().map(u64::to_string).collect()),
        line(counts.iter().map(usize::to_string).collect()),
        line(found.order.iter().map(usize::to_string).collect()),
    ]
    .join("\n")
}
