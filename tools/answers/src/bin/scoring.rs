//! The cases of `crates/scoring_cases`: roots by IEEE 754's own square root, scores by the reference's `z_score`.

use answers::{z_score, Draws, Sheet};

const SIGN: u64 = 1 << 63;
const INFINITY: u64 = 0x7FF << 52;
const LEAST_NORMAL: u64 = 1 << 52;

/// A double's pattern; a NaN has any, so the largest number stands for it.
fn pattern(x: f64) -> u64 {
    if x.is_nan() { u64::MAX } else { x.to_bits() }
}

/// The patterns of a double and of those just below and above it.
fn around(x: f64) -> [u64; 3] {
    let b = x.to_bits();
    [b - 1, b, b + 1]
}

/// Zeros, infinities, NaN, what is below zero, and the ends of the subnormal and the normal doubles.
fn ends() -> Vec<u64> {
    let mut roots = Vec::new();
    for b in [0, 1, 2, 3, 4, LEAST_NORMAL - 1, LEAST_NORMAL, LEAST_NORMAL + 1, INFINITY - 2, INFINITY - 1, INFINITY, INFINITY + 1] {
        roots.extend([b, b | SIGN]);
    }
    roots.extend([INFINITY | 1 << 51, u64::MAX, 1.0f64.to_bits(), (-1.0f64).to_bits(), (-2.0f64).to_bits()]);
    roots
}

/// Powers of two, subnormal ones too, with their neighbours.
fn powers() -> Vec<u64> {
    let subnormal = (2..52).step_by(7).map(|e| f64::from_bits(1 << e));
    let normal = (1..2047).step_by(11).map(|e: u64| f64::from_bits(e << 52));
    subnormal.chain(normal).flat_map(around).collect()
}

/// Exact squares, and the doubles beside them.
fn squares(draws: &mut Draws) -> Vec<u64> {
    let mut roots = Vec::new();
    for s in 1..=40u64 {
        roots.extend(around((s * s) as f64));
    }
    for _ in 0..150 {
        let s = draws.next() >> (38 + draws.next() % 20);
        let scale = 4f64.powi((draws.next() % 900) as i32 - 450);
        roots.extend(around(((s * s + (s == 0) as u64) as f64) * scale));
    }
    roots
}

/// The doubles nearest the square of a point halfway between two doubles, where the last digit of the root turns.
fn halfway(draws: &mut Draws) -> Vec<u64> {
    let mut roots = Vec::new();
    for _ in 0..300 {
        let t = (1u128 << 53) | (draws.next() as u128 >> 11) | 1;
        let scale = 4f64.powi((draws.next() % 900) as i32 - 500);
        roots.extend(around((t * t) as f64 * scale));
    }
    roots
}

fn counts_of(n: usize) -> Vec<usize> {
    let mut counts = vec![0, 1, n / 2, n.saturating_sub(1), n];
    counts.sort();
    counts.dedup();
    counts.retain(|c| *c <= n);
    counts
}

/// Every share of width 1 to 4, at the smallest and largest sizes and about a word's 64 blocks; shares 0 and 1, where the deviation is 0; and an empty sample.
fn small_widths() -> Vec<[usize; 4]> {
    let mut scores = Vec::new();
    for k in 1..=4 {
        for i in 0..=1 << k {
            for n in [0, 1, 2, 3, 63, 64, 65, 16_777_215, 16_777_216] {
                scores.extend(counts_of(n).into_iter().map(|c| [n, c, i, k]));
            }
        }
    }
    scores
}

fn any_widths(draws: &mut Draws) -> Vec<[usize; 4]> {
    let mut scores = Vec::new();
    for _ in 0..1_000 {
        let k = 1 + draws.below(20);
        let i = 1 + draws.below((1 << k) - 1);
        let digits = 1 + draws.below(24);
        let n = 1 + draws.below(1 << digits);
        // Near the expected count, where z is small, as well as anywhere.
        let near = (n * i >> k) + draws.below(3);
        let c = if draws.below(2) == 0 { near.min(n) } else { draws.below(n + 1) };
        scores.push([n, c, i, k]);
    }
    scores
}

fn main() {
    let mut draws = Draws::new(3);
    let mut sheet = Sheet::default();
    sheet.note("Made by tools/answers, program scoring. Each case's answers are one line of stdout; a NaN is 18446744073709551615.");

    let mut roots = ends();
    roots.extend(powers());
    roots.extend(squares(&mut draws));
    roots.extend(halfway(&mut draws));
    roots.extend((0..300).map(|_| draws.next() >> 12));
    roots.extend((0..1_000).map(|_| draws.next() >> 1));
    roots.extend((0..100).map(|_| draws.next() | SIGN));
    sheet.note("Roots: the pattern of a double. Answer: the pattern of its f64::sqrt.");
    sheet.case([roots.len()]);
    for b in roots {
        sheet.case([b]);
        sheet.answer([pattern(f64::from_bits(b).sqrt())]);
    }

    let mut scores = small_widths();
    scores.extend(any_widths(&mut draws));
    sheet.note("Scores: n, c, i, k. Answer: the patterns of the reference's z_score(n, c, i / 2^k), and of its absolute value.");
    sheet.case([scores.len()]);
    for [n, c, i, k] in scores {
        // The reference's own words for the share.
        let p = 2f64.powf(-(k as f64)) * (i as f64);
        let z = z_score(n, c, p);
        sheet.case([n, c, i, k]);
        sheet.answer([pattern(z), pattern(z.abs())]);
    }
    sheet.save();
}
