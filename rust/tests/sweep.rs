use jimrawel::{calls, plan, split, store_needed, sweep, BitOrder, BitOrder::*, Bracket, Refusal, Sampler, Sweep, Tested, Verdict};

const LEVEL: u64 = 1 << 30;

/// The bytes of the C example's generator. Where it is weak, the last bit of every second byte is the first bit of the byte before it.
fn generate(length: usize, weak: bool) -> Vec<u8> {
    let (mut state, mut bytes) = (1_u32, Vec::new());
    for i in 0..length {
        state = state.wrapping_mul(1_664_525).wrapping_add(1_013_904_223);
        let byte = (state >> 24) as u8;
        bytes.push(if weak && i % 2 == 1 { byte & 0xFE | bytes[i - 1] >> 7 } else { byte });
    }
    bytes
}

/// A pair's numbers: block size, bits, division, z, positive, blocks, both ends.
type Numbers<'a> = (usize, &'a [u32], u32, u64, u32, usize, u64, u64);

fn numbers(tested: &Tested) -> Numbers<'_> {
    let Tested { finding, blocks, positive, bracket } = tested;
    (finding.block_size(), finding.bits(), finding.division(), finding.z().to_bits(), *positive, *blocks, bracket.low, bracket.high)
}

/// By include/example/sweep.py, the rules in plain Python.
#[test]
fn verdicts() {
    let (weak, fair) = (generate(512, true), generate(64, false));
    let by_two: Numbers = (16, &[0, 5, 12, 15], 7, 4_622_709_321_881_148_323, 112, 128, 0, 8_384);
    for (recording, level, verdict, pairs_tested, best, last) in [
        (&weak, LEVEL, Verdict::Rejected, 2, by_two, by_two),
        // The share of one pair in seven: its upper end is just below it, and just not.
        (&weak, 7 * 8_385, Verdict::Rejected, 2, by_two, by_two),
        (&weak, 7 * 8_385 - 1, Verdict::Rejected, 3, by_two, (32, &[0, 15, 16, 31], 4, 4_623_990_081_426_312_363, 64, 64, 0, 2_144)),
        (&weak, 7 * 560, Verdict::Undecided, 7, by_two, (512, &[9, 12], 1, 4_614_982_882_171_571_371, 1, 4, 751_619_276_800, 751_619_276_814)),
        (
            &fair, LEVEL, Verdict::NotRejected, 6,
            (16, &[3, 4, 5, 7], 5, 4_617_151_405_676_240_758, 6, 16, 419_992_718_500, 419_992_718_652),
            (256, &[0, 1], 1, 4_610_479_282_544_200_875, 0, 1, 1 << 40, (1 << 40) + 2),
        ),
    ] {
        let swept = sweep(recording, 16, HighFirst, level).unwrap();
        assert_eq!((swept.verdict, swept.pairs_tested), (verdict, pairs_tested), "level {level}");
        assert_eq!((numbers(&swept.best), numbers(&swept.last)), (best, last), "level {level}");
    }
}

/// The sweep made of the crate's other calls.
fn by_pairs(recording: &[u8], block_size: usize, bit_order: BitOrder, level: u64) -> Sweep {
    let pairs = plan(block_size, recording.len()).unwrap();
    let share = level / pairs.len() as u64;
    let mut tested: Vec<Tested> = Vec::new();
    for &(size, k) in &pairs {
        let Ok((training, testing)) = split(recording, size, true) else { continue };
        let mut sampler = Sampler::start(size, bit_order, training.len() / (size / 8)).unwrap();
        sampler.feed(training).unwrap();
        let finding = sampler.search(k).unwrap();
        let blocks = (testing.len() / (size / 8)).min(4096);
        let testing = &testing[..blocks * size / 8];
        let (positive, bracket) = (finding.evaluate(testing).unwrap().positive, finding.bracket(testing).unwrap());
        tested.push(Tested { finding, blocks, positive, bracket });
        if bracket.high < share {
            break;
        }
    }
    let last = tested.last().unwrap().clone();
    let verdict = if last.bracket.high < share {
        Verdict::Rejected
    } else if tested.iter().any(|pair| pair.bracket.low < share) {
        Verdict::Undecided
    } else {
        Verdict::NotRejected
    };
    let best = tested.iter().min_by_key(|pair| pair.bracket.low).unwrap().clone();
    Sweep { verdict, pairs_tested: tested.len(), best, last }
}

/// Findings with their orders and counts too, skipped pairs, and more than 4,096 blocks of the second half.
#[test]
fn a_sweep_is_its_pairs() {
    for (length, weak, block_size, bit_order) in [
        (2, false, 8, HighFirst), (3, true, 16, LowFirst), (64, true, 8, LowFirst), (127, false, 16, HighFirst), (128, false, 8, HighFirst),
        (700, true, 136, LowFirst), (2_000, false, 520, LowFirst), (9_001, true, 8, HighFirst), (9_001, false, 16, LowFirst), (9_001, false, 3000, HighFirst),
    ] {
        let recording = generate(length, weak);
        for level in [7 * 560, LEVEL, (1 << 40) - 1] {
            let swept = sweep(&recording, block_size, bit_order, level);
            assert_eq!(swept, Ok(by_pairs(&recording, block_size, bit_order, level)), "{length} bytes, B {block_size}, level {level}");
        }
    }
}

/// A level below the seven pairs leaves no share, and nothing is below 0. A share that is no larger than a bracket is wide leaves open what is not fair at all.
#[test]
fn small_levels() {
    for (level, verdict, pairs_tested) in [
        (6, Verdict::NotRejected, 7), (7, Verdict::Undecided, 7), (7 * 152, Verdict::Undecided, 7), (7 * 153, Verdict::Rejected, 5),
        (7 * 8_384, Verdict::Rejected, 3), (7 * 33_152, Verdict::Rejected, 2), (7 * 33_153, Verdict::Rejected, 1),
    ] {
        let swept = sweep(&[0; 512], 8, HighFirst, level).unwrap();
        assert_eq!((swept.verdict, swept.pairs_tested), (verdict, pairs_tested), "level {level}");
    }
}

#[test]
fn low_first_is_high_first_of_reversed_bytes() {
    let recording = generate(512, true);
    let reversed: Vec<u8> = recording.iter().map(|byte| byte.reverse_bits()).collect();
    let (low, high) = (sweep(&reversed, 16, LowFirst, LEVEL).unwrap(), sweep(&recording, 16, HighFirst, LEVEL).unwrap());
    assert_eq!((low.last.finding.bit_order(), high.last.finding.bit_order()), (LowFirst, HighFirst));
    assert_eq!((low.verdict, numbers(&low.best), numbers(&low.last)), (high.verdict, numbers(&high.best), numbers(&high.last)));
}

#[test]
fn refusals() {
    let recording = generate(100, false);
    for (block_size, level, refusal) in [
        (16, 0, Refusal::Level), (16, 1 << 40, Refusal::Level), (16, u64::MAX, Refusal::Level), (12, 0, Refusal::Level), (12, 1, Refusal::BlockSize),
        (0, LEVEL, Refusal::BlockSize), (4104, LEVEL, Refusal::BlockSize), (usize::MAX, LEVEL, Refusal::BlockSize),
    ] {
        assert_eq!(sweep(&recording, block_size, HighFirst, level), Err(refusal), "B {block_size}, level {level}");
    }
    for length in [0, 1] {
        assert_eq!(sweep(&recording[..length], 8, LowFirst, LEVEL), Err(Refusal::FewBlocks));
    }
    // The most bytes, and one more. Bytes that are all the same are rejected by the first pair.
    let long = vec![0x5A; 33_554_434];
    assert_eq!(sweep(&long, 8, HighFirst, LEVEL), Err(Refusal::Full));
    let swept = sweep(&long[1..], 8, HighFirst, LEVEL).unwrap();
    assert_eq!((swept.verdict, swept.pairs_tested), (Verdict::Rejected, 1));
    assert_eq!((swept.last.blocks, swept.last.positive, swept.last.bracket), (4096, 4096, Bracket { low: 0, high: 8_394_752 }));
    assert_eq!(swept.last.finding.counts()[0x5A], 16_777_216);
}

/// What a sweep is lent.
#[derive(Clone, Debug, PartialEq)]
struct Lent {
    words: Vec<u64>,
    store: Vec<u32>,
    bins: Vec<u32>,
    order: Vec<u32>,
    scratch: Vec<u32>,
    entries: Vec<u64>,
    swept: Vec<u64>,
}

impl Lent {
    fn of(words: usize, store: usize, bins: usize, order: usize, scratch: usize, entries: usize, swept: usize) -> Lent {
        Lent {
            words: vec![9; words],
            store: vec![9; store],
            bins: vec![9; bins],
            order: vec![9; order],
            scratch: vec![9; scratch],
            entries: vec![9; entries],
            swept: vec![9; swept],
        }
    }

    fn sweep(&mut self, bytes: &[u8], block_size: usize, level: u64) -> u32 {
        let Lent { words, store, bins, order, scratch, entries, swept } = self;
        calls::sweep(bytes, block_size, false, level, words, store, bins, order, scratch, entries, swept)
    }
}

/// The first refusal that applies, with everything as lent but the 60 numbers, which are 0; beside 25 they are as lent too.
#[test]
fn lent_where_refused() {
    let bytes = generate(512, true);
    let full = [512, 43_744, 256, 256, 256, 257, 62];
    for (place, entries, refusal) in [
        (0, 511, Refusal::Full), (0, 31, Refusal::Full), (0, 0, Refusal::Full), (2, 255, Refusal::Buffer), (3, 255, Refusal::Buffer), (4, 255, Refusal::Buffer),
        (5, 256, Refusal::Buffer), (6, 59, Refusal::ShortRecord), (6, 0, Refusal::ShortRecord),
    ] {
        let mut lengths = full;
        lengths[place] = entries;
        let [words, store, bins, order, scratch, entries, swept] = lengths;
        let lent = Lent::of(words, store, bins, order, scratch, entries, swept);
        let mut left = lent.clone();
        let answer = left.sweep(&bytes, 16, LEVEL);
        assert_eq!(answer, refusal.number(), "{lengths:?}");
        if refusal != Refusal::ShortRecord {
            assert_eq!((&left.swept[..60], &left.swept[60..]), (&[0; 60][..], &[9, 9][..]));
            left.swept.fill(9);
        }
        assert_eq!(left, lent, "{lengths:?}");
    }
    // 5 before 7 of one pair, but the 7 of an earlier pair first: 32 words hold the first pair's half, and not the last one's.
    for (words, bins, refusal) in [(31, 255, Refusal::Full), (32, 255, Refusal::Buffer), (32, 256, Refusal::Full)] {
        let lent = Lent::of(words, 0, bins, 256, 256, 257, 60);
        let mut left = lent.clone();
        assert_eq!(left.sweep(&bytes, 16, LEVEL), refusal.number());
        assert_eq!((left.words, left.bins), (lent.words, lent.bins));
    }
    // With no room at all: 25, then 20, 1, 5; and 8 where every pair is skipped.
    for (bytes, block_size, at, swept, refusal) in [
        (&bytes[..], 12, 0, 59, Refusal::ShortRecord), (&bytes[..], 12, 0, 60, Refusal::Level), (&bytes[..], 12, LEVEL, 60, Refusal::BlockSize),
        (&bytes[..], 16, LEVEL, 60, Refusal::Full), (&bytes[..1], 16, LEVEL, 60, Refusal::FewBlocks), (&[], 12, LEVEL, 60, Refusal::BlockSize),
        (&[], 16, LEVEL, 60, Refusal::FewBlocks),
    ] {
        assert_eq!(Lent::of(0, 0, 0, 0, 0, 0, swept).sweep(bytes, block_size, at), refusal.number());
    }
}

/// With any store, and with longer buffers, the 60 numbers are the same, and those past them as lent.
#[test]
fn other_buffers() {
    let bytes = generate(512, true);
    let mut first = Lent::of(512, 0, 256, 256, 256, 257, 60);
    assert_eq!(first.sweep(&bytes, 16, 7 * 560), 0);
    assert_eq!(store_needed(64, 4), 43_744);
    for (words, store, more, entries) in [(512, 43_744, 256, 257), (512, 43_743, 256, 257), (4096, 16, 1024, 4097)] {
        let mut lent = Lent::of(words, store, more, more, more, entries, 63);
        assert_eq!(lent.sweep(&bytes, 16, 7 * 560), 0);
        assert_eq!((&lent.swept[..60], &lent.swept[60..]), (&first.swept[..], &[9; 3][..]));
    }
}
