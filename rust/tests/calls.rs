use jimrawel::{calls, plan, rank, split, store_needed, BitOrder::*, Bracket, Finding, Refusal, Sampler};

#[test]
fn pieces_are_one_recording() {
    let mut whole = Sampler::start(16, HighFirst, 100).unwrap();
    let mut pieces = whole.clone();
    let bytes: Vec<u8> = (0..200).map(|i| (i * 37 % 251) as u8).collect();
    whole.feed(&bytes).unwrap();
    for piece in bytes.chunks(7) {
        pieces.feed(piece).unwrap();
        pieces.feed(&[]).unwrap();
        assert_eq!(pieces.feed(&[0; 257]), Err(Refusal::Full));
    }
    assert_eq!((whole.blocks(), whole.unfinished(0)), (100, &[][..]));
    let found = whole.search_with(0..100, 3, &mut []).unwrap();
    assert_eq!(found, pieces.search(3).unwrap());
    assert_eq!(found.counts(), &found.evaluate(&bytes).unwrap().counts[..]);
}

#[test]
fn a_stretch_is_a_recording_of_its_blocks() {
    let bytes: Vec<u8> = (0..401).map(|i| (i * i % 7 * 37) as u8).collect();
    let mut whole = Sampler::start(16, HighFirst, 200).unwrap();
    whole.feed(&bytes).unwrap();
    for stretch in [0..200, 1..200, 0..199, 63..64, 63..65, 64..128, 65..193, 199..200, 30..30, 200..200] {
        let mut alone = Sampler::start(16, HighFirst, stretch.len()).unwrap();
        alone.feed(&bytes[2 * stretch.start..2 * stretch.end]).unwrap();
        for k in 1..4 {
            let found = alone.search(k).unwrap();
            assert_eq!(whole.search_in(stretch.clone(), k).as_ref(), Ok(&found), "{stretch:?}, k {k}");
            assert_eq!(whole.search_with(stretch.clone(), k, &mut []).as_ref(), Ok(&found), "{stretch:?}, k {k}");
            assert_eq!(found.counts().iter().sum::<u32>() as usize, stretch.len());
        }
    }
    let empty = whole.search_in(64..64, 3).unwrap();
    assert_eq!((empty.bits(), empty.division(), empty.z(), empty.counts()), (&[0, 1, 2][..], 1, 0.0, &[0; 8][..]));
}

#[test]
fn other_stretches() {
    let mut sampler = Sampler::start(16, HighFirst, 64).unwrap();
    sampler.feed(&[0xA5; 21]).unwrap();
    assert_eq!(sampler.blocks(), 10);
    for (first, end) in [(1, 0), (10, 9), (0, 11), (11, 11), (0, usize::MAX), (usize::MAX, 10), (1 << 32, (1 << 32) + 1)] {
        // Before the width's refusals.
        for k in [2, 0, 17] {
            assert_eq!(sampler.search_in(first..end, k), Err(Refusal::Stretch), "{first}..{end}");
            assert_eq!(sampler.search_with(first..end, k, &mut []), Err(Refusal::Stretch), "{first}..{end}");
        }
    }
    let (words, mut bins, mut order, mut store, mut finding) = ([0; 16], [9; 4], [9; 4], [9; 16], [9; 25]);
    for (words_said, refusal) in [(16, Refusal::Stretch), (15, Refusal::Sampler)] {
        for entries in [16, 0] {
            let sampler = [16, words_said, 10, 0, 1, 0, 0, 0];
            let answer = calls::bottomup(&sampler, &words, 0..11, 2, &mut store[..entries], &mut bins, &mut order, &mut finding);
            assert_eq!((answer, bins, order, store, finding), (refusal.number(), [9; 4], [9; 4], [9; 16], [0; 25]));
        }
    }
    assert_eq!((calls::blocks(&[16, 16, 10, 1, 1, 0, 0, 0]), calls::blocks(&[16, 16, 10, 1, 1, 0, 0])), (10, 0));
}

#[test]
fn low_first_is_high_first_of_reversed_bytes() {
    let bytes: Vec<u8> = (0..401).map(|i| (i * i % 11 * 23) as u8).collect();
    let reversed: Vec<u8> = bytes.iter().map(|byte| byte.reverse_bits()).collect();
    let (mut low, mut high) = (Sampler::start(16, LowFirst, 200).unwrap(), Sampler::start(16, HighFirst, 200).unwrap());
    assert_eq!((low.bit_order(), high.bit_order()), (LowFirst, HighFirst));
    bytes.chunks(7).for_each(|piece| low.feed(piece).unwrap());
    high.feed(&reversed).unwrap();
    for stretch in [0..200, 63..65, 5..193, 30..30] {
        for k in 1..5 {
            let (found, other) = (low.search_in(stretch.clone(), k).unwrap(), high.search_in(stretch.clone(), k).unwrap());
            assert_eq!(low.search_with(stretch.clone(), k, &mut []).as_ref(), Ok(&found));
            assert_eq!((found.bit_order(), other.bit_order()), (LowFirst, HighFirst));
            assert_eq!((found.bits(), found.order(), found.counts()), (other.bits(), other.order(), other.counts()));
            assert_eq!((found.division(), found.z().to_bits()), (other.division(), other.z().to_bits()));
            assert_ne!(found, other);
            assert_eq!(found.evaluate(&bytes), other.evaluate(&reversed));
            assert_eq!(found.evaluate(&bytes[2 * stretch.start..2 * stretch.end]).unwrap().counts, found.counts());

            let (text, plain) = (found.to_json(), other.to_json());
            assert_eq!(text, plain.replace("\"low_first\":false", "\"low_first\":true"));
            let again = Finding::from_json(text.as_bytes()).unwrap();
            assert_eq!(again, Finding::checked(16, LowFirst, found.bits(), found.order(), found.division()).unwrap());
            assert_eq!((again.bit_order(), again.to_json(), again.evaluate(&bytes)), (LowFirst, text, found.evaluate(&bytes)));
            // Without the key the high bit comes first.
            let silent = plain.replace(",\"low_first\":false", "");
            assert_eq!(Finding::from_json(silent.as_bytes()), Finding::from_json(plain.as_bytes()));
        }
    }
}

/// 27 comes before every other refusal but 25, and beside it nothing at all is written.
#[test]
fn other_bit_orders() {
    for mark in [2, 3, 255, 256, 1 << 32, (1 << 32) + 1, u64::MAX] {
        // All the rest is refused too: the number of words, the stretch, the width, the buffers.
        for (words_said, stretch, k, room) in [(16, 0..10, 2, 4), (15, 0..11, 0, 0)] {
            let lent = [16, words_said, 10, mark, 1, 0, 0, 0];
            let (mut sampler, mut unfinished, mut words) = (lent, [9; 2048], [9; 16]);
            assert_eq!(calls::feed(&mut sampler, &mut unfinished, &mut words, 0, &[0xFF; 3]), Refusal::BitOrder.number());
            assert_eq!((sampler, unfinished, words, calls::blocks(&sampler)), (lent, [9; 2048], [9; 16], 0));
            let (mut bins, mut order, mut store, mut finding) = ([9; 4], [9; 4], [9; 16], [9; 25]);
            let (bins, order) = (&mut bins[..room], &mut order[..room]);
            for entries in [16, 0] {
                let answer = calls::bottomup(&sampler, &words, stretch.clone(), k, &mut store[..entries], bins, order, &mut finding);
                assert_eq!(answer, Refusal::BitOrder.number());
            }
            assert_eq!((&bins[..], &order[..], store, finding), (&[9; 4][..room], &[9; 4][..room], [9; 16], [9; 25]));
        }
        for (block_size, width) in [(8, 2), (12, 0)] {
            let finding = [[block_size, width, 1, 0, 1, 2].as_slice(), &[0; 18], &[mark]].concat();
            let (mut scratch, mut evaluated, mut out, mut length) = ([9; 4], [9; 3], [9; 200], 9);
            assert_eq!(calls::validate(&finding, &[0, 1, 2, 3], &mut scratch), Refusal::BitOrder.number());
            assert_eq!(calls::evaluate_histogram(&finding, &[0, 1, 2, 3], &[0, 1], &mut scratch, &mut evaluated), Refusal::BitOrder.number());
            assert_eq!(calls::write_finding(&finding, &[0, 1, 2, 3], &mut scratch, &mut out, &mut length), Refusal::BitOrder.number());
            assert_eq!((scratch, evaluated, out, length), ([9; 4], [9; 3], [9; 200], 9));
        }
    }
    // A record that is too short comes first.
    for (numbers, bytes) in [(7, 2048), (8, 2047)] {
        assert_eq!(calls::feed(&mut vec![2; numbers], &mut vec![0; bytes], &mut [0; 16], 0, &[]), Refusal::ShortRecord.number());
    }
    assert_eq!(calls::bottomup(&[2; 7], &[0; 16], 0..0, 1, &mut [], &mut [0; 2], &mut [0; 2], &mut [0; 25]), Refusal::ShortRecord.number());
    assert_eq!(calls::bottomup(&[2; 8], &[0; 16], 0..0, 1, &mut [], &mut [0; 2], &mut [0; 2], &mut [0; 24]), Refusal::ShortRecord.number());
    assert_eq!(calls::validate(&[2; 24], &[], &mut []), Refusal::ShortRecord.number());
}

/// Every set of 1 to 7 bits of a block of 8, by size, then in lexicographic order.
fn narrower_sets() -> Vec<Vec<u32>> {
    let mut sets: Vec<Vec<u32>> = (1..255).map(|set| (0..8).filter(|bit| set >> bit & 1 == 1).collect()).collect();
    sets.sort_by_key(|bits| (bits.len(), bits.clone()));
    sets
}

#[test]
fn stores() {
    let bytes = [0x5A, 0x0F, 0xFF, 0x81, 0x8F];
    let mut sampler = Sampler::start(8, HighFirst, 64).unwrap();
    sampler.feed(&bytes).unwrap();
    let found = sampler.search_in(1..5, 8).unwrap();
    let mut store = [9; 256];
    for entries in [0, 8, 253] {
        assert_eq!(sampler.search_with(1..5, 8, &mut store[..entries]).as_ref(), Ok(&found), "{entries} entries");
        assert_eq!(store, [9; 256]);
    }
    let with = |bits: &Vec<u32>| bytes[1..].iter().filter(|&byte| bits.iter().all(|bit| byte >> (7 - bit) & 1 == 1)).count() as u32;
    let counts: Vec<u32> = narrower_sets().iter().map(with).collect();
    for entries in [254, 256] {
        assert_eq!(sampler.search_with(1..5, 8, &mut store[..entries]).as_ref(), Ok(&found), "{entries} entries");
        assert_eq!((&store[..254], &store[254..]), (&counts[..], &[9, 9][..]));
    }

    // Without a block every count is 0.
    let mut store = vec![9; 349_632];
    let empty = Sampler::start(128, HighFirst, 1).unwrap();
    let found = empty.search_with(0..0, 4, &mut store[1..]).unwrap();
    assert!(store.iter().all(|&entry| entry == 9));
    assert_eq!(empty.search_with(0..0, 4, &mut store), Ok(found));
    assert!(store.iter().all(|&entry| entry == 0));

    // Where a buffer is too short, a store of any length is as lent.
    store.fill(9);
    for entries in [349_632, 349_631, 0] {
        let (mut order, mut finding) = ([9; 16], [9; 25]);
        let answer = calls::bottomup(&[128, 128, 0, 0, 0, 0, 0, 0], &[0; 128], 0..0, 4, &mut store[..entries], &mut [9; 15], &mut order, &mut finding);
        assert_eq!((answer, order, finding), (Refusal::Buffer.number(), [9; 16], [0; 25]));
        assert!(store.iter().all(|&entry| entry == 9));
    }
}

#[test]
fn entries_of_stores() {
    for (block_size, k, entries) in [
        (8, 1, 8), (8, 2, 8), (8, 3, 36), (8, 7, 246), (8, 8, 254), (16, 16, 65_534), (24, 20, 16_764_264), (64, 5, 679_120), (128, 4, 349_632),
        (128, 6, 275_584_032), (4096, 2, 4_096), (4096, 3, 8_390_656),
    ] {
        assert_eq!(store_needed(block_size, k), entries, "B {block_size}, k {k}");
    }
    // Above 2^32, by a little and past any word; no block size; no width of the block.
    for (block_size, k) in [
        (128, 7), (4096, 4), (4096, 20), (0, 1), (7, 1), (12, 2), (4104, 2), (usize::MAX, 1), (8, 0), (8, 9), (16, 20), (4096, 21), (8, usize::MAX),
    ] {
        assert_eq!(store_needed(block_size, k), 0, "B {block_size}, k {k}");
    }
}

#[test]
fn refusals() {
    let sampler = Sampler::start(8, HighFirst, 1).unwrap();
    assert_eq!(Sampler::start(4104, HighFirst, 1).unwrap_err().number(), 1);
    let (mut words, mut started, mut unfinished) = ([9; 16], [9; 8], [9; 2048]);
    for (numbers, bytes) in [(7, 2048), (8, 2047)] {
        assert_eq!(calls::start(16, true, &mut words, &mut started[..numbers], &mut unfinished[..bytes]), Refusal::ShortRecord.number());
        assert_eq!((words, started, unfinished), ([9; 16], [9; 8], [9; 2048]));
    }
    assert_eq!(calls::start(4104, true, &mut words, &mut started, &mut unfinished), Refusal::BlockSize.number());
    assert_eq!((words, started, unfinished), ([9; 16], [0; 8], [0; 2048]));
    for (k, refusal) in [(0, Refusal::Width), (21, Refusal::Width), (9, Refusal::WidthAboveBlock)] {
        assert_eq!(sampler.search(k), Err(refusal));
        assert_eq!(sampler.search_with(0..0, k, &mut []), Err(refusal));
    }
    assert_eq!(Finding::checked(8, HighFirst, &[1, 1], &[0, 1, 2, 3], 1), Err(Refusal::BitsNotRising));
    assert_eq!(Finding::checked(8, HighFirst, &[1, 8], &[0, 1, 2, 3], 1), Err(Refusal::BitOutside));
    assert_eq!(Finding::checked(8, HighFirst, &[1, 2], &[0, 1, 2], 1), Err(Refusal::OrderLength));
    assert_eq!(Finding::checked(8, HighFirst, &[1, 2], &[0, 1, 2, 2], 1), Err(Refusal::NoPermutation));
    assert_eq!(Finding::checked(8, HighFirst, &[1, 2], &[0, 1, 2, 3], 4), Err(Refusal::Division));
    assert_eq!(Finding::checked(8, HighFirst, &[1, 2], &[0, 1, 2, 3], 3).unwrap().evaluate(&[]).unwrap().z, None);
}

#[test]
fn ranks_parts_plans() {
    assert_eq!((rank(8, &[0, 2]), rank(8, &[1, 2]), rank(8, &[6, 7])), (Ok(1), Ok(7), Ok(27)));
    assert_eq!(split(&[1, 2, 3], 16, true), Err(Refusal::FewBlocks));
    assert_eq!(split(&[1, 2, 3, 4, 5, 6, 7], 16, true), Ok((&[1, 2][..], &[3, 4, 5, 6][..])));
    assert_eq!(plan(128, 1000), Ok(vec![(8, 8), (128, 3), (256, 2), (512, 2)]));
}

#[test]
fn texts() {
    let bytes: Vec<u8> = (0..200).map(|i| (i * 37 % 251) as u8).collect();
    let mut sampler = Sampler::start(16, HighFirst, 100).unwrap();
    sampler.feed(&bytes).unwrap();
    for k in 1..6 {
        let found = sampler.search(k).unwrap();
        let text = found.to_json();
        let again = Finding::from_json(text.as_bytes()).unwrap();
        assert_eq!(again, Finding::checked(16, HighFirst, found.bits(), found.order(), found.division()).unwrap());
        assert_eq!((again.z(), again.counts(), again.to_json()), (0.0, &[][..], text));
        assert_eq!(again.evaluate(&bytes).unwrap().counts, found.counts());
    }
    let order: Vec<u32> = (0..1 << 20).rev().collect();
    let bits: Vec<u32> = (4076..4096).collect();
    let wide = Finding::checked(4096, HighFirst, &bits, &order, (1 << 20) - 1).unwrap();
    assert_eq!(Finding::from_json(wide.to_json().as_bytes()), Ok(wide));
}

#[test]
fn other_texts() {
    let read = |text: &str| Finding::from_json(text.as_bytes());
    let spread = " {\t\"block_size\" : 8 , \"z_score\":-1.5e+3,\n\"best_division\":1,\"sorted_indices\":[1,0 ],\"bits\": [ 3 ]}\r\n";
    assert_eq!(read(spread), Finding::checked(8, HighFirst, &[3], &[1, 0], 1));
    assert_eq!(read(spread).unwrap().to_json(), r#"{"bits":[3],"sorted_indices":[1,0],"best_division":1,"block_size":8,"low_first":false}"#);
    assert_eq!(Finding::from_json(&spread.as_bytes()[..spread.len() - 3]), Err(Refusal::Text));
    let text = |bits: &str, order: &str, division: &str, size: &str| {
        format!(r#"{{"bits":[{bits}],"sorted_indices":[{order}],"best_division":{division},"block_size":{size}}}"#)
    };
    for (given, refusal) in [
        (text("1,2", "0,1,2,3", "1", "12"), Refusal::BlockSize),
        (text("", "", "1", "8"), Refusal::Width),
        (text("1,1", "0,1,2,3", "1", "8"), Refusal::BitsNotRising),
        (text("1,8", "0,1,2,3", "1", "8"), Refusal::BitOutside),
        (text("1,2", "", "1", "8"), Refusal::OrderLength),
        (text("1,2", "0,1,2,2", "1", "8"), Refusal::NoPermutation),
        (text("1,2", "0,1,2,3", "4", "8"), Refusal::Division),
        (text("1,2", "0,1,2,3", "1", "8.0"), Refusal::Text),
        (text("1,2", "0,1,2,3", "1", "4294967296"), Refusal::Text),
        (text("1,2", "0,1,2,3", "1", "8,\"low_first\":1"), Refusal::Text),
        (text("1,2", "0,1,2,3", "1", "8,\"low_first\":true,\"low_first\":true"), Refusal::Text),
    ] {
        assert_eq!(read(&given), Err(refusal), "{given}");
    }
    let (mut order, mut scratch, mut numbers, mut out, mut length) = ([9; 3], [9; 4], [9; 25], [9; 89], 9);
    let sound = text("1,2", "0,1,2,3", "1", "8");
    assert_eq!(calls::read_finding(sound.as_bytes(), &mut order, &mut scratch, &mut numbers), Refusal::Room.number());
    assert_eq!((order, scratch, numbers), ([9; 3], [9; 4], [0; 25]));
    let finding = [[8, 2, 1, 0, 1, 2].as_slice(), &[0; 19]].concat();
    assert_eq!(calls::write_finding(&finding, &[0, 1, 2, 3], &mut scratch, &mut out, &mut length), Refusal::Room.number());
    assert_eq!((scratch, out, length), ([0; 4], [9; 89], 0));
    assert_eq!((calls::longest_text(0), calls::longest_text(21)), (0, 0));
}

/// What the blocks make of 2^40, entry by entry.
fn entries_after(n: usize, k: usize, d: u128) -> Vec<u64> {
    let mut row = vec![1_u128 << 40];
    for _ in 0..n {
        let next = |j: usize| (row.get(j).unwrap_or(&0) * ((1 << k) - d) + j.checked_sub(1).map_or(0, |i| row[i]) * d) >> k;
        row = (0..=row.len()).map(next).collect();
    }
    row.iter().map(|&entry| entry as u64).collect()
}

/// The binomial sum lies between the ends wherever 128 bits hold it, and the scratch holds the entries.
#[test]
fn brackets_enclose_the_chance() {
    for k in 1..=20 {
        let bins = 1_u128 << k;
        for d in [1, 2, bins / 3, bins / 2, bins - 2, bins - 1].into_iter().filter(|&d| 0 < d && d < bins) {
            for n in 0..=86 / k {
                let entries = entries_after(n, k, d);
                // From all blocks positive down: C(n, c) d^c (2^k - d)^(n - c) is added at each c.
                let (mut ways, mut exact) = (1, 0);
                for c in (0..=n).rev() {
                    exact += ways * d.pow(c as u32) * (bins - d).pow((n - c) as u32);
                    ways = ways * c as u128 / (n - c + 1) as u128;
                    let (mut scratch, mut low, mut high) = (vec![9; n + 3], 9, 9);
                    let answer = calls::bracket(n, c, k, d as usize, &mut scratch, &mut low, &mut high);
                    assert_eq!((answer, &scratch[..=n], &scratch[n + 1..]), (0, &entries[..], &[9, 9][..]), "n {n}, c {c}, k {k}, d {d}");
                    assert_eq!((low, high), (entries[c..].iter().sum(), low + (n * (n + 3) / 2) as u64));
                    assert!((low as u128) << (k * n) <= exact << 40 && exact << 40 <= (high as u128) << (k * n), "n {n}, c {c}, k {k}, d {d}");
                }
                assert_eq!(exact, 1 << (k * n));
            }
        }
    }
}

/// Both ends by the rule in Python's whole numbers, which have the exact sum between them.
#[test]
fn brackets() {
    for (n, c, k, d, low, high) in [
        (0, 0, 1, 1, 1_099_511_627_776, 1_099_511_627_776),
        (1, 1, 1, 1, 549_755_813_888, 549_755_813_890),
        (3, 2, 3, 3, 347_892_350_976, 347_892_350_985),
        (4, 2, 20, 699_051, 977_343_979_819, 977_343_979_833),
        (10, 3, 20, 1, 0, 65),
        (100, 37, 3, 3, 636_083_926_967, 636_083_932_117),
        (1000, 0, 20, 699_051, 1_099_511_562_245, 1_099_512_063_745),
        (2048, 1311, 3, 4, 0, 2_100_224),
        (4096, 0, 20, 349_525, 1_099_511_110_995, 1_099_519_505_747),
        (4096, 3, 20, 1, 9_109, 8_403_861),
        (4096, 1400, 20, 349_525, 141_632_655_248, 141_641_050_000),
        (4096, 2100, 1, 1, 59_111_301_470, 59_119_696_222),
        (4096, 4096, 20, (1 << 20) - 1, 1_095_225_033_811, 1_095_233_428_563),
    ] {
        let bracket = Bracket::of(n, c, k, d).unwrap();
        assert_eq!(bracket, Bracket { low, high }, "n {n}, c {c}, k {k}, d {d}");
        let unit = (1_u64 << 40) as f64;
        assert_eq!(((bracket.ends().0 * unit) as u64, (bracket.ends().1 * unit) as u64), (low, high));
    }
    // The numbers of an evaluation: 5 of 6 blocks are in bins 2, 0 and 3, and 4,096 blocks are the most.
    let finding = Finding::checked(16, LowFirst, &[3, 9], &[2, 0, 3, 1], 3).unwrap();
    let bytes = [0, 0, 8, 2, 0, 2, 8, 0, 0, 0, 0, 2, 8];
    assert_eq!(finding.evaluate(&bytes).unwrap().positive, 5);
    assert_eq!(finding.bracket(&bytes), Bracket::of(6, 5, 2, 3));
    assert_eq!(finding.bracket(&bytes[..1]), Bracket::of(0, 0, 2, 3));
    assert_eq!(finding.bracket(&[0; 8193]), Bracket::of(4096, 4096, 2, 3));
    assert_eq!(finding.bracket(&[0; 8194]), Err(Refusal::Counts));
}

/// The first refusal that applies, with everything as lent but both ends, which are 0.
#[test]
fn other_brackets() {
    let most = usize::MAX;
    let mut scratch = [9; 4098];
    for (n, c, k, d, room, refusal) in [
        (4097, 0, 0, 0, 0, Refusal::Counts), (4097, 4097, 20, 1, 4098, Refusal::Counts), (1 << 32, 0, 1, 1, 4098, Refusal::Counts),
        (most, 0, 1, 1, 4098, Refusal::Counts), (most, most, 0, 0, 0, Refusal::Counts),
        (0, 1, 0, 0, 0, Refusal::Counts), (4096, 4097, 20, 1, 4098, Refusal::Counts), (5, 6, 21, 0, 0, Refusal::Counts), (5, most, 1, 1, 6, Refusal::Counts),
        (4096, 4096, 0, 0, 0, Refusal::Width), (0, 0, 0, 1, 1, Refusal::Width), (5, 5, 21, 0, 0, Refusal::Width), (5, 5, 21, 1, 6, Refusal::Width),
        (5, 5, 64, 1, 6, Refusal::Width), (5, 5, (1 << 32) + 2, 1, 6, Refusal::Width), (5, 5, most, 1, 6, Refusal::Width),
        (5, 5, 1, 0, 0, Refusal::Division), (5, 5, 1, 2, 6, Refusal::Division), (5, 0, 20, 0, 6, Refusal::Division),
        (5, 5, 20, 1 << 20, 5, Refusal::Division), (5, 5, 20, 1 << 20, 6, Refusal::Division), (5, 5, 20, (1 << 32) + 1, 6, Refusal::Division),
        (5, 5, 20, most, 6, Refusal::Division),
        (5, 5, 20, (1 << 20) - 1, 5, Refusal::Buffer), (0, 0, 1, 1, 0, Refusal::Buffer), (4096, 0, 1, 1, 4096, Refusal::Buffer),
    ] {
        let (mut low, mut high) = (9, 9);
        let answer = calls::bracket(n, c, k, d, &mut scratch[..room], &mut low, &mut high);
        assert_eq!((answer, low, high), (refusal.number(), 0, 0), "n {n}, c {c}, k {k}, d {d}, {room} entries");
        assert_eq!(scratch, [9; 4098]);
        // It brings a scratch that is long enough.
        if refusal != Refusal::Buffer {
            assert_eq!(Bracket::of(n, c, k, d), Err(refusal), "n {n}, c {c}, k {k}, d {d}");
        }
    }
    for (n, c, k, d) in [(0, 0, 1, 1), (5, 5, 20, (1 << 20) - 1), (4096, 4096, 20, (1 << 20) - 1), (4096, 0, 1, 1)] {
        let (mut low, mut high) = (9, 9);
        assert_eq!(calls::bracket(n, c, k, d, &mut scratch[..n + 1], &mut low, &mut high), 0);
        assert_eq!(Bracket::of(n, c, k, d), Ok(Bracket { low, high }));
        assert!(scratch[n + 1..].iter().all(|&entry| entry == 9));
        scratch.fill(9);
    }
}
