use jimrawel::{calls, BitOrder, BitOrder::*, Earlier, Refusal, Sampler};

/// The rules written out: the blocks, one behind the other in the order of completion, and each board's bytes past its last one.
#[derive(Clone)]
struct Boards {
    size: usize,
    capacity: usize,
    held: Vec<u8>,
    tails: [Vec<u8>; 4],
}

impl Boards {
    /// Blocks of so many bytes.
    fn new(size: usize, capacity: usize) -> Boards {
        Boards { size, capacity, held: Vec::new(), tails: Default::default() }
    }

    fn blocks(&self) -> usize {
        self.held.len() / self.size
    }

    fn feed(&mut self, board: usize, piece: &[u8]) -> Result<(), Refusal> {
        let tail = self.tails.get(board).ok_or(Refusal::Board)?;
        let all = [tail, piece].concat();
        let (whole, rest) = all.split_at(all.len() / self.size * self.size);
        if self.blocks() + whole.len() / self.size > self.capacity {
            return Err(Refusal::Full);
        }
        self.held.extend(whole);
        self.tails[board] = rest.to_vec();
        Ok(())
    }

    /// A sampler's 8 numbers.
    fn numbers(&self, words: usize, bit_order: BitOrder) -> [u64; 8] {
        let tail = |board: usize| self.tails[board].len();
        [8 * self.size, words, self.blocks(), (bit_order == LowFirst) as usize, tail(0), tail(1), tail(2), tail(3)].map(|number| number as u64)
    }

    /// .. and its 2,048 bytes.
    fn unfinished(&self) -> [u8; 2048] {
        let mut bytes = [0; 2048];
        for (places, tail) in bytes.chunks_mut(512).zip(&self.tails) {
            places[..tail.len()].copy_from_slice(tail);
        }
        bytes
    }
}

/// So many words with the bytes in them: bit b of block e is bit e % 64 of word e / 64 in row b.
fn laid(bytes: &[u8], size: usize, bit_order: BitOrder, words: usize) -> Vec<u64> {
    let (row, mut laid) = (words / (8 * size), vec![0; words]);
    for (i, byte) in bytes.iter().enumerate() {
        for r in 0..8 {
            let bit = byte >> (if bit_order == LowFirst { r } else { 7 - r }) & 1;
            laid[(i % size * 8 + r) * row + i / size / 64] |= (bit as u64) << (i / size % 64);
        }
    }
    laid
}

/// Numbers of a small generator.
fn drawn() -> impl FnMut(usize) -> usize {
    let mut state = 1_u64;
    move |below| {
        state = state.wrapping_mul(6364136223846793005).wrapping_add(1442695040888963407);
        (state >> 33) as usize % below
    }
}

fn some_bytes(length: usize) -> Vec<u8> {
    (0..length).map(|i| (i * i % 251 * 37) as u8).collect()
}

#[test]
fn blocks_in_the_order_of_completion() {
    let mut sampler = Sampler::start(16, HighFirst, 64).unwrap();
    for (board, piece) in [(0, &[0x12][..]), (1, &[0x34, 0x56, 0x78]), (0, &[0x9A]), (3, &[0xBC]), (1, &[0xDE, 0xF0])] {
        sampler.feed_board(board, piece).unwrap();
    }
    assert_eq!(sampler.blocks(), 3);
    for (e, block) in [0x3456_u32, 0x129A, 0x78DE].into_iter().enumerate() {
        let mut store = [9; 16];
        sampler.search_with(e..e + 1, 1, &mut store).unwrap();
        assert_eq!(store, std::array::from_fn(|bit| block >> (15 - bit) & 1), "block {e}");
    }
    for (board, tail) in [&[][..], &[0xF0], &[], &[0xBC], &[], &[]].into_iter().enumerate() {
        assert_eq!(sampler.unfinished(board), tail, "board {board}");
    }
    assert_eq!(sampler.unfinished(usize::MAX), []);
    assert_eq!((sampler.feed_board(4, &[0]), sampler.blocks()), (Err(Refusal::Board), 3));
}

/// Drawn feeds, also of boards that are none, empty, and past capacity: every answer, number, byte and word.
#[test]
fn feeds_by_the_rules() {
    let mut draw = drawn();
    for (size, bit_order) in [1, 2, 3, 8, 512].into_iter().flat_map(|size| [(size, HighFirst), (size, LowFirst)]) {
        // Two words to a row, and five past the rows.
        let words = 8 * size * 2 + 5;
        let mut model = Boards::new(size, 128);
        let (mut numbers, mut unfinished, mut lent) = ([9; 10], [9; 2050], vec![9; words]);
        assert_eq!(calls::start(8 * size, bit_order == LowFirst, &mut lent, &mut numbers, &mut unfinished), 0);
        let mut answers = [0; 28];
        for _ in 0..200 {
            let (board, below) = (draw(5), if draw(20) == 0 { 30 * size } else { 2 * size });
            let piece: Vec<u8> = (0..draw(below)).map(|_| draw(256) as u8).collect();
            let expected = model.feed(board, &piece).map_or_else(Refusal::number, |()| 0);
            assert_eq!(calls::feed(&mut numbers, &mut unfinished, &mut lent, board, &piece), expected);
            answers[expected as usize] += 1;
            assert_eq!((&numbers[..8], &numbers[8..]), (&model.numbers(words, bit_order)[..], &[9, 9][..]));
            assert_eq!((&unfinished[..2048], &unfinished[2048..]), (&model.unfinished()[..], &[9, 9][..]));
            assert!(lent == laid(&model.held, size, bit_order, words));
        }
        assert!(answers[0] > 50 && answers[21] > 20 && answers[5] > 20, "{size} bytes: {answers:?}");
    }
}

#[test]
fn interleavings_find_the_same() {
    // Board by board its bytes, none with whole blocks alone.
    let bytes: Vec<u8> = some_bytes(4 * 47);
    let own: Vec<&[u8]> = bytes.chunks(47).collect();
    for bit_order in [HighFirst, LowFirst] {
        let start = || Sampler::start(16, bit_order, 92).unwrap();
        let (mut behind, mut turns, mut backwards) = (start(), start(), start());
        (0..4).for_each(|board| behind.feed_board(board, own[board]).unwrap());
        for at in 0..47 {
            (0..4).for_each(|board| turns.feed_board(board, &own[board][at..at + 1]).unwrap());
        }
        for (cut, board) in (0..16).flat_map(|cut| (0..4).rev().map(move |board| (cut, board))) {
            backwards.feed_board(board, own[board].chunks(3).nth(cut).unwrap()).unwrap();
            assert_eq!(backwards.feed_board(board, &[0; 257]), Err(Refusal::Full));
        }
        for k in 1..5 {
            let found = behind.search(k).unwrap();
            assert_eq!(turns.search(k).as_ref(), Ok(&found), "k {k}");
            assert_eq!(backwards.search(k).as_ref(), Ok(&found), "k {k}");
            // Bin by bin the sum over the boards' own bytes.
            let alone: Vec<Vec<u32>> = own.iter().map(|bytes| found.evaluate(bytes).unwrap().counts).collect();
            let sums: Vec<u32> = (0..1 << k).map(|bin| alone.iter().map(|counts| counts[bin]).sum()).collect();
            assert_eq!((found.counts(), sums.iter().sum::<u32>()), (&sums[..], 92));
        }
        for sampler in [&behind, &turns, &backwards] {
            (0..4).for_each(|board| assert_eq!(sampler.unfinished(board), &own[board][46..]));
        }
    }
}

/// 4 comes before 21 and that before 5; the search has 4 of the same samplers. Everything is as lent.
#[test]
fn other_samplers() {
    const MOST: u64 = u64::MAX;
    let sound = [16, 16, 64, 1, 1, 1, 1, 1];
    let feed = |numbers: [u64; 8], board: usize, length: usize| {
        let (mut lent, mut unfinished, mut words) = (numbers, [9; 2048], [9; 16]);
        let answer = calls::feed(&mut lent, &mut unfinished, &mut words, board, &vec![9; length]);
        assert_eq!((lent, unfinished, words), (numbers, [9; 2048], [9; 16]));
        answer
    };
    // With blocks of 8 bits the boards have a block's unfinished bytes.
    let heads = [(0, 0), (0, 8), (0, 12), (0, 4104), (1, 15), (1, 17), (1, MOST), (2, 65), (2, MOST)];
    let lengths = (4..8).flat_map(|place| [2, 3, 512, 1 << 32, MOST].map(|length| (place, length)));
    for (place, number) in heads.into_iter().chain(lengths) {
        let mut numbers = sound;
        numbers[place] = number;
        for (board, length) in [(0, 0), (3, 1), (3, 300), (4, 0), (4, 300)] {
            assert_eq!(feed(numbers, board, length), Refusal::Sampler.number(), "{numbers:?}");
        }
        let (mut bins, mut order, mut finding) = ([9; 4], [9; 4], [9; 25]);
        let answer = calls::bottomup(&numbers, &[9; 16], 0..64, 2, &mut [], &mut bins, &mut order, &mut finding);
        assert_eq!((answer, bins, order, finding), (Refusal::Sampler.number(), [9; 4], [9; 4], [0; 25]), "{numbers:?}");
    }
    for board in [4, 5, 1 << 32, usize::MAX] {
        assert_eq!((feed(sound, board, 0), feed(sound, board, 300)), (Refusal::Board.number(), Refusal::Board.number()), "board {board}");
    }
    for board in 0..4 {
        assert_eq!((feed(sound, board, 0), feed(sound, board, 1), feed(sound, board, 300)), (0, Refusal::Full.number(), Refusal::Full.number()));
    }
}

#[test]
fn capacity_leaves_unfinished_bytes() {
    let mut sampler = Sampler::start(24, HighFirst, 64).unwrap();
    (0..3).for_each(|board| sampler.feed_board(board, &[board as u8, 7]).unwrap());
    // 64 blocks and what does not make another: two bytes past capacity.
    assert_eq!(sampler.feed_board(3, &[5; 3 * 65]), Err(Refusal::Full));
    sampler.feed_board(3, &[5; 3 * 65 - 1]).unwrap();
    for board in 0..4 {
        assert_eq!(sampler.feed_board(board, &[1]), Err(Refusal::Full), "board {board}");
        sampler.feed_board(board, &[]).unwrap();
        assert_eq!(sampler.unfinished(board), if board == 3 { [5, 5] } else { [board as u8, 7] });
    }
    assert_eq!((sampler.blocks(), sampler.search(1).unwrap().counts().iter().sum()), (64, 64));

    // One board can do so too, a byte at a time.
    let mut sole = Sampler::start(16, HighFirst, 64).unwrap();
    (0..129).for_each(|_| sole.feed(&[5]).unwrap());
    assert_eq!((sole.feed(&[5]), sole.blocks(), sole.unfinished(0)), (Err(Refusal::Full), 64, &[5][..]));
}

/// Every number of unfinished bytes, behind no block, one, a word's and all but one, goes on as a recording that was never carried over.
#[test]
fn carried_over_mid_recording() {
    for (size, bit_order) in [1, 2, 3, 8].into_iter().flat_map(|size| [(size, HighFirst), (size, LowFirst)]) {
        let (block_size, words, bytes) = (8 * size, 8 * size * 2 + 5, some_bytes(128 * size));
        let mut plain = Sampler::start(block_size, bit_order, 128).unwrap();
        plain.feed(&bytes).unwrap();
        let whole = plain.search(2).unwrap();
        for taken in [0, 1, 64, 127].into_iter().flat_map(|blocks| blocks * size..(blocks + 1) * size).chain([128 * size]) {
            let mut model = Boards::new(size, 128);
            model.feed(0, &bytes[..taken]).unwrap();
            let earlier = Earlier { block_size, bit_order, taken, words: laid(&bytes[..taken], size, bit_order, words) };

            let (mut lent, mut numbers, mut unfinished) = (earlier.words.clone(), [9; 10], [9; 2050]);
            let record = [block_size as u64, words as u64, taken as u64, (bit_order == LowFirst) as u64];
            assert_eq!(calls::carry_over(&record, &mut lent, &mut numbers, &mut unfinished), 0);
            assert_eq!((&numbers[..8], &numbers[8..]), (&model.numbers(words, bit_order)[..], &[9, 9][..]), "{taken} taken");
            assert_eq!((&unfinished[..2048], &unfinished[2048..]), (&model.unfinished()[..], &[9, 9][..]), "{taken} taken");
            assert!(lent == laid(&model.held, size, bit_order, words), "{taken} taken");

            let mut sampler = Sampler::carry_over(earlier).unwrap();
            assert_eq!((sampler.block_size(), sampler.bit_order(), sampler.blocks()), (block_size, bit_order, taken / size));
            (0..4).for_each(|board| assert_eq!(sampler.unfinished(board), model.tails[board]));
            bytes[taken..].chunks(7).for_each(|piece| sampler.feed(piece).unwrap());
            assert_eq!((sampler.blocks(), sampler.search(2).as_ref()), (128, Ok(&whole)), "{taken} taken");
        }
    }
}

#[test]
fn other_carry_overs() {
    const MOST: u64 = u64::MAX;
    // All the rest is refused too: a short slice comes before the bit order, and that before what the earlier rule refuses.
    for (earlier, rooms, refusal) in [
        (&[12, 15, MOST][..], (8, 2048), Refusal::ShortRecord), (&[12, 15, MOST, 2], (7, 2048), Refusal::ShortRecord),
        (&[12, 15, MOST, 2], (8, 2047), Refusal::ShortRecord), (&[12, 15, MOST, 2], (8, 2048), Refusal::BitOrder),
        (&[16, 16, 3, MOST], (8, 2048), Refusal::BitOrder),
        (&[0, 16, 0, 1], (8, 2048), Refusal::Sampler), (&[12, 16, 3, 1], (8, 2048), Refusal::Sampler), (&[4104, 16, 3, 1], (8, 2048), Refusal::Sampler),
        (&[16, 15, 3, 1], (8, 2048), Refusal::Sampler), (&[16, 17, 3, 1], (8, 2048), Refusal::Sampler),
        (&[16, 16, 129, 1], (8, 2048), Refusal::Sampler), (&[16, 16, MOST, 1], (8, 2048), Refusal::Sampler), (&[24, 16, 1, 1], (8, 2048), Refusal::Sampler),
    ] {
        let (mut words, mut numbers, mut unfinished) = ([9; 16], [9; 8], [9; 2048]);
        let answer = calls::carry_over(earlier, &mut words, &mut numbers[..rooms.0], &mut unfinished[..rooms.1]);
        // Beside 4 alone a sampler is written, of zeros.
        let left = if refusal == Refusal::Sampler { ([0; 8], [0; 2048]) } else { ([9; 8], [9; 2048]) };
        assert_eq!((answer, words, (numbers, unfinished)), (refusal.number(), [9; 16], left), "{earlier:?}");
    }
    for (block_size, taken) in [(12, 3), (16, 129), (16, usize::MAX), (24, 1)] {
        let earlier = Earlier { block_size, bit_order: LowFirst, taken, words: vec![9; 16] };
        assert_eq!(Sampler::carry_over(earlier.clone()).unwrap_err(), (Refusal::Sampler, earlier));
    }
}
