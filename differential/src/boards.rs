//! The same bytes of four boards, fed in two orders, on words of their own, with refused feeds between and, in one of them, a carry-over: the searches of both
//! have to answer the same, which is the reference's answer on the blocks of either order, and its counts the sums of those over each board's own blocks.

use crate::account::{Account, Run};
use crate::case::{same, shrink, Checked, Compared};
use crate::ours::{Sampler, Searched};
use crate::recordings::{begin, check_sampler, numbers_in, store_size, LENT};
use answers::run::{bit_orders, start_of, Case, Recording};
use answers::{bottomup, capacity, capacity_bytes, dealt, evaluate_histogram, high_first, recording, Draws, Feed, Finding, Plain};
use std::collections::BTreeMap;

/// Block sizes and the greatest widths at which they are searched.
const SIZES: [(usize, usize); 6] = [(8, 8), (8, 4), (16, 4), (24, 3), (32, 2), (64, 2)];

/// Each board's bytes, the two recordings of them, and where the feeds are drawn from that a spoilt sampler refuses.
#[derive(Debug)]
struct Boards {
    bytes: [Vec<u8>; 4],
    orders: [Recording; 2],
    start: u64,
}

/// What the closing lines count.
type Tally = BTreeMap<String, usize>;

pub fn run(seed: u64, cases: u64) {
    println!("boards: seed {seed}, {cases} cases, each in two orders");
    let (mut run, mut tally) = (Run::new(), Tally::new());
    for number in 0..cases {
        let case = Boards::draw(start_of(seed, number));
        let mut searches = Account::default();
        if let Err(what) = case.check(&mut searches, &mut tally) {
            println!("case {number} differs: {what}");
            case.tell();
            run.fail();
        }
        run.enter(if case.orders[0].low_first { "boards, low first" } else { "boards" }, searches);
    }
    for (what, times) in tally {
        println!("{what}: {times}");
    }
    run.close(&format!("boards, seed {seed}"));
}

impl Boards {
    fn draw(start: u64) -> Boards {
        let draws = &mut Draws::new(start);
        let (block_size, widest) = SIZES[draws.below(SIZES.len())];
        let (k, low_first) = (1 + draws.below(widest), bit_orders(start).below(2) == 1);
        let bytes = drawn_bytes(draws, block_size / 8);
        let pieces = bytes.each_ref().map(|bytes| cut(draws, block_size, bytes));
        // The same pieces, or the same bytes in others.
        let others = if draws.below(2) == 0 { pieces.clone() } else { bytes.each_ref().map(|bytes| cut(draws, block_size, bytes)) };
        let carry_over = draws.below(2) == 0;
        let orders = [(pieces, false), (others, carry_over)].map(|(pieces, carry_over)| {
            let words = block_size * (1 + draws.below(3)) + draws.below(block_size);
            let carried = carry_over.then(|| fitting(draws, &pieces[0], capacity_bytes(block_size, words)));
            let feeds = in_turns(draws, pieces, carried.unwrap_or(0));
            let case = with_refused(draws, Recording { carried, ..Recording::of(block_size, words, feeds, 0) });
            let [bins, order, store] = [draws.below(3), draws.below(3), draws.below(4)].map(|more| more as isize);
            Recording { stretch: 0..case.blocks(), k, bins, order, store: store - 1, low_first, ..case }
        });
        Boards { bytes, orders, start: draws.next() }
    }

    fn check(&self, searches: &mut Account, tally: &mut Tally) -> Checked {
        self.orders.iter().try_for_each(|order| order.check(searches))?;
        let draws = &mut Draws::new(self.start);
        let [one, other] = &self.orders;
        let (fed, plain) = feed(draws, one, tally)?;
        let (fed_there, plain_there) = feed(draws, other, tally)?;
        let answer = search(one, &fed);
        same("the answers in both orders", &answer, &search(other, &fed_there))?;
        let found = self.found(&plain)?;
        same("the reference's findings in both orders", &found, &self.found(&plain_there)?)?;
        same("the finding", answer.searched, Searched { refusal: 0, finding: numbers_in(&found, one.low_first) })?;
        same("the bins' order", answer.order, found.order.iter().map(|&bin| bin as u32).collect())?;
        same("the counts", answer.counts, self.counts(&found))?;
        self.check_boards(&plain, &plain_there)?;
        let mut count = |what: &str, times| *tally.entry(what.into()).or_default() += times;
        count("cases with a carry-over", other.carried.is_some() as usize);
        count("cases whose blocks stand in two orders", (plain.held != plain_there.held) as usize);
        count("blocks", plain.blocks() + plain_there.blocks());
        Ok(())
    }

    /// What the reference finds in the blocks in the order completed.
    fn found(&self, plain: &Plain) -> Result<Finding, String> {
        let Recording { block_size, k, low_first, .. } = self.orders[0];
        bottomup(&high_first(&plain.held, low_first), block_size, k, 1)
    }

    /// Bin by bin the sum of the reference's counts over each board's own whole blocks.
    fn counts(&self, found: &Finding) -> Vec<u32> {
        let mut sums = vec![0; found.order.len()];
        for bytes in &self.bytes {
            let whole = bytes.len() - bytes.len() % (found.block_size / 8);
            let counts = evaluate_histogram(found, &high_first(&bytes[..whole], self.orders[0].low_first)).bins;
            sums.iter_mut().zip(counts).for_each(|(sum, count)| *sum += count as u32);
        }
        sums
    }

    /// That n is the sum over the boards, and a board's unfinished bytes are those past its whole blocks.
    fn check_boards(&self, plain: &Plain, other: &Plain) -> Checked {
        let size = plain.block_size / 8;
        let blocks = self.bytes.iter().map(|bytes| bytes.len() / size).sum();
        same("blocks", [plain.blocks(), other.blocks()], [blocks; 2])?;
        let tails = self.bytes.each_ref().map(|bytes| bytes[bytes.len() / size * size..].to_vec());
        same("unfinished bytes", [&plain.tails, &other.tails], [&tails; 2])
    }

    /// The recording that differs by itself, made smaller, or the whole case.
    fn tell(&self) {
        for order in &self.orders {
            if order.check(&mut Account::default()).is_err() {
                println!("made smaller: {:?}", shrink(Case::Recording(order.clone())));
                return;
            }
        }
        println!("{self:?}");
    }
}

/// Bytes of few values or a short period for each board, a few blocks and a part of one; one of four boards has none. In one of ten cases the last board has so
/// many that there are 64 blocks in all, as many as the fewest words hold.
fn drawn_bytes(draws: &mut Draws, size: usize) -> [Vec<u8>; 4] {
    let mut lengths = [0; 4].map(|_: usize| if draws.below(4) == 0 { 0 } else { draws.below(12) * size + draws.below(size) });
    if draws.below(10) == 0 {
        lengths[3] += (64 - lengths.iter().map(|length| length / size).sum::<usize>()) * size;
    }
    lengths.map(|length| {
        let kind = [0, 3, 4, 5][draws.below(4)];
        recording(draws, kind, length)
    })
}

fn cut(draws: &mut Draws, block_size: usize, bytes: &[u8]) -> Vec<Vec<u8>> {
    dealt(draws, block_size, bytes, 20).into_iter().map(|feed| feed.piece).collect()
}

/// A drawn number of the first pieces that the earlier rule takes.
fn fitting(draws: &mut Draws, pieces: &[Vec<u8>], capacity: usize) -> usize {
    let mut held = 0;
    let most = pieces.iter().take_while(|piece| {
        held += piece.len();
        held <= capacity
    });
    draws.below(most.count() + 1)
}

/// So many of board 0's pieces first; then the boards in drawn turns.
fn in_turns(draws: &mut Draws, pieces: [Vec<Vec<u8>>; 4], first: usize) -> Vec<Feed> {
    let mut left = pieces.map(|pieces| pieces.into_iter());
    let mut feeds: Vec<Feed> = left[0].by_ref().take(first).map(|piece| Feed { board: 0, piece }).collect();
    while left.iter().any(|pieces| pieces.len() > 0) {
        let board = draws.below(4);
        feeds.extend(left[board].next().map(|piece| Feed { board, piece }));
    }
    feeds
}

/// The recording with feeds between that complete a block or more too many, and with boards that there are not.
fn with_refused(draws: &mut Draws, case: Recording) -> Recording {
    let (mut plain, size) = (case.begun(), case.block_size / 8);
    let mut feeds = case.feeds.clone();
    for feed in feeds.split_off(case.carried.unwrap_or(0)) {
        if draws.below(6) == 0 {
            let board = draws.below(4);
            let left = (capacity(case.block_size, case.words) + 1 - plain.blocks()) * size - plain.tails[board].len();
            let more = draws.below(9);
            feeds.push(Feed { board, piece: draws.bytes(left + more) });
        }
        if draws.below(8) == 0 {
            let (board, bytes) = ([4, 5, 255, 256, 1 << 32, usize::MAX][draws.below(6)], draws.below(20));
            feeds.push(Feed { board, piece: draws.bytes(bytes) });
        }
        plain.feed(&feed);
        feeds.push(feed);
    }
    Recording { feeds, ..case }
}

/// All feeds, some of them first with a spoilt sampler.
fn feed(draws: &mut Draws, case: &Recording, tally: &mut Tally) -> Result<(Sampler, Plain), String> {
    let (mut fed, mut plain) = begin(case)?;
    let mut refused = |refusal: u32| {
        if refusal != 0 {
            *tally.entry(format!("feeds refused with {refusal}")).or_default() += 1;
        }
    };
    for feed in &case.feeds[case.carried.unwrap_or(0)..] {
        if draws.below(8) == 0 {
            refuse_spoilt(draws, &mut fed, feed)?;
            refused(4);
        }
        let refusal = fed.feed_one(feed);
        refused(refusal);
        same("feed's refusal", refusal, plain.feed(feed) as u32)?;
        check_sampler("sampler", &fed, &plain, case.low_first)?;
    }
    Ok((fed, plain))
}

/// A sampler with another block size, another number of words, a block more than capacity or a block of unfinished bytes refuses every feed, all as lent.
fn refuse_spoilt(draws: &mut Draws, fed: &mut Sampler, feed: &Feed) -> Checked {
    let sound = fed.clone();
    let [block_size, words] = [sound.numbers[0] as usize, sound.words.len()];
    let (at, number) = match draws.below(4) {
        0 => (0, [0, 12, 4104][draws.below(3)]),
        1 => (1, words + 1),
        2 => (2, capacity(block_size, words) + 1),
        _ => (4 + draws.below(4), block_size / 8),
    };
    fed.numbers[at] = number as u64;
    let lent = fed.clone();
    same("feed with a spoilt sampler", fed.feed_one(feed), 4)?;
    same("all as lent", *fed == lent, true)?;
    *fed = sound;
    Ok(())
}

/// What the search of all blocks answers, and the counts and the order that it leaves.
#[derive(Debug, PartialEq)]
struct Answer {
    searched: Searched,
    counts: Vec<u32>,
    order: Vec<u32>,
}

fn search(case: &Recording, fed: &Sampler) -> Answer {
    let (m, size) = (1 << case.k, store_size(case.block_size, case.k).unwrap() as isize);
    let (mut counts, mut order) = (vec![LENT; m + case.bins as usize], vec![LENT; m + case.order as usize]);
    let searched = fed.bottomup(0..fed.blocks(), case.k, &mut vec![LENT; (size + case.store) as usize], &mut counts, &mut order);
    counts.truncate(m);
    order.truncate(m);
    Answer { searched, counts, order }
}
