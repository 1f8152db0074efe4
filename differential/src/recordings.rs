//! Recordings of four boards, fed in pieces, from a start or a carry-over on, and searched, with a store and with none.

use crate::account::Account;
use crate::case::{fewer, same, Checked, Compared};
use crate::ours::{self, sampler_of, Sampler, Searched};
use answers::run::Recording;
use answers::{
    bottomup, capacity, capacity_bytes, choose, evaluate_histogram, high_first, laid, multi_eval, reversed, stored_place, stored_sets, transform_data, valid,
    Draws, Earlier, Finding, Plain, Rows,
};
use std::ops::Range;

pub const LENT: u32 = 0xABCD;

/// How much the reference's layered search of a drawn recording may work, some ten seconds; where it works more, our search with a store is left out.
const WORK: usize = 2_000_000_000;

/// How much that search works: the reference ranks a subset of the layer below for each bin of each layer.
fn layered_work(block_size: usize, k: usize) -> usize {
    (1..=k).map(|d| (choose(block_size, d) << d).saturating_mul(4 + block_size * (d - 1) / 4)).sum()
}

/// How many words of rows may be counted for a store, a row's for each entry: where they are more, some of its counts are compared.
const COUNTED: usize = 200_000_000;

/// The entries that a store needs, where the block has the width and they are at most 2^32.
pub fn store_size(block_size: usize, k: usize) -> Option<usize> {
    if !valid(block_size) || !(1..=20.min(block_size)).contains(&k) {
        return None;
    }
    let size = (1..=(k - 1).max(1)).map(|d| choose(block_size, d)).fold(0, usize::saturating_add);
    (size <= 1 << 32).then_some(size)
}

impl Compared for Recording {
    fn check(&self, searches: &mut Account) -> Checked {
        compare(self, WORK, searches)
    }

    fn smaller(&self) -> Vec<Recording> {
        let mut cases = smaller_stretches(self);
        if self.carried.is_some() {
            cases.push(Recording { carried: None, ..self.clone() });
        }
        for at in 0..self.feeds.len() {
            cases.push(without(self, at));
            cases.extend(merged(self, at));
            for piece in fewer(&self.feeds[at].piece, true) {
                let mut case = self.clone();
                case.feeds[at].piece = piece;
                cases.push(case);
            }
            if self.feeds[at].board != 0 {
                let mut case = self.clone();
                case.feeds[at].board = 0;
                cases.push(case);
            }
        }
        if self.within() {
            cases.iter_mut().for_each(keep_within);
        }
        if self.k > 1 {
            cases.push(Recording { k: self.k - 1, ..self.clone() });
        }
        if self.low_first {
            cases.push(Recording { low_first: false, ..self.clone() });
        }
        if self.mark.is_some() {
            cases.push(Recording { mark: None, ..self.clone() });
        }
        if self.stale.is_some() {
            cases.push(Recording { stale: None, ..self.clone() });
        }
        cases
    }
}

/// The recording without one feed.
fn without(case: &Recording, at: usize) -> Recording {
    let mut case = case.clone();
    case.feeds.remove(at);
    case.carried = case.carried.map(|feeds| if at < feeds { feeds - 1 } else { feeds });
    case
}

/// The recording with one feed behind the one before it, where both are the same board's and on the same side of a carry-over.
fn merged(case: &Recording, at: usize) -> Option<Recording> {
    if at == 0 || case.feeds[at - 1].board != case.feeds[at].board || case.carried == Some(at) {
        return None;
    }
    let mut merged = without(case, at);
    merged.feeds[at - 1].piece.extend(&case.feeds[at].piece);
    Some(merged)
}

/// The recording with stretches of fewer blocks, or of as many nearer to 0.
fn smaller_stretches(case: &Recording) -> Vec<Recording> {
    let Range { start, end } = case.stretch;
    let mut stretches = Vec::new();
    if start < end {
        let middle = start + (end - start) / 2;
        stretches.extend([start..middle, middle..end, start..end - 1, start + 1..end]);
    }
    let nearest = start.min(end);
    if nearest > 0 {
        stretches.extend([nearest, nearest.div_ceil(2), 1].map(|less| start - less..end - less));
    }
    let shorter = stretches.into_iter().filter(|stretch| *stretch != case.stretch);
    shorter.map(|stretch| Recording { stretch, ..case.clone() }).collect()
}

/// A stretch of the recording ends with it, also where blocks were dropped.
fn keep_within(case: &mut Recording) {
    let end = case.stretch.end.min(case.blocks());
    case.stretch = case.stretch.start.min(end)..end;
}

/// Feeds and searches a recording on both sides; where the reference's layered search works more than this, ours with a store is left out. It knows the high
/// bit first alone: where the low bit comes first it is given the bytes with their bits reversed, and so are our own calls, with the high bit first, a second
/// time. It knows one board: it is given the blocks in the order in which they were completed.
pub fn compare(case: &Recording, work: usize, searches: &mut Account) -> Checked {
    if !valid(case.block_size) {
        return refused_start(case);
    }
    let (mut fed, plain) = feed(case)?;
    let held = high_first(&plain.held, case.low_first);
    let mut other = None;
    if case.low_first {
        let (high, there) = feed(&turned(case))?;
        same("blocks held, reversed", there.held == *held, true)?;
        same("words, low first, and high first of the reversed bytes", high.words == fed.words, true)?;
        same("unfinished bytes, reversed", high.unfinished[..] == reversed(&fed.unfinished), true)?;
        other = Some(high);
    }
    spoil(case, &mut fed)?;
    if let Some(other) = &mut other {
        spoil(case, other)?;
    }
    check_words(case.block_size, &fed.words, &held)?;
    let blocks = if case.mark.is_some() { 0 } else { fed.numbers[2] as usize };
    same("the sampler's blocks", fed.blocks(), blocks)?;
    // The reference searches a recording of the stretch's blocks alone; where the stretch is refused it searches nothing.
    let within = case.stretch.start <= case.stretch.end && case.stretch.end <= plain.blocks();
    let size = case.block_size / 8;
    let blocks = if within { Some(&held[case.stretch.start * size..case.stretch.end * size]) } else { None };
    check_searches(case, &fed, other.as_ref(), blocks, work, searches)
}

fn refused_start(case: &Recording) -> Checked {
    let mut sampler = Sampler::lent(case.words);
    same("start's refusal", sampler.start(case.block_size, case.low_first), 1)?;
    same("sampler beside a refusal", (sampler.numbers, sampler.unfinished), ([0; 8], [0; 2048]))?;
    same("words as lent", sampler.words, vec![u64::MAX; case.words])
}

/// The same with the high bit first and its bytes reversed.
fn turned(case: &Recording) -> Recording {
    let mut case = Recording { low_first: false, ..case.clone() };
    for feed in &mut case.feeds {
        feed.piece = reversed(&feed.piece);
    }
    case
}

/// The beginning of a recording and all its feeds, each refusal and sampler as the plain recording has it.
fn feed(case: &Recording) -> Result<(Sampler, Plain), String> {
    let (mut fed, mut plain) = begin(case)?;
    for feed in &case.feeds[case.carried.unwrap_or(0)..] {
        same("feed's refusal", fed.feed_one(feed), plain.feed(feed) as u32)?;
        check_sampler("sampler", &fed, &plain, case.low_first)?;
    }
    Ok((fed, plain))
}

/// A start; or the words and the sampler that the first feeds leave under the earlier rule, and a carry-over.
pub fn begin(case: &Recording) -> Result<(Sampler, Plain), String> {
    let (mut fed, plain) = (Sampler::lent(case.words), case.begun());
    match case.carried {
        None => same("start's refusal", fed.start(case.block_size, case.low_first), 0)?,
        Some(feeds) => {
            let bytes = case.earlier(feeds);
            let earlier = [case.block_size as u64, case.words as u64, bytes.len() as u64, case.low_first as u64];
            fed.words = laid(case.block_size, case.words, case.low_first, &Earlier::of(case.words, bytes));
            refused_carry_overs(case, &fed, earlier)?;
            same("carry-over's refusal", fed.carry_over(&earlier), 0)?;
        }
    }
    check_sampler("sampler at first", &fed, &plain, case.low_first)?;
    Ok((fed, plain))
}

/// In the recordings whose sampler is spoilt later, the earlier sampler is, too: one that says more bytes than capacity, or has no bit order.
fn refused_carry_overs(case: &Recording, lent: &Sampler, earlier: [u64; 4]) -> Checked {
    let mut fed = lent.clone();
    if let Some(mark) = case.mark {
        let spoilt = [earlier[0], earlier[1], earlier[2], mark];
        same("carry-over without a bit order", fed.carry_over(&spoilt), 27)?;
        same("all as lent beside 27", fed == *lent, true)?;
    }
    if case.stale.is_some() {
        let spoilt = [earlier[0], earlier[1], capacity_bytes(case.block_size, case.words) as u64 + 1, earlier[3]];
        same("carry-over past capacity", fed.carry_over(&spoilt), 4)?;
        same("sampler beside 4", (fed.numbers, fed.unfinished), ([0; 8], [0; 2048]))?;
        same("words as lent beside 4", fed.words == lent.words, true)?;
    }
    Ok(())
}

/// All numbers and all unfinished bytes.
pub fn check_sampler(what: &str, fed: &Sampler, plain: &Plain, low_first: bool) -> Checked {
    let (numbers, unfinished) = sampler_of(plain, low_first);
    same(what, fed.numbers, numbers)?;
    let differs = (0..2048).find(|&at| fed.unfinished[at] != unfinished[at]);
    same(&format!("{what}: a place of the unfinished bytes that differs"), differs, None)
}

/// A sampler that says a block more than capacity or a block of unfinished bytes, or has no bit order: a feed is refused, to any board. That it leaves the
/// words as they were shows where these are compared.
fn spoil(case: &Recording, fed: &mut Sampler) -> Checked {
    if let Some(stale) = case.stale {
        if stale < 4 {
            fed.numbers[4 + stale] = case.block_size as u64 / 8;
        } else {
            fed.numbers[2] = capacity(case.block_size, case.words) as u64 + 1;
        }
        refused_feeds("a stale sampler", fed, 4)?;
    }
    if let Some(mark) = case.mark {
        fed.numbers[3] = mark;
        refused_feeds("a sampler without a bit order", fed, 27)?;
    }
    Ok(())
}

fn refused_feeds(what: &str, fed: &mut Sampler, refusal: u32) -> Checked {
    let lent = (fed.numbers, fed.unfinished);
    for board in [0, 3, 4] {
        same(&format!("feed with {what}"), fed.feed(board, &[0xFF]), refusal)?;
        same(&format!("{what} after a feed"), (fed.numbers, fed.unfinished) == lent, true)?;
    }
    Ok(())
}

/// All words: the reference's rows of the blocks held, and 0 everywhere else, so that no unfinished byte stands there.
pub fn check_words(block_size: usize, words: &[u64], held: &[u8]) -> Checked {
    let rows = transform_data(held, block_size);
    let (used, stride) = (rows.num_of_blocks().div_ceil(64), words.len() / block_size);
    for bit in 0..block_size {
        for i in 0..stride {
            same("a row's word", words[bit * stride + i], if i < used { rows.word(bit, i) } else { 0 })?;
        }
    }
    same("the words past the rows", words[block_size * stride..].iter().all(|&word| word == 0), true)
}

/// What a search answers, and the buffers after it.
#[derive(Clone, Debug, PartialEq)]
struct Answer {
    searched: Searched,
    bins: Vec<u32>,
    order: Vec<u32>,
}

impl Answer {
    fn by(case: &Recording, fed: &Sampler, store: &mut [u32]) -> Answer {
        let m = 1_isize << case.k.min(20);
        let (mut bins, mut order) = (vec![LENT; (m + case.bins) as usize], vec![LENT; (m + case.order) as usize]);
        let searched = fed.bottomup(case.stretch.clone(), case.k, store, &mut bins, &mut order);
        Answer { searched, bins, order }
    }

    /// The same with the high bit first, where something was found.
    fn high_first(mut self) -> Answer {
        if self.searched.refusal == 0 {
            self.searched.finding[24] = 0;
        }
        self
    }
}

/// What a search with this store answers. `other` is the same recording with the high bit first and its bytes reversed, where the low bit comes first: its
/// search has to answer and to leave the same but for the mark.
fn search(case: &Recording, fed: &Sampler, other: Option<&Sampler>, store: &mut [u32]) -> Result<Answer, String> {
    let mut there = store.to_vec();
    let answer = Answer::by(case, fed, store);
    if let Some(other) = other {
        same("low first, and high first of the reversed bytes", &answer.clone().high_first(), &Answer::by(case, other, &mut there))?;
        same("store, low first, and high first of the reversed bytes", store == there, true)?;
    }
    Ok(answer)
}

/// With no store, against the reference's direct search; then with one, against its layered search, whether the store suffices or is too short. `blocks` are
/// those of the stretch, where the recording has it.
fn check_searches(
    case: &Recording, fed: &Sampler, other: Option<&Sampler>, blocks: Option<&[u8]>, work: usize, searches: &mut Account,
) -> Checked {
    let size = store_size(case.block_size, case.k);
    same("the entries that a store needs", ours::store_needed(case.block_size, case.k), size.unwrap_or(0))?;
    let expected = refusal(case, blocks.is_some());
    let blocks = blocks.unwrap_or(&[]);
    let direct = search(case, fed, other, &mut [])?;
    check_answer(case, "no store", 1, expected, blocks, &direct)?;
    searches.add(entry(None, expected), true);

    let suffices = size.is_some() && case.store >= 0;
    if size.is_some() && layered_work(case.block_size, case.k) > work {
        searches.add(entry(Some(suffices), expected), false);
        return Ok(());
    }
    let draws = &mut of_case(case);
    let lent = drawn_entries(draws, (size.unwrap_or(2) as isize + case.store) as usize);
    let mut store = lent.clone();
    let found = search(case, fed, other, &mut store)?;
    // Without a size there is no layered search there either.
    check_answer(case, "a store", if size.is_some() { 0 } else { 1 }, expected, blocks, &found)?;
    same("the answers with a store and with none", &found, &direct)?;
    let written = if suffices && expected == 0 { size.unwrap() } else { 0 };
    same("a place of the store that is not as lent", (written..lent.len()).find(|&at| store[at] != lent[at]), None)?;
    if written > 0 {
        check_counts(case, draws, blocks, &store[..written])?;
    }
    searches.add(entry(Some(suffices), expected), true);
    Ok(())
}

/// Draws that go by the case alone, so that it differs again where it has differed.
fn of_case(case: &Recording) -> Draws {
    let numbers = [case.block_size, case.k, case.words, case.bytes(), case.stretch.start, case.stretch.end];
    Draws::new(numbers.into_iter().fold(0, |seed, number| Draws::new(seed ^ number as u64).next()))
}

fn drawn_entries(draws: &mut Draws, entries: usize) -> Vec<u32> {
    (0..entries).map(|_| draws.next() as u32).collect()
}

/// That a store holds, for each set of fewer bits, how many blocks have all of them set, as the reference counts them in its rows.
fn check_counts(case: &Recording, draws: &mut Draws, blocks: &[u8], store: &[u32]) -> Checked {
    let (block_size, k) = (case.block_size, case.k);
    let rows = transform_data(blocks, block_size);
    if store.len().saturating_mul(rows.row(0).len()) > COUNTED {
        return drawn_sets(draws, block_size, k).iter().try_for_each(|bits| check_count(&rows, bits, store[stored_place(block_size, bits)]));
    }
    let mut places = 0;
    for bits in stored_sets(block_size, k) {
        check_count(&rows, &bits, store[places])?;
        places += 1;
    }
    same("the store's size", store.len(), places)
}

fn check_count(rows: &Rows, bits: &[usize], count: u32) -> Checked {
    let expected = multi_eval(bits, rows);
    if count as usize == expected { Ok(()) } else { same(&format!("the store's count of bits {bits:?}"), count as usize, expected) }
}

/// Of each size the first set, the last and some drawn ones, a few hundred in all.
fn drawn_sets(draws: &mut Draws, block_size: usize, k: usize) -> Vec<Vec<usize>> {
    let widest = (k - 1).max(1);
    let mut sets = Vec::new();
    for d in 1..=widest {
        sets.extend([(0..d).collect(), (block_size - d..block_size).collect()]);
        sets.extend((0..400 / widest).map(|_| draws.subset(block_size, d)));
    }
    sets
}

/// What a search is entered as: with no store, or with one and whether it suffices.
fn entry(suffices: Option<bool>, refusal: u32) -> &'static str {
    match (suffices, refusal) {
        (None, 0) => "searches, no store",
        (None, _) => "searches, no store, refused",
        (Some(true), 0) => "searches, a store",
        (Some(false), 0) => "searches, a store too short",
        (Some(_), _) => "searches, a store, refused",
    }
}

/// The first refusal that applies to a search, of a stretch that the recording has or has not; the store has none.
fn refusal(case: &Recording, within: bool) -> u32 {
    if case.mark.is_some() {
        27
    } else if case.stale.is_some() {
        4
    } else if !within {
        18
    } else if case.k == 0 || case.k > 20 {
        2
    } else if case.k > case.block_size {
        3
    } else if case.bins < 0 || case.order < 0 {
        7
    } else {
        0
    }
}

/// `blocks` are those of the stretch with the high bit first.
fn check_answer(case: &Recording, name: &str, threads: usize, refusal: u32, blocks: &[u8], answer: &Answer) -> Checked {
    let Answer { searched, bins, order } = answer;
    same(&format!("{name}: refusal"), searched.refusal, refusal)?;
    if refusal != 0 {
        // Beside 27 nothing is written.
        let beside = if refusal == 27 { ours::LENT } else { 0 };
        same(&format!("{name}: finding beside a refusal"), searched.finding, [beside; 25])?;
        return same(&format!("{name}: buffers as lent"), bins.iter().chain(order).all(|&entry| entry == LENT), true);
    }
    let found = bottomup(blocks, case.block_size, case.k, threads)?;
    same(&format!("{name}: finding"), searched.finding, numbers_in(&found, case.low_first))?;
    let counts = evaluate_histogram(&found, blocks).bins;
    same(&format!("{name}: counts"), bins.to_vec(), entries(&counts, bins.len()))?;
    same(&format!("{name}: order"), order.to_vec(), entries(&found.order, order.len()))
}

/// A finding of the reference as our 25 numbers, the high bit first.
pub fn numbers(found: &Finding) -> [u64; 25] {
    numbers_in(found, false)
}

/// The same in a bit order.
pub fn numbers_in(found: &Finding, low_first: bool) -> [u64; 25] {
    let mut numbers = [0; 25];
    numbers[..4].copy_from_slice(&[
        found.block_size as u64,
        found.bits.len() as u64,
        found.division as u64,
        found.z.to_bits(),
    ]);
    for (number, &bit) in numbers[4..24].iter_mut().zip(&found.bits) {
        *number = bit as u64;
    }
    numbers[24] = low_first as u64;
    numbers
}

/// A buffer of so many entries that begins with these and has the rest as lent.
fn entries(first: &[usize], len: usize) -> Vec<u32> {
    first.iter().map(|&entry| entry as u32).chain(vec![LENT; len - first.len()]).collect()
}
