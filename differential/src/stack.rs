//! The stack that each of our calls takes at its widest, measured: a call runs on a thread whose stack is painted before, and what it took reaches from
//! the thread's own frame down to the last word that is no longer paint. No reference is needed.

use crate::ours::Sampler;
use crate::recordings::numbers;
use answers::run::sound;
use answers::{configurations, to_json, with_low_first, Draws};
use jimrawel::calls;
use std::ffi::c_void;
use std::sync::atomic::{AtomicBool, AtomicUsize, Ordering};
use std::{hint::black_box, process::exit, ptr, thread, time::Duration, time::Instant};

/// What include/jimrawel.h says that a thread needs, in KB. The last quarter is kept for the thread itself and for another compiler or C library.
const PROMISED: usize = 160;

/// Words of the painted stack, and the paint.
const WORDS: usize = 1 << 17;
const PAINT: u64 = 0xA5C3_96E1_5A3C_691E;

/// How long a call may run before the stack is looked at: one that takes hours has been at its deepest by then, with its first set of bits.
const SECONDS: u64 = 20;

/// Whether the low bit comes first, and how a row says so.
const BIT_ORDERS: [(bool, &str); 2] = [(false, ""), (true, ", low first")];

/// A call that is measured: where its thread's own frame lies, and whether it has returned.
struct Measured {
    call: Box<dyn FnMut()>,
    top: AtomicUsize,
    returned: AtomicBool,
}

/// Room for what the C library keeps of a thread to be made.
#[repr(C)]
struct Attributes([u64; 16]);

extern "C" {
    fn pthread_attr_init(attributes: *mut Attributes) -> i32;
    fn pthread_attr_setstack(attributes: *mut Attributes, stack: *mut c_void, bytes: usize) -> i32;
    fn pthread_create(thread: *mut usize, attributes: *const Attributes, run: extern "C" fn(*mut c_void) -> *mut c_void, of: *mut c_void) -> i32;
}

extern "C" fn make(measured: *mut c_void) -> *mut c_void {
    let measured: *mut Measured = measured.cast();
    let frame = 0_u64;
    unsafe {
        (*measured).top.store(black_box(&frame) as *const u64 as usize, Ordering::SeqCst);
        ((*measured).call)();
        (*measured).returned.store(true, Ordering::SeqCst);
    }
    ptr::null_mut()
}

/// The bytes that a call takes, and whether it has returned. Nothing is freed: a call that is not waited for still uses its stack.
fn measure(call: Box<dyn FnMut()>) -> (usize, bool) {
    let measured = Box::into_raw(Box::new(Measured { call, top: AtomicUsize::new(0), returned: AtomicBool::new(false) }));
    let returned = || unsafe { (*measured).returned.load(Ordering::SeqCst) };
    let stack = vec![PAINT; WORDS + 8].leak().as_mut_ptr();
    let aligned = (stack as usize).next_multiple_of(64) as *mut u64;
    let (mut attributes, mut thread) = (Attributes([0; 16]), 0);
    unsafe {
        assert_eq!(pthread_attr_init(&mut attributes), 0);
        assert_eq!(pthread_attr_setstack(&mut attributes, aligned.cast(), 8 * WORDS), 0);
        assert_eq!(pthread_create(&mut thread, &attributes, make, measured.cast()), 0);
    }
    let start = Instant::now();
    while !returned() && start.elapsed() < Duration::from_secs(SECONDS) {
        thread::sleep(Duration::from_millis(2));
    }
    let untouched = (0..WORDS).take_while(|&i| unsafe { aligned.add(i).read_volatile() } == PAINT).count();
    let top = unsafe { (*measured).top.load(Ordering::SeqCst) };
    (top - (aligned as usize + 8 * untouched), returned())
}

struct Table {
    most: usize,
    calls: usize,
}

impl Table {
    fn row(&mut self, call: &str, at: &str, made: impl FnMut() + 'static) {
        let (bytes, returned) = measure(Box::new(made));
        println!("| {call} | {at}{} | {bytes} |", if returned { "" } else { ", not ended" });
        self.most = self.most.max(bytes);
        self.calls += 1;
    }
}

pub fn run() {
    let mut table = Table { most: 0, calls: 0 };
    println!("| Call | At | Bytes of stack |");
    println!("|---|---|---|");
    feeding(&mut table);
    ranking(&mut table);
    judging(&mut table);
    for (block_size, k, blocks) in [(8, 1, 40_000), (8, 8, 40_000), (16, 16, 40_000), (4096, 1, 65), (512, 3, 65), (4096, 2, 65)] {
        search(&mut table, true, block_size, k, blocks);
    }
    for (block_size, k, blocks) in [(8, 1, 40_000), (8, 8, 40_000), (16, 16, 40_000), (4096, 1, 65), (4096, 2, 65), (24, 20, 65)] {
        search(&mut table, false, block_size, k, blocks);
    }
    for (block_size, bytes) in [(8, 80_000), (4096, 66_560)] {
        for stored in [true, false] {
            sweep(&mut table, stored, block_size, bytes);
        }
    }
    for (block_size, k, blocks) in [(24, 20, 65), (4096, 3, 65)] {
        search(&mut table, true, block_size, k, blocks);
    }
    println!("{} bytes at the most in {} calls, {} promised", table.most, table.calls, 1024 * PROMISED);
    exit(if table.most > 1024 * PROMISED * 3 / 4 { 1 } else { 0 });
}

/// A sampler that has taken drawn bytes, all of board 0.
fn fed(block_size: usize, blocks: usize) -> Sampler {
    let mut sampler = Sampler::started(block_size, false, block_size * blocks.div_ceil(64));
    assert_eq!(sampler.feed(0, &Draws::new(3).bytes(blocks * block_size / 8)), 0);
    sampler
}

fn feeding(table: &mut Table) {
    for block_size in [8, 4096] {
        let mut sampler = Sampler::lent(1 << 20);
        table.row("jimrawel_start", &format!("B {block_size}"), move || assert_eq!(sampler.start(black_box(block_size), black_box(true)), 0));
        let sampler = fed(block_size, 65);
        table.row("jimrawel_blocks", &format!("B {block_size}"), move || assert_eq!(black_box(&sampler).blocks(), 65));
        for (low_first, name) in BIT_ORDERS {
            let mut sampler = Sampler::started(block_size, low_first, 1 << 20);
            let pieces = [1, 0, 777, 100_000].map(|bytes| Draws::new(3).bytes(bytes));
            table.row("jimrawel_feed", &format!("B {block_size}{name}"), move || {
                for (piece, board) in pieces.iter().flat_map(|piece| (0..4).map(move |board| (piece, board))) {
                    assert_eq!(sampler.feed(board, black_box(piece)), 0);
                }
            });
            // As many unfinished bytes as there can be.
            let taken = block_size as u64 / 8 * 66 - 1;
            let mut sampler = Sampler::lent(2 * block_size);
            table.row("jimrawel_carry_over", &format!("B {block_size}{name}"), move || {
                assert_eq!(sampler.carry_over(black_box(&[block_size as u64, 2 * block_size as u64, taken, low_first as u64])), 0);
            });
        }
    }
}

/// With a store that suffices, or with none.
fn search(table: &mut Table, stored: bool, block_size: usize, k: usize, blocks: usize) {
    let Sampler { numbers, words, .. } = fed(block_size, blocks);
    let (entries, with) = if stored { (calls::store_needed(block_size, k), "a store") } else { (0, "no store") };
    let (mut store, mut bins, mut order, mut finding) = (vec![0; entries], vec![0; 1 << k], vec![0; 1 << k], [0; 25]);
    table.row("jimrawel_bottomup", &format!("B {block_size}, k {k}, {blocks} blocks, {with}"), move || {
        assert_eq!(calls::bottomup(&numbers, &words, 0..blocks, k, &mut store, &mut bins, &mut order, &mut finding), 0);
    });
}

/// With a store that suffices for every pair, or with none. At a level whose shares are 0 no pair is rejected, and every one is tested.
fn sweep(table: &mut Table, stored: bool, block_size: usize, bytes: usize) {
    let (raw, pairs) = (Draws::new(3).bytes(bytes), configurations(block_size, bytes));
    let words = pairs.iter().map(|&(size, _)| size * (bytes / (size / 8) / 2).div_ceil(64)).max().unwrap();
    let entries = pairs.iter().map(|&(size, k)| calls::store_needed(size, k)).max().unwrap();
    let (entries, with) = if stored { (entries, "a store") } else { (0, "no store") };
    let (mut words, mut store, mut bins, mut order, mut scratch) = (vec![0; words], vec![0; entries], vec![0; 256], vec![0; 256], vec![0; 256]);
    let (mut entries, mut swept) = (vec![0; 4097], vec![0; 60]);
    table.row("jimrawel_sweep", &format!("B {block_size}, {bytes} bytes, {with}"), move || {
        let refusal = calls::sweep(
            &raw, block_size, true, 1, &mut words, &mut store, &mut bins, &mut order, &mut scratch, &mut entries, &mut swept,
        );
        assert_eq!((refusal, swept[1] as usize), (0, pairs.len()));
    });
}

fn ranking(table: &mut Table) {
    for (block_size, k) in [(4096, 2), (32, 20)] {
        let (bits, mut rank): (Vec<u32>, _) = ((block_size as u32 - k..block_size as u32).collect(), 0);
        table.row("jimrawel_compute_index", &format!("B {block_size}, k {k}"), move || {
            assert_eq!(calls::compute_index(block_size, black_box(&bits), &mut rank), 0);
        });
    }
    for (block_size, k, entries) in [(64, 5, 679_120), (24, 20, 16_764_264), (4096, 20, 0)] {
        table.row("jimrawel_store_needed", &format!("B {block_size}, k {k}"), move || {
            assert_eq!(calls::store_needed(black_box(block_size), black_box(k)), entries);
        });
    }
    for (k, end) in [(1, 5), (7, 5), (8, 5), (20, 5), (20, 4000)] {
        let mut draws = Draws::new(4);
        let bins: Vec<u32> = (0..1 << k).map(|_| draws.below(end) as u32).collect();
        let (mut order, mut ranked) = (vec![0; 1 << k], [0; 2]);
        table.row("jimrawel_from_bins", &format!("k {k}, counts below {end}"), move || {
            assert_eq!(calls::from_bins(k, black_box(&bins), &mut order, &mut ranked), 0);
        });
    }
}

fn judging(table: &mut Table) {
    for (block_size, k) in [(8, 1), (24, 20), (4096, 20)] {
        let bits = Draws::new(5).subset(block_size, k);
        let mut finding = [0; 25];
        finding[..3].copy_from_slice(&[block_size as u64, k as u64, 1]);
        for (number, bit) in finding[4..24].iter_mut().zip(bits) {
            *number = bit as u64;
        }
        let order: Vec<u32> = (0..1 << k).rev().collect();
        let (again, mut scratch) = (order.clone(), vec![0; 1 << k]);
        table.row("jimrawel_validate", &format!("B {block_size}, k {k}"), move || {
            assert_eq!(calls::validate(black_box(&finding), &again, &mut scratch), 0);
        });
        for (low_first, name) in BIT_ORDERS {
            let (order, bytes, mut scratch, mut evaluated) = (order.clone(), Draws::new(6).bytes(100_000), vec![0; 1 << k], [0; 3]);
            finding[24] = low_first as u64;
            table.row("jimrawel_evaluate_histogram", &format!("B {block_size}, k {k}{name}"), move || {
                assert_eq!(calls::evaluate_histogram(black_box(&finding), &order, &bytes, &mut scratch, &mut evaluated), 0);
            });
        }
    }
    for (n, k, d) in [(0, 1, 1), (4096, 1, 1), (4096, 20, 349_525)] {
        let (mut scratch, mut low, mut high) = (vec![0; n + 1], 0, 0);
        table.row("jimrawel_bracket", &format!("n {n}, k {k}"), move || {
            assert_eq!(calls::bracket(black_box(n), n / 2, black_box(k), black_box(d), &mut scratch, &mut low, &mut high), 0);
        });
    }
    for k in [1, 20] {
        let finding = sound(&mut Draws::new(7), k);
        let (numbers, text) = (numbers(&finding), with_low_first(&to_json(&finding), false).into_bytes());
        let order: Vec<u32> = finding.order.iter().map(|&bin| bin as u32).collect();
        let (mut scratch, mut out, mut length) = (vec![0; 1 << k], vec![0; calls::longest_text(k)], 0);
        table.row("jimrawel_write_finding", &format!("k {k}"), move || {
            assert_eq!(calls::write_finding(black_box(&numbers), &order, &mut scratch, &mut out, &mut length), 0);
        });
        let (mut order, mut scratch, mut read) = (vec![0; 1 << k], vec![0; 1 << k], [0; 25]);
        table.row("jimrawel_read_finding", &format!("k {k}"), move || {
            assert_eq!(calls::read_finding(black_box(&text), &mut order, &mut scratch, &mut read), 0);
        });
        table.row("jimrawel_longest_text", &format!("k {k}"), move || assert!(calls::longest_text(black_box(k)) > 0));
    }
    for block_size in [8, 4096] {
        let (raw, mut lengths, mut plan) = (vec![0; 100_000], [0; 2], [0; 15]);
        table.row("jimrawel_whole_blocks", &format!("B {block_size}"), move || {
            assert_eq!(calls::whole_blocks(black_box(&raw), block_size, true, &mut lengths), 0);
        });
        table.row("jimrawel_configurations", &format!("B {block_size}"), move || {
            assert_eq!(calls::configurations(black_box(block_size), 1_000_000, &mut plan), 0);
        });
    }
}
