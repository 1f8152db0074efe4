//! Recordings full of ties, of one board or several, about the ends of words and of chunks of marks long, each searched in several stretches at these places.

use crate::account::Run;
use crate::compare_one;
use answers::run::{bit_orders, boards, start_of, Case, Recording};
use answers::Draws;

/// Drawn stretches of a recording; beside them it is searched whole.
const STRETCHES: usize = 7;

pub fn run(seed: u64, recordings: u64) {
    println!("stretches: seed {seed}, {recordings} recordings, each whole and in {STRETCHES} stretches");
    let mut run = Run::new();
    for number in 0..recordings {
        let start = start_of(seed, number);
        let (draws, orders) = (&mut Draws::new(start), &mut bit_orders(start));
        let recording = Recording::tied(draws).on_boards(&mut boards(start));
        let parts: Vec<Recording> = (0..STRETCHES).map(|_| recording.in_part(draws)).collect();
        for searched in [vec![recording], parts].concat() {
            let searched = searched.in_bit_order(orders);
            compare_one(&mut run, kind(&searched), number, Case::Recording(searched));
        }
    }
    run.close(&format!("stretches, seed {seed}"));
}

fn kind(recording: &Recording) -> &'static str {
    let n = recording.blocks();
    if !recording.within() {
        "stretches refused"
    } else if recording.stretch == (0..n) {
        "stretches of all blocks"
    } else if recording.stretch.is_empty() {
        "stretches of no block"
    } else if n > 32_000 {
        "stretches of long recordings"
    } else if n > 4_000 {
        "stretches of recordings about 4,096 blocks long"
    } else {
        "stretches of short recordings"
    }
}
