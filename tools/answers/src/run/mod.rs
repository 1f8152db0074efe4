//! The cases of the differential run. They are drawn here and compared in `differential/`; the first of one run are stored with their answers too.

mod exchange;
mod judging;
mod rankings;
mod recordings;

pub use exchange::{sound, Exchange};
pub use judging::{Judged, Plan, Split};
pub use rankings::{Rank, Ranking};
pub use recordings::{Recording, STORE_SLACK};

use crate::Draws;

/// One case of any kind.
#[derive(Clone, Debug)]
pub enum Case {
    Recording(Recording),
    Ranking(Ranking),
    Rank(Rank),
    Judged(Judged),
    Split(Split),
    Plan(Plan),
}

impl Case {
    /// A case of the run with a seed, drawn from the seed and its number alone. One of a thousand is a long recording. The boards have draws of their own, and so
    /// have the stretch that is searched and the bit order, on which nothing else of a case depends.
    pub fn of_run(seed: u64, number: u64) -> Case {
        let start = start_of(seed, number);
        let draws = &mut Draws::new(start);
        let case = if number % 1000 == 999 { Case::Recording(Recording::long(draws)) } else { Case::draw(draws) };
        match case {
            Case::Recording(drawn) => {
                let drawn = drawn.on_boards(&mut boards(start));
                Case::Recording(drawn.whole_or_part(&mut Draws::new(!start)).in_bit_order(&mut bit_orders(start)))
            }
            Case::Judged(drawn) => Case::Judged(drawn.in_bit_order(&mut bit_orders(start))),
            other => other,
        }
    }

    fn draw(draws: &mut Draws) -> Case {
        match draws.below(20) {
            0..=9 => Case::Recording(Recording::draw(draws)),
            10..=12 => Case::Ranking(Ranking::draw(draws)),
            13..=14 => Case::Rank(Rank::draw(draws)),
            15..=17 => Case::Judged(Judged::draw(draws)),
            18 => Case::Split(Split::draw(draws)),
            _ => Case::Plan(Plan::draw(draws)),
        }
    }
}

/// Where the draws of a case begin.
pub fn start_of(seed: u64, number: u64) -> u64 {
    seed.wrapping_add(number.wrapping_mul(0xA076_1D64_78BD_642F))
}

/// The draws of a case's boards, apart from those that begin at its start.
pub fn boards(start: u64) -> Draws {
    Draws::new(start ^ 0x626F_6172_6473)
}

/// The draws of a case's bit order, apart from those that begin at its start.
pub fn bit_orders(start: u64) -> Draws {
    Draws::new(start ^ 0x6C6F_775F_6669_7273)
}

/// A number of a record that stands for no bit order, for one of a hundred.
fn no_bit_order(draws: &mut Draws) -> Option<u64> {
    (draws.below(100) == 0).then(|| [2, 3, 256, 1 << 32, (1 << 32) + 1, u64::MAX][draws.below(6)])
}

/// The run that is sampled, and how many of its cases: those that are short are stored.
const SEED: u64 = 20_261_115;
const CASES: u64 = 500;

pub fn sample() -> impl Iterator<Item = Case> {
    (0..CASES).map(|number| Case::of_run(SEED, number))
}

/// What a file of cases says of the sample's.
pub fn note() -> String {
    format!("The last ones are the short ones of `differential/run REFERENCE {SEED} {CASES}`, answered by the reference and the rules as the others are.")
}
