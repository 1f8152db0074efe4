//! Our calls against the reference's, on drawn cases: `differential [SEED [CASES]]`. Or on recordings that take too long to be drawn: `differential widths`,
//! `differential capacity`, `differential wide WIDTH [reference|layered]`. Or recordings searched in many stretches: `differential stretches [SEED [CASES]]`.
//! Or the same bytes of four boards in two orders: `differential boards [SEED [CASES]]`. Or findings as text: `differential exchange [SEED [CASES]]`. Or whole
//! sweeps: `differential sweeps [SEED [CASES]]`. Or ranks of all subsets in turn: `differential ranks`. Or what is known to differ: `differential differences`.
//! Or their times: `differential bench [feeding|sweeps]`. Or beside those of an earlier commit: `differential before CHECKOUT [feeding|ranks|searches]`. Or the stack that
//! our calls take: `differential stack`.

mod account;
#[cfg(feature = "before")]
mod before;
mod bench;
mod boards;
mod capacity;
mod case;
mod differences;
mod exchange;
mod judging;
mod ours;
mod rankings;
mod ranks;
mod recordings;
mod stack;
mod stretches;
mod sweeps;
mod wide;
mod widths;

use account::{Account, Run};
use answers::run::Case;
use case::{kind, shrink, Compared};
use std::{env, time::SystemTime};

fn main() {
    let args: Vec<String> = env::args().skip(1).collect();
    let first = args.first().map(String::as_str);
    match first {
        #[cfg(feature = "before")]
        Some("before") => return before::run(args.get(2).map(String::as_str)),
        Some("bench") => return bench::run(args.get(1).map(String::as_str)),
        Some("boards") => return boards::run(seed(args.get(1)), cases(args.get(2), 20_000)),
        Some("capacity") => return capacity::run(),
        Some("differences") => return differences::run(),
        Some("exchange") => return exchange::run(seed(args.get(1)), cases(args.get(2), 100_000)),
        Some("ranks") => return ranks::run(),
        Some("stack") => return stack::run(),
        Some("stretches") => return stretches::run(seed(args.get(1)), cases(args.get(2), 20_000)),
        Some("sweeps") => return sweeps::run(seed(args.get(1)), cases(args.get(2), 4_000)),
        Some("wide") => return wide::run(args.get(1).expect("the width"), args.get(2).map(String::as_str)),
        Some("widths") => return widths::run(),
        _ => (),
    }
    compare(seed(args.first()), cases(args.get(1), 200_000));
}

/// The seed that is given, or one from the clock.
fn seed(arg: Option<&String>) -> u64 {
    match arg {
        Some(arg) => arg.parse().expect("the seed is a number"),
        None => SystemTime::now().duration_since(SystemTime::UNIX_EPOCH).unwrap().as_nanos() as u64,
    }
}

fn cases(arg: Option<&String>, default: u64) -> u64 {
    arg.map_or(default, |arg| arg.parse().expect("the number of cases is a number"))
}

/// Draws and compares.
fn compare(seed: u64, cases: u64) {
    println!("seed {seed}, {cases} cases");
    let mut run = Run::new();
    for number in 0..cases {
        let case = Case::of_run(seed, number);
        compare_one(&mut run, kind(&case), number, case);
    }
    run.close(&format!("seed {seed}"));
}

/// A case that differs is made smaller and printed whole, and ends the run.
fn compare_one(run: &mut Run, kind: &'static str, number: u64, case: Case) {
    let mut searches = Account::default();
    if let Err(what) = case.check(&mut searches) {
        println!("case {number} differs: {what}");
        let case = shrink(case);
        println!("made smaller: {}", case.check(&mut searches).unwrap_err());
        println!("{case:?}");
        run.fail();
    }
    run.enter(kind, searches);
}
