//! What a run has compared, and what it has left out.

use crate::case::Checked;
use std::{collections::BTreeMap, process::exit, time::Instant};

/// For each kind how many were compared and how many left out.
#[derive(Default)]
pub struct Account(BTreeMap<&'static str, [u64; 2]>);

impl Account {
    /// One more of a kind: compared, or left out.
    pub fn add(&mut self, kind: &'static str, compared: bool) {
        self.0.entry(kind).or_default()[usize::from(!compared)] += 1;
    }

    fn add_all(&mut self, other: Account) {
        for (kind, counts) in other.0 {
            let sums = self.0.entry(kind).or_default();
            *sums = [sums[0] + counts[0], sums[1] + counts[1]];
        }
    }

    fn sum(&self, left_out: bool) -> u64 {
        self.0.values().map(|counts| counts[usize::from(left_out)]).sum()
    }

    fn print(&self) {
        for (kind, [compared, left_out]) in &self.0 {
            println!("{kind}: {compared} compared, {left_out} left out");
        }
    }
}

/// The cases of a run and the searches in them.
pub struct Run {
    start: Instant,
    cases: Account,
    searches: Account,
}

impl Run {
    pub fn new() -> Run {
        Run { start: Instant::now(), cases: Account::default(), searches: Account::default() }
    }

    /// A case in which nothing differs. It counts as compared where no search of it was left out.
    pub fn enter(&mut self, kind: &'static str, searches: Account) {
        self.cases.add(kind, searches.sum(true) == 0);
        self.searches.add_all(searches);
    }

    /// A case that is compared; the run ends where it differs.
    pub fn compare(&mut self, kind: &'static str, check: impl FnOnce(&mut Account) -> Checked) {
        let mut searches = Account::default();
        if let Err(what) = check(&mut searches) {
            println!("differs: {what}");
            self.fail();
        }
        self.enter(kind, searches);
    }

    /// The end of a run in which the last case differs.
    pub fn fail(&self) -> ! {
        println!("{} compared, 1 different", self.cases.sum(false) + 1);
        exit(1);
    }

    pub fn close(&self, name: &str) {
        self.cases.print();
        self.searches.print();
        println!("{:.0} seconds, {name}", self.start.elapsed().as_secs_f64());
        println!("{} compared, 0 different", self.cases.sum(false));
    }
}
