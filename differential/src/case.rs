//! What is asked of every drawn case.

use crate::account::Account;
use answers::run::{Case, Recording};

/// What differs, in words.
pub type Checked = Result<(), String>;

pub trait Compared: Sized {
    /// Makes our calls and the reference's. Each search of a recording is entered in the account: compared, or left out since it takes too long.
    fn check(&self, searches: &mut Account) -> Checked;

    /// Cases that are smaller by one step.
    fn smaller(&self) -> Vec<Self>;
}

pub fn kind(case: &Case) -> &'static str {
    match case {
        Case::Recording(case) => recorded(case),
        Case::Ranking(_) => "rankings",
        Case::Rank(_) => "ranks",
        Case::Judged(case) if case.low_first => "checks and evaluations, low first",
        Case::Judged(_) => "checks and evaluations",
        Case::Split(_) => "splits",
        Case::Plan(_) => "sweep plans",
    }
}

/// By the bit order, and by whether it is carried over or has feeds of several boards.
fn recorded(case: &Recording) -> &'static str {
    let later = &case.feeds[case.carried.unwrap_or(0)..];
    let boards = (0..4).filter(|board| later.iter().any(|feed| feed.board == *board)).count();
    match (case.carried.is_some(), boards > 1, case.low_first) {
        (false, false, false) => "recordings of one board",
        (false, false, true) => "recordings of one board, low first",
        (false, true, false) => "recordings of several boards",
        (false, true, true) => "recordings of several boards, low first",
        (true, _, false) => "recordings carried over",
        (true, _, true) => "recordings carried over, low first",
    }
}

impl Compared for Case {
    fn check(&self, searches: &mut Account) -> Checked {
        match self {
            Case::Recording(case) => case.check(searches),
            Case::Ranking(case) => case.check(searches),
            Case::Rank(case) => case.check(searches),
            Case::Judged(case) => case.check(searches),
            Case::Split(case) => case.check(searches),
            Case::Plan(case) => case.check(searches),
        }
    }

    fn smaller(&self) -> Vec<Case> {
        match self {
            Case::Recording(case) => case.smaller().into_iter().map(Case::Recording).collect(),
            Case::Ranking(case) => case.smaller().into_iter().map(Case::Ranking).collect(),
            Case::Rank(case) => case.smaller().into_iter().map(Case::Rank).collect(),
            Case::Judged(case) => case.smaller().into_iter().map(Case::Judged).collect(),
            Case::Split(case) => case.smaller().into_iter().map(Case::Split).collect(),
            Case::Plan(case) => case.smaller().into_iter().map(Case::Plan).collect(),
        }
    }
}

/// A case that differs, made smaller for as long as a smaller one differs.
pub fn shrink(mut case: Case) -> Case {
    while let Some(smaller) = case.smaller().into_iter().find(|smaller| smaller.check(&mut Account::default()).is_err()) {
        case = smaller;
    }
    case
}

/// That two answers are the same.
pub fn same<T: PartialEq + std::fmt::Debug>(what: &str, ours: T, reference: T) -> Checked {
    if ours == reference {
        return Ok(());
    }
    Err(format!("{what}: ours {ours:?}, the reference {reference:?}"))
}

/// Lists with one stretch left out, longer stretches first, and with one entry halved. Of a list of thousands, whose copies would fill the memory, only long
/// stretches.
pub fn fewer<T: Copy + Into<u64> + TryFrom<u64>>(list: &[T], drop: bool) -> Vec<Vec<T>> {
    let mut lists = Vec::new();
    let mut stretch = if drop { list.len() } else { 0 };
    while stretch > list.len() / 1000 {
        for at in (0..=list.len() - stretch).step_by(stretch) {
            lists.push([&list[..at], &list[at + stretch..]].concat());
        }
        stretch /= 2;
    }
    let entries = if list.len() < 1000 { list.len() } else { 0 };
    for at in 0..entries {
        let value: u64 = list[at].into();
        for less in [0, value / 2, value.saturating_sub(1)] {
            if less < value {
                let mut copy = list.to_vec();
                copy[at] = T::try_from(less).ok().unwrap();
                lists.push(copy);
            }
        }
    }
    lists
}
