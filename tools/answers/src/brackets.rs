//! Brackets of a chance by brackets.py, which is asked over a pipe.

use crate::pipe::Pipe;

/// Both ends in units of 2^-40, and the exact chance in these units times a factor, rounded down.
#[derive(Clone)]
pub struct Bracket {
    pub low: u64,
    pub high: u64,
    pub exact: u64,
}

pub struct Brackets(Pipe);

impl Brackets {
    pub fn start() -> Brackets {
        Brackets(Pipe::start("brackets.py"))
    }

    /// Of at least c positives among n blocks at d / 2^k. That the chance lies between the ends, Python has seen to.
    pub fn of(&mut self, n: usize, c: usize, k: usize, d: usize, factor: usize) -> Bracket {
        let [line] = self.0.ask(format!("{n} {c} {k} {d} {factor}"));
        Bracket { low: line[0], high: line[1], exact: line[2] }
    }
}
