//! The rules of findings as text by a second source, tools/exchange.py, which is asked over a pipe.

use crate::pipe::Pipe;

pub struct Rules(Pipe);

impl Rules {
    pub fn start() -> Rules {
        Rules(Pipe::start("../exchange.py"))
    }

    /// The three lines of a reading: the refusal and the finding's 25 numbers; the order of so many entries, each 99 before; the scratch, too.
    pub fn read(&mut self, text: &[u8], order: usize, scratch: usize) -> [Vec<u64>; 3] {
        self.0.ask(format!("read {} {order} {scratch}", list(text)))
    }

    /// The three lines of a writing: the refusal and the length; the output of so many bytes, each 99 before; the scratch, too.
    pub fn write(&mut self, finding: &[u64; 25], order: &[u32], scratch: usize, out: usize) -> [Vec<u64>; 3] {
        self.0.ask(format!("write {} {} {scratch} {out}", list(finding), list(order)))
    }
}

fn list<T: ToString>(numbers: &[T]) -> String {
    numbers.iter().map(T::to_string).collect::<Vec<_>>().join(",")
}
