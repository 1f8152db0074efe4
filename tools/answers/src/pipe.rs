//! A Python program that answers lines of numbers over a pipe.

use std::io::{BufRead, BufReader, Write};
use std::path::Path;
use std::process::{Child, ChildStdin, ChildStdout, Command, Stdio};

pub struct Pipe {
    script: &'static str,
    child: Child,
    cases: ChildStdin,
    answers: BufReader<ChildStdout>,
}

impl Pipe {
    /// The script's path is told from this tool's folder.
    pub fn start(script: &'static str) -> Pipe {
        let path = Path::new(env!("CARGO_MANIFEST_DIR")).join(script);
        let mut child = Command::new("python3").arg("-B").arg(path).stdin(Stdio::piped()).stdout(Stdio::piped()).spawn().expect("python3");
        let (cases, answers) = (child.stdin.take().unwrap(), BufReader::new(child.stdout.take().unwrap()));
        Pipe { script, child, cases, answers }
    }

    /// The lines that a case is answered with.
    pub fn ask<const LINES: usize>(&mut self, case: String) -> [Vec<u64>; LINES] {
        writeln!(self.cases, "{case}").unwrap();
        [(); LINES].map(|_| {
            let mut line = String::new();
            assert!(self.answers.read_line(&mut line).unwrap() > 0, "{} ended", self.script);
            line.split_whitespace().map(|number| number.parse().unwrap()).collect()
        })
    }
}

impl Drop for Pipe {
    fn drop(&mut self) {
        self.child.kill().ok();
        self.child.wait().ok();
    }
}
