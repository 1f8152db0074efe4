//! A program's standard input with the answers that it must print, both as lines of decimal numbers.

use std::{env, fmt::Display, fs, path::Path};

#[derive(Default)]
pub struct Sheet {
    cases: String,
    answers: String,
}

impl Sheet {
    /// A comment line of the cases.
    pub fn note(&mut self, text: &str) {
        self.cases += &format!("# {text}\n");
    }

    /// Numbers of the cases, on a line of their own.
    pub fn case<T: Display>(&mut self, numbers: impl IntoIterator<Item = T>) {
        self.cases += &(join(numbers) + "\n");
    }

    /// A list of the cases: how many, and each, on a line of their own.
    pub fn list<T: Display>(&mut self, list: &[T]) {
        self.case([list.len().to_string()].into_iter().chain(list.iter().map(T::to_string)));
    }

    /// Answers: each number with a space after it, as `cases::printing::print` writes it, then the line's end.
    pub fn answer<T: Display>(&mut self, numbers: impl IntoIterator<Item = T>) {
        for number in numbers {
            self.answers += &format!("{number} ");
        }
        self.answers += "\n";
    }

    /// Answers that are text, as they are printed.
    pub fn text(&mut self, text: &str) {
        self.answers += text;
    }

    /// Writes `stdin` and `stdout` into the folder that is the program's one argument.
    pub fn save(&self) {
        let folder = env::args().nth(1).expect("the folder of the case program");
        fs::write(Path::new(&folder).join("stdin"), &self.cases).unwrap();
        fs::write(Path::new(&folder).join("stdout"), &self.answers).unwrap();
        eprintln!("{folder}: {} bytes of cases, {} bytes of answers", self.cases.len(), self.answers.len());
    }
}

fn join<T: Display>(numbers: impl IntoIterator<Item = T>) -> String {
    numbers.into_iter().map(|number| number.to_string()).collect::<Vec<_>>().join(" ")
}
