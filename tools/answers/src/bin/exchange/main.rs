//! Cases for `crates/exchange_cases`: texts that are read, and findings that are written. The cases are made here, the texts among them that the reference
//! writes by the reference; the answers are those of tools/exchange.py. What it accepts the reference has to read as the same numbers and to find sound.

use answers::*;

mod readings;
mod writings;

fn main() {
    let mut sheet = Sheet::default();
    let mut rules = Rules::start();
    sheet.note("Cases of the exchange crate. Made by `tools/answers/run exchange REFERENCE`. The answers are those of tools/exchange.py, a second source");
    sheet.note("that has the rules and the RFC's grammar and none of our code; what it accepts the reference's serde was seen to read as the same numbers.");
    readings::write(&mut sheet, &mut rules, &mut Draws::new(10));
    writings::write(&mut sheet, &mut rules, &mut Draws::new(11));
    sheet.save();
}
