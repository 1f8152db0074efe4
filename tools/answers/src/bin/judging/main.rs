//! Cases for `crates/judging_cases`: splits, plans, and findings that are checked and evaluated.

use answers::*;

mod findings;
mod plans;
mod splits;

fn main() {
    let mut sheet = Sheet::default();
    sheet.note("Cases of the judging crate. Made, with their answers, by `tools/answers/run judging REFERENCE`; no answer is our own program's.");
    splits::write(&mut sheet, &mut Draws::new(7));
    plans::write(&mut sheet, &mut Draws::new(8));
    findings::write(&mut sheet, &mut Draws::new(9));
    sheet.save();
}
