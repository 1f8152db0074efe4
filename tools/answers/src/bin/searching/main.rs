//! Cases for `crates/searching_cases`: ranks of subsets, rankings of counts and whole searches.

use answers::*;

mod rankings;
mod ranks;
mod searches;

fn main() {
    let mut sheet = Sheet::default();
    sheet.note("Cases of the subsets, ranking and searching crates. Made, with their answers, by `tools/answers/run searching REFERENCE`; no answer is our own program's.");
    ranks::write(&mut sheet, &mut Draws::new(4));
    rankings::write(&mut sheet, &mut Draws::new(5));
    searches::write(&mut sheet, &mut Draws::new(6));
    sheet.save();
}

/// n choose r by Pascal's rule, exact up to the largest u128.
fn binomial(n: usize, r: usize) -> u128 {
    let mut row = vec![0u128; r + 1];
    row[0] = 1;
    for _ in 0..n {
        for j in (1..=r).rev() {
            row[j] = row[j].saturating_add(row[j - 1]);
        }
    }
    row[r]
}
