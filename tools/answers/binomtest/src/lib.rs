//! Stands in for the crate that works p-values out. They are no part of this project, so every one is NaN.

pub enum Alternative {
    Greater,
}

pub fn binomial_test(_: u64, _: u64, _: f64, _: Alternative) -> Result<f64, ()> {
    Ok(f64::NAN)
}
