//! The two bit orders of a recorder. The reference knows the high bit of a byte as the first one alone: where the low bit is, it is given the bytes turned.

use std::borrow::Cow;

/// Each byte with its bits the other way round.
pub fn reversed(bytes: &[u8]) -> Vec<u8> {
    bytes.iter().map(|byte| byte.reverse_bits()).collect()
}

/// The bytes whose bits, the high one first, are those of these bytes in the given order.
pub fn high_first(bytes: &[u8], low_first: bool) -> Cow<'_, [u8]> {
    if low_first { Cow::Owned(reversed(bytes)) } else { Cow::Borrowed(bytes) }
}

/// Each case twice: with the high bit first, and just so with the low bit first.
pub fn both<T: Clone>(cases: Vec<T>) -> Vec<(T, bool)> {
    turned(cases, |_| ())
}

/// Each case twice: with the high bit first, and, once `turn` has changed it, with the low bit first.
pub fn turned<T: Clone>(cases: Vec<T>, turn: impl Fn(&mut T)) -> Vec<(T, bool)> {
    let mut all = Vec::new();
    for case in cases {
        let mut low = case.clone();
        turn(&mut low);
        all.extend([(case, false), (low, true)]);
    }
    all
}

/// Each case once: by turns with the high bit first and with the low bit first.
pub fn by_turns<T>(cases: impl IntoIterator<Item = T>) -> Vec<(T, bool)> {
    cases.into_iter().zip([false, true].into_iter().cycle()).collect()
}

/// What a file of cases says of the bit orders, and of the cases that are not given in both.
pub fn note(others: &str) -> String {
    format!("A bit order is 0 for the high bit of a byte first, 1 for the low bit: then the reference is given each byte turned. Each case in both; {others}.")
}
