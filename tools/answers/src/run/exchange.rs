//! Findings as text: sound ones to be written and read both ways; texts in any shape, sound and damaged; unsound findings to be written.

use super::{bit_orders, start_of, Judged};
use crate::{to_json, with_low_first, Draws, Finding};

/// One case of any kind. Rooms are how many entries more than enough a buffer has; below 0 it is too short.
#[derive(Clone, Debug)]
pub enum Exchange {
    /// A finding that is sound, in a bit order.
    Sound { finding: Finding, low_first: bool },
    /// A text, with the entries of the order and of the scratch.
    Text { text: Vec<u8>, order: usize, scratch: usize },
    /// A finding that is sound or not, with its z and what stands in the bit entries past the width, and the room of the output.
    Written { judged: Judged, z: u64, past: u32, out: isize },
}

impl Exchange {
    pub fn of_run(seed: u64, number: u64) -> Exchange {
        let start = start_of(seed, number);
        let (draws, orders) = (&mut Draws::new(start), &mut bit_orders(start));
        match draws.below(10) {
            0..=1 => {
                let width = if draws.below(20) == 0 { 1 + draws.below(12) } else { 1 + draws.below(6) };
                Exchange::Sound { finding: sound(draws, width), low_first: orders.below(2) == 1 }
            }
            2..=8 => text(draws, orders),
            _ => Exchange::Written {
                judged: Judged::draw(draws).in_bit_order(orders),
                z: [0, 1 << 63, u64::MAX, 1][draws.below(4)],
                past: [0, 1, u32::MAX][draws.below(3)],
                out: [0, 0, 1, -1, 10, isize::MIN / 2][draws.below(6)],
            },
        }
    }
}

/// A sound finding of a width.
pub fn sound(draws: &mut Draws, width: usize) -> Finding {
    let least = width.div_ceil(8);
    let block_size = 8 * match draws.below(4) {
        0 => least,
        1 => 512,
        2 => least + draws.below(8),
        _ => least + draws.below(512 - least + 1),
    };
    let m = 1 << width;
    let division = [1, m - 1, 1 + draws.below(m - 1)][draws.below(3)];
    let order = draws.shuffled(m);
    Finding { block_size, bits: draws.subset(block_size, width), order, division, z: 0.25 }
}

fn pick(draws: &mut Draws, list: &[&str]) -> String {
    list[draws.below(list.len())].to_string()
}

/// White space of any kind, mostly none.
fn space(draws: &mut Draws) -> String {
    let much = [0, 0, 0, 0, 0, 1, 1, 3][draws.below(8)];
    (0..much).map(|_| [' ', '\t', '\n', '\r'][draws.below(4)]).collect()
}

fn score(draws: &mut Draws) -> String {
    let forms = [
        "0", "-0", "1.5", "-2.75e1", "1E+05", "0e-9", "1e308", "1e400", "-1e999", "1e-999", "0e999", "123456789012345678901234567890", "1e99999999999",
        "null", "\"1\"", "NaN", ".5", "1.", "01", "+1", "1e", "[]", "-",
    ];
    let sound = draws.below(4) != 0;
    pick(draws, &forms[..if sound { 6 } else { forms.len() }])
}

/// A finding with a number or two that the check or the text may not have.
fn spoilt(draws: &mut Draws) -> Finding {
    let width = 1 + draws.below(4);
    let mut found = sound(draws, width);
    let large = [0, 1, 7, 1 << width, 4104, (1 << 32) - 8, (1 << 32) - 1, 1 << 32, (1 << 32) + 8, 1 << 63][draws.below(10)];
    match draws.below(24) {
        0 => found.block_size = large,
        1 => found.block_size = 8 * large.min(1 << 40),
        2 => found.division = large,
        3 => found.order[0] = large,
        4 => found.bits[0] = large,
        5 => found.bits.push(large),
        6 => found.order.push(large),
        7 => {
            found.order.pop();
        }
        8 => found.bits = (0..[0, 19, 20, 21, 22][draws.below(5)]).collect(),
        _ => (),
    }
    found
}

fn list(draws: &mut Draws, numbers: &[usize]) -> String {
    let numbers: Vec<String> = numbers.iter().map(|number| space(draws) + &number.to_string() + &space(draws)).collect();
    format!("[{}{}]", if numbers.is_empty() { space(draws) } else { String::new() }, numbers.join(","))
}

/// A key in its quotation marks, now and then with an escape.
fn key(draws: &mut Draws, name: &str) -> String {
    if name.is_empty() || draws.below(60) != 0 {
        return format!("\"{name}\"");
    }
    let at = draws.below(name.len());
    format!("\"{}\\u{:04x}{}\"", &name[..at], name.as_bytes()[at], &name[at + 1..])
}

/// Values of low_first, one of eight neither true nor false.
fn truth(draws: &mut Draws) -> String {
    let others = ["1", "0", "null", "\"true\"", "[true]", "{}", "1e999", "True", "tru", "truefalse", "false0", "-true", ""];
    if draws.below(8) == 0 { pick(draws, &others) } else { pick(draws, &["true", "false"]) }
}

/// A member with white space around its tokens.
fn member(draws: &mut Draws, name: &str, value: &str) -> String {
    [space(draws), key(draws, name), space(draws), ":".into(), space(draws), value.into(), space(draws)].concat()
}

/// The text of a finding in any shape, now and then damaged, in buffers that are now and then too short. What it says of the bit order, mostly once, comes from
/// other draws.
fn text(draws: &mut Draws, orders: &mut Draws) -> Exchange {
    let found = spoilt(draws);
    let mut members = vec![
        ("bits", list(draws, &found.bits)),
        ("sorted_indices", list(draws, &found.order)),
        ("best_division", found.division.to_string()),
        ("block_size", found.block_size.to_string()),
    ];
    if draws.below(3) == 0 {
        members.push(("z_score", score(draws)));
    }
    for i in (1..members.len()).rev() {
        members.swap(i, draws.below(i + 1));
    }
    match draws.below(30) {
        0 => members.push(members[0].clone()),
        1 => {
            members.pop();
        }
        2..=3 => {
            let value = pick(draws, &["0", "null", "[1,{}]", "{\"a\":[]}", "\"\\n\"", "1e999", "tru"]);
            members.insert(draws.below(members.len()), (["low_first", "", "Bits", "z"][draws.below(4)], value));
        }
        _ => (),
    }
    let mut members: Vec<String> = members.iter().map(|(name, value)| member(draws, name, value)).collect();
    for _ in 0..[0, 0, 0, 1, 1, 1, 1, 1, 1, 1, 1, 2][orders.below(12)] {
        let value = truth(orders);
        members.insert(orders.below(members.len() + 1), member(orders, "low_first", &value));
    }
    let mut text = [space(draws), "{".into(), members.join(","), "}".into(), space(draws)].concat().into_bytes();
    if draws.below(40) == 0 {
        let (bits, order) = (list(draws, &found.bits), list(draws, &found.order));
        let z = pick(draws, &["", "0.5,", "null,"]);
        text = format!("[{bits},{order},{},{z}{}]", found.division, found.block_size).into_bytes();
    }
    if draws.below(10) == 0 {
        let there = to_json(&found);
        text = [there.clone(), with_low_first(&there, false), with_low_first(&there, true)][orders.below(3)].clone().into_bytes();
    }
    while draws.below(3) == 0 {
        damage(draws, &mut text);
    }
    let m = found.order.len() as isize;
    let mut room = || (m + [0, 0, 0, 0, 1, 3, -1][draws.below(7)]).max(0) as usize;
    Exchange::Text { text, order: room(), scratch: room() }
}

/// One byte taken out, put in or changed, or a stretch left out or doubled.
fn damage(draws: &mut Draws, text: &mut Vec<u8>) {
    let bytes = b"0123456789{}[]:,\"-+.eE \t\n\rz_\\/\0\x0b\x7f\xff";
    let byte = bytes[draws.below(bytes.len())];
    let at = draws.below(text.len() + 1);
    let end = text.len().min(at + 1 + draws.below(12));
    match draws.below(6) {
        0 if at < text.len() => {
            text.remove(at);
        }
        1 => text.insert(at, byte),
        2 if at < text.len() => text[at] = byte,
        3 => {
            text.drain(at..end);
        }
        4 => {
            let stretch = text[at..end].to_vec();
            text.splice(at..at, stretch);
        }
        _ if draws.below(4) == 0 => text.truncate(at),
        _ => (),
    }
}
