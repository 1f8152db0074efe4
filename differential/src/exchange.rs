//! Findings as text: ours against the reference's serde, both ways, and against the rules of tools/exchange.py.

use crate::account::{Account, Run};
use crate::case::{fewer, same, Checked};
use crate::judging::numbers_of;
use crate::ours;
use crate::recordings::numbers_in;
use answers::run::{bit_orders, sound, Exchange, Judged};
use answers::{from_json, keys, low_first, to_json, to_json_in_report, to_json_pretty, validate, with_low_first, Draws, Finding, Rules};

/// What stands in every entry of a lent buffer, as in tools/exchange.py.
const LENT: u8 = 99;

/// Widths whose findings are too long to be drawn often, and how many of each.
const WIDE: [(usize, usize); 6] = [(9, 2), (10, 2), (11, 2), (12, 2), (16, 3), (20, 2)];

pub fn run(seed: u64, cases: u64) {
    println!("seed {seed}, {cases} cases");
    let (mut run, mut rules) = (Run::new(), Rules::start());
    let (draws, orders) = (&mut Draws::new(seed), &mut bit_orders(seed));
    for (width, findings) in WIDE {
        for _ in 0..findings {
            let finding = sound(draws, width);
            let low = orders.below(2) == 1;
            run.compare("findings, both ways", |_| both_ways(&finding, low));
        }
    }
    for width in 1..=20 {
        // false is longer than true.
        run.compare("findings of the longest texts, both ways", |_| both_ways(&longest(width), false));
    }
    run.compare("widths without a text", |_| same("rooms", [0, 21, 64, 1 << 32, usize::MAX].map(ours::longest_text), [0; 5]));
    for number in 0..cases {
        let case = Exchange::of_run(seed, number);
        let mut texts = Account::default();
        if let Err(what) = check(&case, &mut rules, &mut texts) {
            println!("case {number} differs: {what}");
            let case = shrink(case, &mut rules);
            println!("made smaller: {}", check(&case, &mut rules, &mut texts).unwrap_err());
            println!("{case:?}");
            if let Exchange::Text { text, .. } = &case {
                println!("{}", String::from_utf8_lossy(text));
            }
            run.fail();
        }
        let kind = match case {
            Exchange::Sound { .. } => "findings, both ways",
            Exchange::Text { .. } => "texts",
            Exchange::Written { .. } => "findings, sound or not, written",
        };
        run.enter(kind, texts);
    }
    run.close(&format!("exchange, seed {seed}"));
}

fn check(case: &Exchange, rules: &mut Rules, texts: &mut Account) -> Checked {
    match case {
        Exchange::Sound { finding, low_first } => both_ways(finding, *low_first),
        Exchange::Text { text, order, scratch } => read(text, *order, *scratch, rules, texts),
        Exchange::Written { judged, z, past, out } => written(judged, *z, *past, *out, rules),
    }
}

/// A case that differs, made smaller for as long as a smaller one differs.
fn shrink(mut case: Exchange, rules: &mut Rules) -> Exchange {
    let smaller = |case: &Exchange| match case {
        Exchange::Text { text, order, scratch } => {
            fewer(text, true).into_iter().map(|text| Exchange::Text { text, order: *order, scratch: *scratch }).collect()
        }
        _ => vec![],
    };
    while let Some(less) = smaller(&case).into_iter().find(|less| check(less, rules, &mut Account::default()).is_err()) {
        case = less;
    }
    case
}

fn narrow(list: &[usize]) -> Vec<u32> {
    list.iter().map(|&number| number as u32).collect()
}

fn wide<T: Copy + Into<u64>>(list: &[T]) -> Vec<u64> {
    list.iter().map(|&number| number.into()).collect()
}

/// The finding without its z.
fn plain(finding: &Finding) -> Finding {
    Finding { z: 0.0, ..finding.clone() }
}

/// A finding whose text is the longest of its width.
fn longest(width: usize) -> Finding {
    let bins = 1 << width;
    Finding { block_size: 4096, bits: (4096 - width..4096).collect(), order: (0..bins).rev().collect(), division: bins - 1, z: 9.0 }
}

/// A sound finding in a bit order: our text is the reference's to the last byte, but for the bit order before the last brace; the reference reads it as the
/// same finding and serde the bit order; and we read our own text and what the reference writes on one line, on several and in its report, where the high bit
/// comes first.
fn both_ways(finding: &Finding, low: bool) -> Checked {
    let (order, bins) = (narrow(&finding.order), finding.order.len());
    let room = ours::longest_text(finding.bits.len());
    let (mut scratch, mut out) = (vec![LENT as u32; bins], vec![LENT; room + 3]);
    let (refusal, length) = ours::write(&numbers_in(finding, low), &order, &mut scratch, &mut out);
    same("writing", (refusal, length <= room), (0, true))?;
    let text = to_json(finding);
    let ours = with_low_first(&text, low);
    same("text", String::from_utf8_lossy(&out[..length]), ours.as_str().into())?;
    same("output past the text", out[length..].iter().all(|&byte| byte == LENT), true)?;
    let there = from_json(&out[..length])?;
    same("our text there", (&there, validate(&there)), (&plain(finding), Ok(())))?;
    same("the bit order of our text", low_first(&out[..length]), Ok(low))?;
    for (text, low) in [(ours, low), (text, false), (to_json_pretty(finding), false), (to_json_in_report(finding), false)] {
        let half = text.len() / 2;
        let (mut order, mut scratch) = (vec![LENT as u32; half], vec![LENT as u32; half]);
        let (refusal, read) = ours::read(text.as_bytes(), &mut order, &mut scratch);
        same("reading", (refusal, read), (0, numbers_in(&plain(finding), low)))?;
        same("order", order[..bins].to_vec(), narrow(&finding.order))?;
        same("order past the indices", order[bins..].iter().all(|&entry| entry == LENT as u32), true)?;
        let (cleared, rest) = scratch.split_at(bins);
        same("scratch", cleared.iter().all(|&entry| entry == 0) && rest.iter().all(|&entry| entry == LENT as u32), true)?;
    }
    Ok(())
}

/// Any text: our answer is that of the rules; and where we take it the reference does, and where it alone does a listed class says why.
fn read(text: &[u8], order: usize, scratch: usize, rules: &mut Rules, texts: &mut Account) -> Checked {
    let expected = rules.read(text, order, scratch);
    let (mut order, mut scratch) = (vec![LENT as u32; order], vec![LENT as u32; scratch]);
    let (refusal, finding) = ours::read(text, &mut order, &mut scratch);
    let answer = [[vec![refusal as u64], finding.to_vec()].concat(), wide(&order), wide(&scratch)];
    same("reading and the rules", &answer, &expected)?;
    let there = from_json(text).and_then(|found| validate(&found).map(|()| found));
    let class = match (refusal, there) {
        (0, Ok(found)) => {
            same("finding", finding, numbers_in(&plain(&found), low_first(text)?))?;
            same("order", &order[..found.order.len()], &narrow(&found.order)[..])?;
            "texts that both take"
        }
        (0, Err(words)) if words.contains("number out of range") => "texts taken here alone: a z_score that no double is near",
        (0, Err(words)) => return Err(format!("taken here, and refused there: {words}")),
        (_, Err(_)) => "texts that both refuse",
        (_, Ok(found)) => there_alone(text, refusal, &found).ok_or(format!("taken there, and refused here with {refusal}"))?,
    };
    texts.add(class, true);
    Ok(())
}

/// Why the reference takes a text that we refuse: a class of docs/DIFFERENCES.md.
fn there_alone(text: &[u8], refusal: u32, found: &Finding) -> Option<&'static str> {
    let known = ["bits", "sorted_indices", "best_division", "block_size", "z_score", "low_first"];
    match refusal {
        1 if found.block_size > 4096 => Some("texts taken there alone: a block size above 4,096"),
        7 | 17 => Some("texts taken there alone: buffers too short here"),
        16 if text.trim_ascii_start().starts_with(b"[") => Some("texts taken there alone: an array for the object"),
        16 if found.block_size > u32::MAX as usize => Some("texts taken there alone: a block size above 2^32 - 1"),
        16 => match keys(text) {
            Some(keys) if keys.iter().any(|key| !known.contains(&key.as_str())) => Some("texts taken there alone: another key"),
            Some(_) if low_first(text).is_err() => Some("texts taken there alone: a low_first that is neither true nor false, or stands twice"),
            Some(_) if text.contains(&b'\\') => Some("texts taken there alone: a key with an escape"),
            _ => None,
        },
        _ => None,
    }
}

/// A finding that is sound or not, by the rules. Those know either bit order; one that is none is refused with 27, and nothing is written.
fn written(judged: &Judged, z: u64, past: u32, out: isize, rules: &mut Rules) -> Checked {
    let finding = numbers_of(judged, z, past as u64);
    let text = to_json(&Finding {
        block_size: judged.block_size,
        bits: finding[4..][..judged.width.min(20)].iter().map(|&bit| bit as usize).collect(),
        order: judged.order.iter().map(|&bin| bin as usize).collect(),
        division: judged.division as usize,
        z: 0.0,
    });
    let text = with_low_first(&text, judged.low_first);
    let room = (text.len() as isize + out).max(0) as usize;
    let expected = match judged.mark {
        Some(_) => [vec![27, ours::LENT], vec![LENT as u64; room], vec![LENT as u64; judged.lent()]],
        None => rules.write(&finding, &judged.order, judged.lent(), room),
    };
    let (mut scratch, mut output) = (vec![LENT as u32; judged.lent()], vec![LENT; room]);
    let (refusal, length) = ours::write(&finding, &judged.order, &mut scratch, &mut output);
    let answer = [vec![refusal as u64, length as u64], wide(&output), wide(&scratch)];
    same("writing and the rules", &answer, &expected)?;
    if refusal == 0 {
        same("text", String::from_utf8_lossy(&output[..length]), text.as_str().into())?;
    }
    Ok(())
}
