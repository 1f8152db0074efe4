//! Checks and evaluations of findings, sound and unsound ones; splits; sweep plans.

use crate::account::Account;
use crate::case::{fewer, same, Checked, Compared};
use crate::ours;
use answers::run::{Judged, Plan, Split};
use answers::{configurations, evaluate_histogram, high_first, valid, validate, whole_blocks, Finding};

const LENT: u32 = 0xABCD;

impl Compared for Judged {
    fn check(&self, _: &mut Account) -> Checked {
        let finding = finding_of(self);
        let numbers = numbers_of(self, u64::MAX, 0);
        let m = 1_usize << self.width.min(20);
        let lent = vec![LENT; self.lent()];
        let expected = refusal(self, &finding, lent.len());

        let mut scratch = lent.clone();
        same("check", ours::validate(&numbers, &self.order, &mut scratch), expected)?;
        let mut cleared = lent.clone();
        if [0, 13, 14].contains(&expected) {
            cleared[..m].fill(0);
        }
        same("scratch after the check", &scratch, &cleared)?;

        let mut scratch = lent.clone();
        let (refusal, evaluated) = ours::evaluate(&numbers, &self.order, &self.bytes, &mut scratch);
        same("evaluation's refusal", refusal, expected)?;
        if expected != 0 {
            // Beside 27 nothing is written.
            same("evaluation beside a refusal", evaluated, [if expected == 27 { ours::LENT } else { 0 }; 3])?;
            return same("scratch after a refused evaluation", &scratch, &cleared);
        }
        // The reference knows the high bit first alone.
        let answer = evaluate_histogram(&finding, &high_first(&self.bytes, self.low_first));
        let score = if answer.z.is_nan() { [0, 0] } else { [1, answer.z.to_bits()] };
        same("evaluation", evaluated, [answer.positive as u64, score[0], score[1]])?;
        let mut counted = lent;
        for (entry, &count) in counted.iter_mut().zip(&answer.bins) {
            *entry = count as u32;
        }
        same("counts in the scratch", &scratch, &counted)
    }

    fn smaller(&self) -> Vec<Judged> {
        let mut cases: Vec<Judged> = fewer(&self.bytes, true).into_iter().map(|bytes| Judged { bytes, ..self.clone() }).collect();
        if self.low_first {
            cases.push(Judged { low_first: false, ..self.clone() });
        }
        cases
    }
}

/// A finding's record, with its z and what stands in the bit entries past those given.
pub fn numbers_of(case: &Judged, z: u64, past: u64) -> [u64; 25] {
    let mut numbers = [past; 25];
    numbers[..4].copy_from_slice(&[case.block_size as u64, case.width as u64, case.division as u64, z]);
    for (number, &bit) in numbers[4..24].iter_mut().zip(&case.bits) {
        *number = bit as u64;
    }
    numbers[24] = case.bit_order();
    numbers
}

/// The bits that count, of which entries past those given are 0.
fn chosen(case: &Judged) -> Vec<usize> {
    (0..case.width.min(21)).map(|i| case.bits.get(i).map_or(0, |&bit| bit as usize)).collect()
}

fn finding_of(case: &Judged) -> Finding {
    Finding {
        block_size: case.block_size,
        bits: chosen(case),
        order: case.order.iter().map(|&bin| bin as usize).collect(),
        division: case.division as usize,
        z: 0.0,
    }
}

/// The check's refusal by the reference's words. A scratch that is too short comes before the order, after its length; a bit order that is none before all.
fn refusal(case: &Judged, finding: &Finding, scratch: usize) -> u32 {
    if case.mark.is_some() {
        return 27;
    }
    if !valid(case.block_size) {
        return 1;
    }
    let words = validate(finding).err().unwrap_or_default();
    let number = [
        ("must select between", 2),
        ("strictly increasing", 9),
        ("outside a", 10),
        ("sorted indices, expected", 11),
        ("not a permutation", 13),
        ("division", 14),
    ];
    let refusal = number.iter().find(|(part, _)| words.contains(part)).map_or(0, |&(_, number)| number);
    if [0, 13, 14].contains(&refusal) && scratch < 1 << case.width {
        return 7;
    }
    refusal
}

impl Compared for Split {
    fn check(&self, _: &mut Account) -> Checked {
        let (refusal, lengths) = ours::whole_blocks(&self.raw, self.block_size, self.training);
        if !valid(self.block_size) {
            return same("split", (refusal, lengths), (1, [0; 2]));
        }
        let Ok((first, second)) = whole_blocks(&self.raw, self.block_size, self.training) else {
            return same("split", (refusal, lengths), (8, [0; 2]));
        };
        same("split", (refusal, lengths), (0, [first.len() as u64, second.len() as u64]))?;
        let (at, end) = (lengths[0] as usize, (lengths[0] + lengths[1]) as usize);
        same("first part", &self.raw[..at], first)?;
        same("second part", &self.raw[at..end], second)
    }

    fn smaller(&self) -> Vec<Split> {
        fewer(&self.raw, true).into_iter().map(|raw| Split { raw, ..self.clone() }).collect()
    }
}

impl Compared for Plan {
    fn check(&self, _: &mut Account) -> Checked {
        let (refusal, plan) = ours::configurations(self.block_size, self.data_size);
        if !valid(self.block_size) {
            return same("plan", (refusal, plan), (1, [0; 15]));
        }
        let pairs = configurations(self.block_size, self.data_size);
        let mut numbers = [0; 15];
        numbers[0] = pairs.len() as u64;
        for (i, &(block, width)) in pairs.iter().enumerate() {
            numbers[1 + i] = block as u64;
            numbers[8 + i] = width as u64;
        }
        same("plan", (refusal, plan), (0, numbers))
    }

    fn smaller(&self) -> Vec<Plan> {
        vec![]
    }
}
