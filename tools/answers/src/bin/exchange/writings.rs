//! Findings to be written, sound and unsound ones, into outputs of enough bytes and too few.

use answers::*;

#[derive(Clone)]
struct Case {
    block_size: usize,
    width: usize,
    /// 20 bits; those past the width mean nothing.
    bits: Vec<usize>,
    order: Vec<usize>,
    division: usize,
    z: f64,
    low_first: bool,
    scratch: usize,
    out: usize,
}

pub fn write(sheet: &mut Sheet, rules: &mut Rules, draws: &mut Draws) {
    let mut cases = sound(draws);
    cases.extend(unsound());
    sheet.note("Writings. Each: B, width, 20 bits, division, the pattern of z, low_first as 0 or 1; the order, its length first; the entries of the scratch and of the output.");
    sheet.note("Answer: the refusal and the length; the output; the scratch. Every entry of a buffer is 99 before.");
    sheet.case([cases.len()]);
    let mut refusals = [0; 32];
    for case in &cases {
        sheet.case([case.block_size, case.width].iter().chain(&case.bits).chain(&[case.division, case.z.to_bits() as usize, case.low_first as usize]));
        sheet.list(&case.order);
        sheet.case([case.scratch, case.out]);
        let numbers = [vec![case.block_size, case.width, case.division, case.z.to_bits() as usize], case.bits.clone(), vec![case.low_first as usize]].concat();
        let numbers: Vec<u64> = numbers.iter().map(|&number| number as u64).collect();
        let order: Vec<u32> = case.order.iter().map(|&bin| bin as u32).collect();
        let answer = rules.write(&numbers.try_into().unwrap(), &order, case.scratch, case.out);
        refusals[answer[0][0] as usize] += 1;
        if answer[0][0] == 0 {
            let text: Vec<u8> = answer[1][..answer[0][1] as usize].iter().map(|&byte| byte as u8).collect();
            assert_eq!(from_json(&text), Ok(Finding { z: 0.0, ..found(case) }));
            assert_eq!(low_first(&text), Ok(case.low_first));
            assert_eq!(String::from_utf8(text).unwrap(), text_there(case));
        }
        answer.iter().for_each(|line| sheet.answer(line));
    }
    for number in [0, 1, 2, 7, 9, 10, 11, 13, 14, 17] {
        assert!(refusals[number] > 0, "no writing that is answered {number}");
    }
}

fn found(case: &Case) -> Finding {
    let bits = case.bits[..case.width.min(20)].to_vec();
    Finding { block_size: case.block_size, bits, order: case.order.clone(), division: case.division, z: case.z }
}

/// As the reference writes it, with the member behind its own that it does not know.
fn text_there(case: &Case) -> String {
    let there = to_json(&found(case));
    format!("{},\"low_first\":{}}}", there.strip_suffix('}').unwrap(), case.low_first)
}

/// Sound findings of widths 1 to 8, the bit entries past the width anything, low_first either; outputs that are just long enough, one short, empty and longer.
fn sound(draws: &mut Draws) -> Vec<Case> {
    let mut cases = Vec::new();
    for (block_size, width) in [(8, 1), (16, 1), (8, 2), (64, 2), (4096, 2), (104, 3), (4096, 4), (1000, 5), (16, 6), (8, 8)] {
        let bins = 1 << width;
        let order = draws.shuffled(bins);
        let mut bits = draws.subset(block_size, width);
        bits.extend((width..20).map(|_| [0, 7, u32::MAX as usize][draws.below(3)]));
        let z = f64::from_bits([0, 1 << 63, u64::MAX, 0x4000_0000_0000_0000][draws.below(4)]);
        let division = [1, bins - 1, 1 + draws.below(bins - 1)][draws.below(3)];
        let mut case = Case { block_size, width, bits, order, division, z, low_first: false, scratch: bins, out: 0 };
        for low_first in [false, true] {
            case.low_first = low_first;
            let length = text_there(&case).len();
            for (out, more) in [(length, 0), (length - 1, 1), (0, 0), (length + 3, 2)] {
                case.out = out;
                case.scratch = bins + more;
                cases.push(case.clone());
            }
        }
    }
    cases
}

type Fault = fn(&mut Case);

/// A fault for each refusal, in the order of the refusals.
const FAULTS: [Fault; 9] = [
    |case| case.block_size = 12,
    |case| case.width = 21,
    |case| case.bits.swap(0, 1),
    |case| *case.bits[..2].iter_mut().max().unwrap() = 16,
    |case| case.order.push(0),
    |case| case.scratch = 3,
    |case| case.order[0] = case.order[1],
    |case| case.division = 0,
    |case| case.out = 92,
];

/// Every fault alone, every two, and one with all later ones.
fn unsound() -> Vec<Case> {
    let bits = [vec![3, 9], vec![5; 18]].concat();
    let good = Case { block_size: 16, width: 2, bits, order: vec![2, 0, 3, 1], division: 2, z: 0.5, low_first: false, scratch: 6, out: 95 };
    assert_eq!(text_there(&good).len(), 93);
    let mut cases = vec![good.clone()];
    for block_size in [0, 4, 4104, 1 << 32, (1 << 32) + 16, usize::MAX] {
        cases.push(Case { block_size, ..good.clone() });
    }
    for width in [0, 1, 3, 20, 22, 1 << 32, (1 << 32) + 2, usize::MAX] {
        cases.push(Case { width, ..good.clone() });
    }
    for order in [vec![], vec![0], vec![2, 0, 3], vec![4, 1, 2, 3], vec![u32::MAX as usize, 0, 1, 2], vec![0; 4]] {
        cases.push(Case { order, ..good.clone() });
    }
    for division in [1, 3, 4, u32::MAX as usize] {
        cases.push(Case { division, ..good.clone() });
        cases.push(Case { division, low_first: true, ..good.clone() });
    }
    for (i, one) in FAULTS.iter().enumerate() {
        for other in &FAULTS[i + 1..] {
            let mut case = good.clone();
            other(&mut case);
            one(&mut case);
            cases.push(case);
        }
        let mut case = good.clone();
        FAULTS[i..].iter().rev().for_each(|fault| fault(&mut case));
        cases.push(case);
    }
    cases
}
