//! Splits: B, whether there is training, and the raw bytes.

use answers::*;

struct Case {
    block_size: usize,
    raw: Vec<u8>,
}

pub fn write(sheet: &mut Sheet, draws: &mut Draws) {
    let mut cases = refused(draws);
    cases.extend(around(draws));
    cases.extend(drawn(draws));
    sheet.note("Splits: the reference's whole_blocks, its one refusal being 8; before it 1, where B is no multiple of 8 from 8 to 4,096.");
    sheet.note("Each: B, 1 for training or 0, and the raw bytes, their number first. Answer: the refusal; each part, its length first.");
    sheet.note(&run::note());
    let of_run: Vec<(Case, bool)> = run::sample().filter_map(case_of_run).collect();
    sheet.case([2 * cases.len() + of_run.len()]);
    for case in &cases {
        for training in [true, false] {
            write_case(sheet, case, training);
        }
    }
    for (case, training) in &of_run {
        write_case(sheet, case, *training);
    }
}

/// Short bytes of the differential run, and whether there is training.
fn case_of_run(case: run::Case) -> Option<(Case, bool)> {
    let run::Case::Split(run::Split { block_size, training, raw }) = case else { return None };
    (raw.len() <= 150).then_some((Case { block_size, raw }, training))
}

fn write_case(sheet: &mut Sheet, case: &Case, training: bool) {
    sheet.case([case.block_size, training as usize]);
    sheet.list(&case.raw);
    let split = if valid(case.block_size) {
        whole_blocks(&case.raw, case.block_size, training).map_err(|_| 8)
    } else {
        Err(1)
    };
    sheet.answer([split.err().unwrap_or(0)]);
    let (first, second) = split.unwrap_or((&[], &[]));
    for part in [first, second] {
        sheet.answer([part.len()].into_iter().chain(part.iter().map(|byte| *byte as usize)));
    }
}

/// B outside its limits, with enough bytes and with none.
fn refused(draws: &mut Draws) -> Vec<Case> {
    let mut cases = Vec::new();
    for block_size in [0, 1, 4, 7, 9, 12, 4095, 4097, 4104, 8192, 1 << 32, (1 << 32) + 8, usize::MAX - 7, usize::MAX] {
        cases.push(Case { block_size, raw: draws.bytes(6) });
        cases.push(Case { block_size, raw: vec![] });
    }
    cases
}

/// No block, one, two, three and more, each whole, a byte short and with a ragged end.
fn around(draws: &mut Draws) -> Vec<Case> {
    let mut cases = Vec::new();
    for block_size in [8, 16, 24, 64, 512, 4096] {
        let size: usize = block_size / 8;
        let most = if size > 8 { 3 } else { 7 };
        let mut lengths: Vec<usize> = (0..=most).map(|m| m * size).flat_map(|end| [end.saturating_sub(1), end, end + 1]).collect();
        if size > 100 {
            // Two blocks and their neighbours alone, to save room here.
            lengths = vec![2 * size - 1, 2 * size, 2 * size + 1, 3 * size];
        }
        lengths.sort();
        lengths.dedup();
        cases.extend(lengths.into_iter().map(|length| Case { block_size, raw: draws.bytes(length) }));
    }
    cases
}

fn drawn(draws: &mut Draws) -> Vec<Case> {
    (0..60)
        .map(|_| {
            let block_size = 8 * (1 + draws.below(9));
            let length = draws.below(90);
            Case { block_size, raw: draws.bytes(length) }
        })
        .collect()
}
