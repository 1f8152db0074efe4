//! Cases for `crates/lotcheck_cases`: inputs of lotcheck and what it prints for them.

use answers::*;

/// A recording is a period of bytes repeated up to a length, which keeps the cases short and makes scores tie.
struct Case {
    room: usize,
    header: Vec<u8>,
    period: Vec<u8>,
    length: usize,
}

impl Case {
    fn raw(&self) -> Vec<u8> {
        (0..self.length).map(|i| self.period[i % self.period.len()]).collect()
    }
}

fn main() {
    let mut draws = Draws::new(8);
    let mut sheet = Sheet::default();
    sheet.note("Inputs of lotcheck. Made, with their answers, by `tools/answers/run lotcheck REFERENCE`; no answer is our own program's.");
    sheet.note("Findings: the reference's bottomup on one thread, over the first part of its whole_blocks; positive and second z: its evaluate_histogram on the second part.");
    sheet.note("Header, refusals and columns: the rules, in plain Rust in that tool.");
    sheet.note("Each case: the length of the lent buffer, which is full of dots before; the number of bytes of the header and the bytes;");
    sheet.note("the number of bytes of a period and the bytes; the length of the recording, that period repeated.");
    sheet.note("Each answer: the number answered; then the whole buffer as text.");
    let mut cases = vec![example(160)];
    cases.extend(header_cases());
    cases.extend(border_cases(&mut draws));
    cases.extend(room_cases());
    cases.extend(tied_cases(&mut draws));
    sheet.case([cases.len()]);
    for case in &cases {
        sheet.case([case.room]);
        sheet.case([case.header.len()].into_iter().chain(case.header.iter().map(|byte| *byte as usize)));
        sheet.case([case.period.len()].into_iter().chain(case.period.iter().map(|byte| *byte as usize)));
        sheet.case([case.length]);
        answer(&mut sheet, case);
    }
    sheet.save();
}

/// The rules' example.
fn example(room: usize) -> Case {
    Case { room, header: header(8, 2), period: vec![0x00, 0x00, 0xFF, 0xFF, 0x00, 0x80, 0xFF, 0xFF], length: 8 }
}

fn header(block_size: usize, k: usize) -> Vec<u8> {
    format!("{block_size:>6}{k:>6}\n").into_bytes()
}

/// Headers that are none, and some that are just within the rules.
fn header_cases() -> Vec<Case> {
    let texts: [&str; 34] = [
        "", "\n", "     8", "     8     2", "     8     2\r", "     8     2\r\n", "     8     2 \n", "    8     2\n", "      8      2\n",
        "    08     2\n", "000008     2\n", "     8    02\n", "     8000002\n", "    +8     2\n", "     8    +2\n", "    -8     2\n",
        "\t    8     2\n", "     8\t    2\n", "    8\t     2\n", "8          2\n", "     82     \n", "    8      2\n", "     8    2 \n",
        "           2\n", "     8      \n", "            \n", "  1  6     2\n", "   0 8     2\n", "    8.     2\n", "    :8     2\n", "    /8     2\n",
        "     x     2\n", "     8     2\n", "    16     1\n",
    ];
    texts.iter().map(|text| Case { room: 160, header: text.as_bytes().to_vec(), period: vec![0x12, 0x48], length: 16 }).collect()
}

/// The limits of B, of k and of the raw bytes, and which of two refusals comes first.
fn border_cases(draws: &mut Draws) -> Vec<Case> {
    let mut cases = Vec::new();
    let mut add = |block_size: usize, k: usize, period: Vec<u8>, length: usize| {
        cases.push(Case { room: 160, header: header(block_size, k), period, length });
    };
    for block_size in [0, 1, 7, 8, 9, 15, 16, 24, 56, 63, 64, 65, 66, 72, 99, 100, 4096, 65536, 999999] {
        add(block_size, 1, draws.bytes(5), 40);
    }
    for k in [0, 1, 2, 7, 8, 9, 10, 20, 21, 256, 999999] {
        add(8, k, draws.bytes(9), 33);
    }
    for length in [0, 1, 2, 3, 4, 8191, 8192, 8193, 8194, 8200] {
        for (block_size, k) in [(8, 2), (16, 1), (64, 1), (64, 2)] {
            add(block_size, k, draws.bytes(64), length);
        }
    }
    // the last length that is refused, and the first that is not
    for block_size in [8, 16, 24, 32, 40, 48, 56, 64] {
        for length in [block_size / 8 * 2 - 1, block_size / 8 * 2, block_size / 8 * 3 - 1, block_size / 8 * 3] {
            add(block_size, 2, draws.bytes(7), length);
        }
    }
    // 15 before 1 before 8 before 2
    for (block_size, k, length) in [(65, 0, 0), (7, 9, 1), (7, 0, 0), (8, 0, 1), (8, 0, 2), (64, 0, 15), (64, 0, 16), (0, 0, 8193), (12, 1, 8192)] {
        add(block_size, k, vec![0xA5], length);
    }
    cases
}

/// Lent buffers that are too short, just long enough, and longer.
fn room_cases() -> Vec<Case> {
    let mut cases = Vec::new();
    for room in [0, 1, 8, 9, 10, 49, 106, 107, 108, 154, 155] {
        cases.push(example(room));
        cases.push(Case { room, header: header(9, 2), period: vec![1], length: 4 });
        cases.push(Case { room, header: header(8, 8), period: vec![0x0F, 0xF0, 0x3C], length: 60 });
    }
    cases
}

/// Recordings full of ties: constant, periodic, of few distinct bytes; training halves about one and two words long.
fn tied_cases(draws: &mut Draws) -> Vec<Case> {
    let mut cases = Vec::new();
    let constants: [&[u8]; 6] = [&[0x00], &[0xFF], &[0x80], &[0x00, 0xFF], &[0x55, 0xAA], &[0x00, 0x00, 0x01, 0x80]];
    for (i, period) in constants.iter().enumerate() {
        for (block_size, k) in [(8, 1), (8, 3), (8, 8), (16, 2), (24, 2), (64, 2)] {
            cases.push(Case { room: 160, header: header(block_size, k), period: period.to_vec(), length: 64 + 37 * i });
        }
    }
    for blocks in [2, 3, 63, 126, 127, 128, 129, 130, 254, 255, 256, 257, 258] {
        for (block_size, k) in [(8, 2), (16, 3), (40, 2)] {
            let two = draws.bytes(2);
            let period = (0..11).map(|_| two[draws.below(2)]).collect();
            cases.push(Case { room: 160, header: header(block_size, k), period, length: blocks * block_size / 8 });
        }
    }
    for (block_size, k, length) in [(8, 4, 8192), (8, 8, 8192), (16, 4, 4096), (16, 8, 200), (24, 4, 1000), (32, 3, 8192), (56, 2, 8192), (64, 3, 512)] {
        cases.push(Case { room: 160, header: header(block_size, k), period: draws.bytes(240), length });
    }
    cases
}

/// The number in six columns: spaces, then digits that do not start with 0 unless that is all.
fn column(field: &[u8]) -> Option<usize> {
    let text = std::str::from_utf8(field).ok()?.trim_start_matches(' ');
    if text.is_empty() || !text.bytes().all(|byte| byte.is_ascii_digit()) || (text.len() > 1 && text.starts_with('0')) {
        return None;
    }
    text.parse().ok()
}

/// B, k and the raw bytes, where the input has a header.
fn parts(input: &[u8]) -> Option<(usize, usize, &[u8])> {
    if input.len() < 13 || input[12] != b'\n' {
        return None;
    }
    Some((column(&input[..6])?, column(&input[6..12])?, &input[13..]))
}

/// The sheet's text.
fn sheet_of(input: &[u8]) -> String {
    let refusal = |number: usize| format!("{number:>8}\n");
    let Some((block_size, k, raw)) = parts(input) else { return refusal(15) };
    if block_size > 64 || k > 8 || raw.len() > 8192 {
        return refusal(15);
    }
    if block_size < 8 || block_size % 8 != 0 {
        return refusal(1);
    }
    if raw.len() / (block_size / 8) < 2 {
        return refusal(8);
    }
    if k == 0 {
        return refusal(2);
    }
    let (training, testing) = whole_blocks(raw, block_size, true).unwrap();
    let finding = bottomup(training, block_size, k, 1).unwrap();
    let evaluated = evaluate_histogram(&finding, testing);
    let size = block_size / 8;
    let counts = [block_size, k, training.len() / size, testing.len() / size, finding.division, evaluated.positive];
    let line = |numbers: &[usize]| numbers.iter().map(|number| format!("{number:>8}")).collect::<String>() + "\n";
    line(&counts) + &line(&finding.bits) + &format!("{:>20}{:>20}\n", finding.z.to_bits(), evaluated.z.to_bits())
}

fn answer(sheet: &mut Sheet, case: &Case) {
    let input = [case.header.clone(), case.raw()].concat();
    let text = sheet_of(&input);
    if text.len() > case.room {
        sheet.answer([0]);
        sheet.text(&".".repeat(case.room));
    } else {
        sheet.answer([text.len()]);
        sheet.text(&(text.clone() + &".".repeat(case.room - text.len())));
    }
    sheet.text("\n");
}
