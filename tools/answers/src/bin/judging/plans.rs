//! Plans: B and a number of bytes.

use answers::*;

const MB: usize = 1_000_000;
const GB: usize = 1_000_000_000;

pub fn write(sheet: &mut Sheet, draws: &mut Draws) {
    let mut cases = Vec::new();
    for block_size in [0, 1, 4, 7, 9, 12, 4095, 4097, 4104, 1 << 32, (1 << 32) + 8, usize::MAX - 7, usize::MAX] {
        cases.extend([(block_size, 0), (block_size, 1000)]);
    }
    // Around both limits of the data, and far from them.
    let sizes = [0, 1000, 10 * MB - 1, 10 * MB, 10 * MB + 1, 2 * GB - 1, 2 * GB, 2 * GB + 1, 1 << 32, usize::MAX];
    // On, below and above each block size at which a width ends, B itself and its doubles; all that lead to seven pairs.
    for block_size in [
        8, 16, 24, 32, 40, 56, 64, 72, 120, 128, 136, 184, 192, 248, 256, 264, 504, 512, 520, 1016, 1024, 1032, 2048, 4088, 4096,
    ] {
        cases.extend(sizes.map(|size| (block_size, size)));
    }
    for block_size in (8..=4096).step_by(8) {
        let near = [1, 10 * MB, 2 * GB][draws.below(3)];
        cases.push((block_size, near + draws.below(3) - 1));
    }
    for case in run::sample() {
        if let run::Case::Plan(run::Plan { block_size, data_size }) = case {
            cases.push((block_size, data_size));
        }
    }
    sheet.note("Plans: the reference's configurations; before it 1, where B is no multiple of 8 from 8 to 4,096.");
    sheet.note("Each: B and the bytes. Answer: the refusal and the number of pairs; seven block sizes; seven widths.");
    sheet.note(&run::note());
    sheet.case([cases.len()]);
    for (block_size, size) in cases {
        sheet.case([block_size, size]);
        let pairs = if valid(block_size) { configurations(block_size, size) } else { vec![] };
        assert!(pairs.len() <= 7);
        sheet.answer([!valid(block_size) as usize, pairs.len()]);
        for column in [|pair: &(usize, usize)| pair.0, |pair: &(usize, usize)| pair.1] {
            let mut line: Vec<usize> = pairs.iter().map(column).collect();
            line.resize(7, 0);
            sheet.answer(line);
        }
    }
}
