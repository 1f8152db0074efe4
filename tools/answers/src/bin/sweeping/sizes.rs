//! Recordings of every length at which a pair is no longer skipped, about 4,096 testing blocks, and every length of the store that matters.

use super::*;

pub fn cases() -> Vec<Case> {
    let mut cases = few_blocks();
    cases.extend(many_blocks());
    cases.extend(stores());
    cases
}

/// Two blocks of each block size of a plan, a byte fewer and a byte more. At a level below the pairs planned no pair is rejected, and all are tested.
fn few_blocks() -> Vec<Case> {
    let plans: [(usize, &[usize]); 13] = [
        (8, &[1, 2, 4]), (16, &[1, 2, 4]), (24, &[1, 3]), (32, &[1, 4]), (40, &[1, 5]), (64, &[1]), (128, &[1, 16]), (192, &[1]), (256, &[1, 32, 64]),
        (264, &[33]), (512, &[1, 64]), (1024, &[128]), (4096, &[1]),
    ];
    let mut told = Vec::new();
    for (block_size, sizes) in plans {
        for size in sizes {
            told.extend([2 * size - 1, 2 * size, 2 * size + 1].map(|length| (block_size, length)));
        }
    }
    // What takes longer: one length each, up to all seven pairs.
    told.extend([(8, 15), (8, 16), (8, 129), (64, 33), (24, 12), (24, 24), (128, 63), (128, 128), (192, 48), (4096, 1023)]);
    told.retain(|&(_, length)| length > 1);
    let case = |(i, ((block_size, length), low_first)): (usize, ((usize, usize), bool))| {
        let recording = if i % 3 == 0 { Recording::periodic(length, vec![0x5A, 0x0F, 0x10]) } else { Recording::drawn(length, 7 + i as u64) };
        fitting([1, 100, UNIT >> 9][i % 3], block_size, low_first, recording)
    };
    by_turns(told).into_iter().enumerate().map(case).collect()
}

/// Testing halves of 4,095 blocks, 4,096, 4,097 and more, of the first pair and of later ones; with an entry too few for the bracket, too.
fn many_blocks() -> Vec<Case> {
    let mut cases = Vec::new();
    let mut add = |level: u64, block_size: usize, recording: Recording| {
        let low_first = cases.len() % 4 == 2;
        let case = fitting(level, block_size, low_first, recording);
        let short = Room { entries: case.room.entries - 1, ..case.room };
        cases.push(Case { room: short, ..case.clone() });
        cases.push(case);
    };
    for length in [8189, 8190, 8191, 8192, 8193, 8194, 12_000] {
        add(1000, 512, Recording::drawn(length, length as u64));
        add(UNIT / 50, 512, Recording { length, seed: 9, weight: 10, pattern: (0..128).collect() });
    }
    add(UNIT / 100, 256, Recording::drawn(30_000, 30));
    add(UNIT / 100, 512, Recording::drawn(65_536, 31));
    // Every byte comes about as often as any other, but even ones at even places: little shows in bytes, much in blocks of 16 bits.
    for length in [16_380, 16_382, 16_384, 16_386, 16_388] {
        add(UNIT / 100, 16, Recording { length, seed: 77, weight: 128, pattern: (0..=255).collect() });
    }
    add(UNIT / 100, 32, Recording { length: 32_772, seed: 78, weight: 128, pattern: (0..=255).collect() });
    cases
}

/// No store, one entry too few for a pair, and just enough.
fn stores() -> Vec<Case> {
    let mut cases = Vec::new();
    for (block_size, length) in [(8, 7), (8, 9), (24, 11), (128, 33), (256, 150), (512, 200)] {
        let case = fitting(UNIT >> 20, block_size, length % 2 == 1, Recording::drawn(length, 12));
        let raw = case.recording.bytes();
        let mut lengths = vec![0, 1];
        lengths.extend(pairs(&case.plan(), &raw).iter().flat_map(|pair| [pair.store() - 1, pair.store()]).filter(|&store| store < LONG_STORE));
        for store in lengths {
            cases.push(Case { room: Room { store, ..case.room }, ..case.clone() });
        }
    }
    cases
}
