//! Every refusal at its edge, and beside those that come after it.

use super::*;

const NOTHING: Room = Room { words: 0, store: 0, bins: 0, order: 0, scratch: 0, entries: 0 };

pub fn cases() -> Vec<Case> {
    let mut cases = both(outside()).into_iter().map(|(case, low_first)| Case { low_first, ..case }).collect::<Vec<_>>();
    for (block_size, length) in [(8, 15), (16, 9), (24, 13), (64, 15), (128, 70), (256, 200), (512, 300), (1024, 300), (4096, 1024)] {
        let case = fitting(1000, block_size, false, Recording::drawn(length, 5));
        cases.extend(by_turns(short(&case)).into_iter().map(|(case, low_first)| Case { low_first, ..case }));
    }
    cases
}

/// 20, 1 and 8, each alone, with what would be refused later, and with nothing lent.
fn outside() -> Vec<Case> {
    let good = fitting(1000, 256, false, Recording::drawn(100, 3));
    let mut cases = Vec::new();
    let mut around = |case: Case| {
        cases.push(Case { room: NOTHING, ..case.clone() });
        cases.push(Case { recording: Recording::drawn(1, 3), ..case.clone() });
        cases.push(Case { room: Room { bins: 255, ..good.room }, ..case.clone() });
        cases.push(case);
    };
    for level in [0, UNIT, UNIT + 1, 1 << 63, u64::MAX] {
        around(Case { level, ..good.clone() });
        around(Case { level, block_size: 12, ..good.clone() });
    }
    for level in [1, UNIT - 1] {
        around(Case { level, ..good.clone() });
    }
    for block_size in [0, 1, 7, 12, 4095, 4097, 4104, 1 << 32, usize::MAX - 7, usize::MAX] {
        around(Case { block_size, ..good.clone() });
    }
    for block_size in [8, 24, 512, 4096] {
        for length in [0, 1] {
            let few = Case { block_size, recording: Recording::drawn(length, 3), ..good.clone() };
            cases.extend([Case { room: NOTHING, ..few.clone() }, few]);
        }
    }
    cases
}

/// The words of each pair, and one fewer; each buffer one entry too short, and empty; 5 beside 7.
fn short(case: &Case) -> Vec<Case> {
    let raw = case.recording.bytes();
    let with = |room: Room| Case { room, ..case.clone() };
    let room = case.room;
    let mut cases = vec![with(NOTHING)];
    let lacking = [
        Room { bins: 255, ..room },
        Room { order: 255, ..room },
        Room { scratch: 255, ..room },
        Room { entries: room.entries - 1, ..room },
        Room { bins: 0, ..room },
        Room { order: 0, ..room },
        Room { scratch: 0, ..room },
        Room { entries: 0, ..room },
    ];
    cases.extend(lacking.map(with));
    for pair in pairs(&case.plan(), &raw) {
        // 5 of this pair, or of one before it, where the words are too few: beside 7 of the first pair it is given only where the first pair lacks words too.
        for words in [pair.words() - 1, pair.words()] {
            cases.push(with(Room { words, ..room }));
            cases.push(with(Room { words, ..lacking[words % 4] }));
        }
    }
    cases
}
