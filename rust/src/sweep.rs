use crate::bit_order::BitOrder;
use crate::bracket::Bracket;
use crate::calls;
use crate::finding::Finding;
use crate::refusal::{accepted, Refusal};
use crate::sampler::own_store;
use crate::{plan, split};

/// What a sweep says of a recording.
#[derive(Clone, Copy, Debug, PartialEq, Eq, Hash)]
pub enum Verdict {
    /// The chance of the pair tested last is below its share of the level: so seldom does a fair source do as well there.
    Rejected,
    /// No pair is rejected, but a bracket reaches down below the share: whether that chance is below it is open.
    Undecided,
    /// No chance is below the share.
    NotRejected,
}

/// A pair of a block size and a width that was tested.
#[derive(Clone, Debug, PartialEq)]
pub struct Tested {
    /// The best of the first half of the blocks.
    pub finding: Finding,
    /// How many blocks of the second half it was evaluated on: all, or the first 4,096.
    pub blocks: usize,
    /// How many of them were positive.
    pub positive: u32,
    /// The chance that a fair source has at least as many.
    pub bracket: Bracket,
}

/// The verdict about a recording, and what it rests on.
#[derive(Clone, Debug, PartialEq)]
pub struct Sweep {
    pub verdict: Verdict,
    /// Those up to the rejected one, or all, but for the skipped ones, which have fewer than two blocks.
    pub pairs_tested: usize,
    /// The pair whose bracket has the lowest lower end, the earlier where two are equal.
    pub best: Tested,
    /// The pair tested last, which is the rejected one where one is.
    pub last: Tested,
}

/// Tests a whole recording: pair after pair of its [`plan`], the first half of the blocks is searched, and the finding evaluated on the second, until a pair is
/// rejected. `level` is how often a fair source may be rejected, in units of 2^-40, and each pair planned has an equal share of it. A bracket of n blocks is
/// n (n + 3) / 2 units wide, so that with a share that is no larger nothing is rejected: 8,394,752 at 4,096 blocks, the most. A level below the number of
/// pairs, at most 7, leaves each a share of 0: nothing is below it, and every recording is not rejected.
///
/// A recording has 2 to 33,554,433 bytes; a longer one is refused with [`Refusal::Full`].
///
/// ```
/// use jimrawel::{sweep, BitOrder, Refusal, Verdict};
/// let recording: Vec<u8> = (0..600).map(|i| (i * 37 % 251) as u8).collect();
/// let swept = sweep(&recording, 16, BitOrder::HighFirst, 1 << 30)?;
/// // Not by its bytes, but by 4 bits of every two: a seventh of the level, 153,391,689 units, is above the upper end.
/// assert_eq!((swept.verdict, swept.pairs_tested), (Verdict::Rejected, 2));
/// assert_eq!((swept.last.finding.bits(), swept.last.finding.division()), (&[6, 7, 14, 15][..], 4));
/// assert_eq!((swept.last.positive, swept.last.blocks), (129, 150));
/// assert_eq!((swept.last.bracket.low, swept.last.bracket.high), (0, 11_475));
/// assert_eq!(sweep(&recording, 16, BitOrder::HighFirst, 0), Err(Refusal::Level));
/// # Ok::<(), Refusal>(())
/// ```
pub fn sweep(recording: &[u8], block_size: usize, bit_order: BitOrder, level: u64) -> Result<Sweep, Refusal> {
    // Where the plan is refused, so is the sweep, whatever the buffers.
    let pairs = plan(block_size, recording.len()).unwrap_or_default();
    let stored = pairs.iter().map(|&(size, k)| own_store(size, k)).max().unwrap_or(0);
    let (mut words, mut store) = (vec![0; words_needed(&pairs, recording.len())], vec![0; stored]);
    let (mut bins, mut order, mut scratch) = ([0; 256], [0; 256], [0; 256]);
    let (mut entries, mut swept) = ([0; 4097], [0; 60]);
    accepted(calls::sweep(
        recording, block_size, bit_order.low_first(), level,
        &mut words, &mut store, &mut bins, &mut order, &mut scratch, &mut entries, &mut swept,
    ))?;
    Ok(Sweep {
        verdict: Verdict::of(swept[0]),
        pairs_tested: swept[1] as usize,
        best: Tested::of(&swept[2..31], recording),
        last: Tested::of(&swept[31..], recording),
    })
}

/// The most blocks that are searched, whatever the words.
const MOST_SEARCHED: usize = 16_777_216;

/// As many words as hold the first half of the blocks of every pair; none where that of some pair is too long for any, since the sweep is then refused.
fn words_needed(pairs: &[(usize, usize)], bytes: usize) -> usize {
    let halves = pairs.iter().map(|&(size, _)| (size, bytes / (size / 8) / 2));
    if halves.clone().any(|(_, blocks)| blocks > MOST_SEARCHED) {
        return 0;
    }
    halves.map(|(size, blocks)| size * blocks.div_ceil(64)).max().unwrap_or(0)
}

impl Verdict {
    /// Of the number in a record.
    fn of(number: u64) -> Verdict {
        match number {
            1 => Verdict::Rejected,
            2 => Verdict::NotRejected,
            _ => Verdict::Undecided,
        }
    }
}

impl Tested {
    /// Of the 29 numbers in a record.
    fn of(numbers: &[u64], recording: &[u8]) -> Tested {
        let finding: [u64; 25] = numbers[..25].try_into().expect("a finding is 25 numbers");
        let (training, _) = split(recording, finding[0] as usize, true).expect("a tested pair has two blocks");
        Tested {
            finding: Finding::searched(finding, training),
            blocks: numbers[25] as usize,
            positive: numbers[26] as u32,
            bracket: Bracket { low: numbers[27], high: numbers[28] },
        }
    }
}

#[cfg(test)]
mod tests {
    use super::words_needed;

    #[test]
    fn words() {
        for (size, bytes, words) in [(8, 0, 0), (8, 1, 0), (8, 2, 8), (8, 129, 8), (8, 130, 16), (512, 128, 512), (512, 127, 0), (8, 33_554_433, 2_097_152)] {
            assert_eq!(words_needed(&[(size, 2)], bytes), words, "B {size}, {bytes} bytes");
        }
        // The longest block has the most words here; and a half is too long.
        assert_eq!((words_needed(&[(8, 8), (16, 4), (512, 2)], 512), words_needed(&[(8, 8), (512, 2)], 33_554_434)), (512, 0));
    }
}
