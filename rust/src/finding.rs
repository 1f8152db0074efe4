use crate::bit_order::BitOrder;
use crate::bracket::Bracket;
use crate::calls;
use crate::refusal::{accepted, Refusal};

/// A distinguisher: bits of a block and the bit order by which they are numbered, the order of their bins, the division of that order and the score there.
#[derive(Clone, Debug, PartialEq)]
pub struct Finding {
    numbers: [u64; 25],
    bits: Vec<u32>,
    order: Vec<u32>,
    counts: Vec<u32>,
}

/// How many blocks were in the bins before the division, of which counts, and the score: none where there was no block.
#[derive(Clone, Debug, PartialEq)]
pub struct Evaluation {
    pub positive: u32,
    pub counts: Vec<u32>,
    pub z: Option<f64>,
}

impl Finding {
    pub(crate) fn found(numbers: [u64; 25], order: Vec<u32>, counts: Vec<u32>) -> Finding {
        let bits = numbers[4..4 + numbers[1] as usize].iter().map(|&bit| bit as u32).collect();
        Finding { numbers, bits, order, counts }
    }

    /// A finding of which a search of these bytes has left the numbers alone: its counts there are made again, and its order is theirs.
    pub(crate) fn searched(numbers: [u64; 25], bytes: &[u8]) -> Finding {
        let bins = 1 << numbers[1];
        let (mut order, mut counts): (Vec<u32>, _) = ((0..bins).collect(), vec![0; bins as usize]);
        accepted(calls::evaluate_histogram(&numbers, &order, bytes, &mut counts, &mut [0; 3])).expect("what was searched can be evaluated");
        accepted(calls::from_bins(numbers[1] as usize, &counts, &mut order, &mut [0; 2])).expect("the counts are those of the blocks");
        Finding::found(numbers, order, counts)
    }

    /// A finding from elsewhere, where it is sound. Its score and counts are not known: 0 and none.
    pub fn checked(block_size: usize, bit_order: BitOrder, bits: &[u32], order: &[u32], division: u32) -> Result<Finding, Refusal> {
        let mut numbers = [0; 25];
        numbers[..3].copy_from_slice(&[block_size as u64, bits.len() as u64, division as u64]);
        for (number, &bit) in numbers[4..24].iter_mut().zip(bits) {
            *number = bit as u64;
        }
        numbers[24] = bit_order.low_first() as u64;
        let mut scratch = vec![0; order.len()];
        accepted(calls::validate(&numbers, order, &mut scratch))?;
        Ok(Finding::found(numbers, order.to_vec(), Vec::new()))
    }

    /// A finding from its text, where that is an object as [`to_json`](Finding::to_json) writes it, its keys in any order, with white space and a z_score
    /// or without, and the finding is sound. Without low_first the high bit comes first. Its score and counts are not known: 0 and none.
    pub fn from_json(text: &[u8]) -> Result<Finding, Refusal> {
        // A text of n bytes has no more than n / 2 indices, so that neither is too short for it.
        let (mut order, mut scratch) = (vec![0; text.len() / 2], vec![0; text.len() / 2]);
        let mut numbers = [0; 25];
        accepted(calls::read_finding(text, &mut order, &mut scratch, &mut numbers))?;
        order.truncate(1 << numbers[1]);
        order.shrink_to_fit();
        Ok(Finding::found(numbers, order, Vec::new()))
    }

    /// The finding and its order as the upstream tool writes and reads them: one object with the keys bits, sorted_indices, best_division and block_size,
    /// and low_first, which that tool passes over. The score and the counts are not in it.
    ///
    /// ```
    /// use jimrawel::{BitOrder, Finding, Refusal};
    /// let finding = Finding::checked(16, BitOrder::LowFirst, &[3, 9], &[2, 0, 3, 1], 2)?;
    /// let text = finding.to_json();
    /// assert_eq!(text, r#"{"bits":[3,9],"sorted_indices":[2,0,3,1],"best_division":2,"block_size":16,"low_first":true}"#);
    /// assert_eq!(Finding::from_json(text.as_bytes())?, finding);
    /// assert_eq!(Finding::from_json(b"{}"), Err(Refusal::Text));
    /// # Ok::<(), Refusal>(())
    /// ```
    pub fn to_json(&self) -> String {
        let mut scratch = vec![0; self.order.len()];
        let (mut text, mut length) = (vec![0; calls::longest_text(self.bits.len())], 0);
        accepted(calls::write_finding(&self.numbers, &self.order, &mut scratch, &mut text, &mut length)).expect("a finding is sound");
        text.truncate(length);
        text.shrink_to_fit();
        String::from_utf8(text).expect("a text is ASCII")
    }

    pub fn block_size(&self) -> usize {
        self.numbers[0] as usize
    }

    /// That of the recording that was searched; of a finding from elsewhere, as it was given.
    pub fn bit_order(&self) -> BitOrder {
        BitOrder::of(self.numbers[24])
    }

    pub fn bits(&self) -> &[u32] {
        &self.bits
    }

    pub fn division(&self) -> u32 {
        self.numbers[2] as u32
    }

    /// The score in the data that was searched; 0 of a finding from elsewhere.
    pub fn z(&self) -> f64 {
        f64::from_bits(self.numbers[3])
    }

    /// The bins, as searched: those with the greatest counts first, equal counts by rising bin. Of a finding from elsewhere, as they were given.
    pub fn order(&self) -> &[u32] {
        &self.order
    }

    /// The counts of the bins in the data that was searched; none of a finding from elsewhere.
    pub fn counts(&self) -> &[u32] {
        &self.counts
    }

    /// How the finding does on the whole blocks of other bytes, their bits taken in its bit order.
    pub fn evaluate(&self, bytes: &[u8]) -> Result<Evaluation, Refusal> {
        let mut counts = vec![0; self.order.len()];
        let mut numbers = [0; 3];
        accepted(calls::evaluate_histogram(&self.numbers, &self.order, bytes, &mut counts, &mut numbers))?;
        let z = (numbers[1] == 1).then(|| f64::from_bits(numbers[2]));
        Ok(Evaluation { positive: numbers[0] as u32, counts, z })
    }

    /// Evaluates, and brackets the chance that a fair source has at least as many positives among as many blocks. Refused as an evaluation is, and above 4,096
    /// blocks with [`Refusal::Counts`].
    pub fn bracket(&self, bytes: &[u8]) -> Result<Bracket, Refusal> {
        let Evaluation { positive, counts, .. } = self.evaluate(bytes)?;
        // Every block is in one bin.
        let blocks: u32 = counts.iter().sum();
        Bracket::of(blocks as usize, positive as usize, self.bits.len(), self.division() as usize)
    }
}
