/// Why a call was refused, by its number in the C interface.
#[derive(Clone, Copy, Debug, PartialEq, Eq)]
#[repr(u32)]
pub enum Refusal {
    /// The block size is no multiple of 8 from 8 to 4,096.
    BlockSize = 1,
    /// The width is 0 or above 20.
    Width = 2,
    /// The width is above the block size.
    WidthAboveBlock = 3,
    /// The sampler is none of the lent words, or a board has a block's unfinished bytes or more.
    Sampler = 4,
    /// The piece would complete more blocks than capacity leaves; of a sweep, the half of the recording that is searched.
    Full = 5,
    /// A buffer is too short, for the bins or for the n + 1 entries of a bracket.
    Buffer = 7,
    /// There are fewer than two blocks.
    FewBlocks = 8,
    /// The bits do not strictly increase.
    BitsNotRising = 9,
    /// A bit is outside the block.
    BitOutside = 10,
    /// The order has another length than the bins.
    OrderLength = 11,
    /// There are too many blocks to evaluate, or subsets to rank.
    TooMany = 12,
    /// The order does not list every bin once.
    NoPermutation = 13,
    /// The division, or the d of a bracket, is 0, or the number of bins or more.
    Division = 14,
    /// The text is no such object, or a number of it but a z_score is above 2^32 - 1.
    Text = 16,
    /// The output or the order buffer is too short.
    Room = 17,
    /// The stretch ends before it begins, or after the last whole block.
    Stretch = 18,
    /// A bracket is asked of more than 4,096 blocks, or of more positives than blocks.
    Counts = 19,
    /// The level of a sweep is 0 or at least 2^40.
    Level = 20,
    /// There is no such board: it is above 3.
    Board = 21,
    /// A slice is too short for its record.
    ShortRecord = 25,
    /// The counts of a ranking add up to 2^32 or more.
    TooManyCounted = 26,
    /// A sampler or a finding has a bit order that is neither 0 nor 1.
    BitOrder = 27,
}

const ALL: [Refusal; 22] = [
    Refusal::BlockSize,
    Refusal::Width,
    Refusal::WidthAboveBlock,
    Refusal::Sampler,
    Refusal::Full,
    Refusal::Buffer,
    Refusal::FewBlocks,
    Refusal::BitsNotRising,
    Refusal::BitOutside,
    Refusal::OrderLength,
    Refusal::TooMany,
    Refusal::NoPermutation,
    Refusal::Division,
    Refusal::Text,
    Refusal::Room,
    Refusal::Stretch,
    Refusal::Counts,
    Refusal::Level,
    Refusal::Board,
    Refusal::ShortRecord,
    Refusal::TooManyCounted,
    Refusal::BitOrder,
];

impl Refusal {
    /// Its number.
    pub fn number(self) -> u32 {
        self as u32
    }
}

impl std::fmt::Display for Refusal {
    fn fmt(&self, out: &mut std::fmt::Formatter) -> std::fmt::Result {
        write!(out, "refusal {}: {self:?}", self.number())
    }
}

impl std::error::Error for Refusal {}

/// Nothing for 0, else the refusal.
pub(crate) fn accepted(number: u32) -> Result<(), Refusal> {
    match ALL.iter().find(|refusal| refusal.number() == number) {
        Some(&refusal) => Err(refusal),
        None => Ok(assert_eq!(number, 0, "a refusal that no call gives")),
    }
}
