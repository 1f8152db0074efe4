/// Which bit of a byte comes first, as the recorder packs them.
#[derive(Clone, Copy, Debug, PartialEq, Eq, Hash)]
pub enum BitOrder {
    /// Bit b of a block is bit 7 - b % 8 of its byte b / 8.
    HighFirst,
    /// Bit b of a block is bit b % 8 of its byte b / 8.
    LowFirst,
}

impl BitOrder {
    pub(crate) fn low_first(self) -> bool {
        self == BitOrder::LowFirst
    }

    /// Of the number in a record.
    pub(crate) fn of(number: u64) -> BitOrder {
        if number == 1 { BitOrder::LowFirst } else { BitOrder::HighFirst }
    }
}
