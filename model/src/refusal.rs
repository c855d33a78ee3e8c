//! The eleven refusals and their numbers (01, "Refusals that come from the input" and "... from the state"; 02, (v)).

#[derive(Clone, Copy, Debug, PartialEq, Eq)]
pub enum Refusal {
    /// Lot above 7.
    NoPartition = 1,
    /// The epoch or ticket is not that of an open load or page.
    NotOpen = 2,
    /// The bitmap of a scan, or the output of a save, is shorter than the rows need.
    TooShort = 3,
    /// Starting epoch, page epoch, LSE target or the epoch of a save out of range.
    OutOfRange = 4,
    /// The store is unsound, or lent areas have a wrong length.
    NotWellFormed = 5,
    /// No epoch is left (begin), or no ticket (open).
    Exhausted = 6,
    /// All 32 places are taken.
    TxnsFull = 7,
    /// More rows than the lot has left.
    RowsFull = 8,
    /// An entry is needed and the lot has 64.
    EntriesFull = 9,
    /// The move of LSE is held.
    Blocked = 10,
    /// A table of contents with a count above 512, an epoch out of range or below the round before, or 0 with rows.
    Corrupt = 11,
}

impl Refusal {
    pub fn number(self) -> u64 {
        self as u64
    }
}
