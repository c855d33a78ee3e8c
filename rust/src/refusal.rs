//! Why a call is refused, with the numbers of 01 and 02.

use core::fmt;

/// Why a call is refused. The numbers are 01's, and 02's from 11 on. A call that could be refused for several of these
/// reasons answers the first of them in the order 5, 1, 2, 4, 3, 6, 7, 8, 9, 10, 11. A refused call has changed
/// nothing.
#[derive(Clone, Copy, Debug, PartialEq, Eq, Hash)]
pub enum Refusal {
    /// 1: there is no such partition (01: lot above 7).
    UnknownPartition = 1,
    /// 2: no open transaction has this epoch or ticket (01: load, page).
    NotOpen = 2,
    /// 3: the output is too short: the bitmap of a scan for the partition's rows, or that of a save for the rows shown.
    ShortOutput = 3,
    /// 4: the starting epoch, a read-only transaction's epoch (01: page), LSE's target or the epoch to save is out of
    /// range.
    OutOfRange = 4,
    /// 5: the words of the store do not fit together (01: unsound), or an area has a wrong length.
    Unsound = 5,
    /// 6: no epoch is left to begin with, or no ticket.
    Exhausted = 6,
    /// 7: 32 read-write transactions (01: loads) are open or waiting, or 32 read-only ones (01: pages) open.
    TxnsFull = 7,
    /// 8: the partition has not so many rows left of 512.
    RowsFull = 8,
    /// 9: an entry is needed and the partition has 64.
    EntriesFull = 9,
    /// 10: an open transaction still needs what is older than LSE's target (01: held).
    Blocked = 10,
    /// 11: a table of contents of the file is one that no save writes there: more than 512 rows of a partition, an
    /// epoch above the last or below the one before, or epoch 0 and rows.
    Corrupt = 11,
}

impl Refusal {
    /// The name of [`Refusal::ShortOutput`] before a save could meet it.
    #[allow(non_upper_case_globals)]
    pub const ShortBitmap: Refusal = Refusal::ShortOutput;

    /// All of them, by their numbers.
    pub const ALL: [Refusal; 11] = [
        Refusal::UnknownPartition,
        Refusal::NotOpen,
        Refusal::ShortOutput,
        Refusal::OutOfRange,
        Refusal::Unsound,
        Refusal::Exhausted,
        Refusal::TxnsFull,
        Refusal::RowsFull,
        Refusal::EntriesFull,
        Refusal::Blocked,
        Refusal::Corrupt,
    ];

    /// Its number, 1 to 11.
    ///
    /// ```
    /// assert_eq!(nizgulk::Refusal::RowsFull.number(), 8);
    /// ```
    pub const fn number(self) -> u64 {
        self as u64
    }

    /// The refusal of this number; none of 0, which is accepted, or of a number above 11.
    pub fn from_number(number: u64) -> Option<Refusal> {
        Refusal::ALL.into_iter().find(|refusal| refusal.number() == number)
    }

    /// What a reply of this number says: 0 is accepted.
    ///
    /// # Panics
    /// On a number above 11. The proved calls answer none, so the library that was linked is not theirs.
    pub(crate) fn check(number: u64) -> Result<(), Refusal> {
        match (number, Refusal::from_number(number)) {
            (0, _) => Ok(()),
            (_, Some(refusal)) => Err(refusal),
            (_, None) => panic!("a call answered {number}: the linked library is not this crate's"),
        }
    }
}

impl fmt::Display for Refusal {
    fn fmt(&self, f: &mut fmt::Formatter) -> fmt::Result {
        let why = match self {
            Refusal::UnknownPartition => "there is no such partition",
            Refusal::NotOpen => "no open transaction has this epoch or ticket",
            Refusal::ShortOutput => "the output is shorter than the rows need",
            Refusal::OutOfRange => "the epoch is out of range",
            Refusal::Unsound => "the store is unsound, or an area has a wrong length",
            Refusal::Exhausted => "no epoch or ticket is left",
            Refusal::TxnsFull => "32 transactions are open or waiting",
            Refusal::RowsFull => "the partition has not so many rows left",
            Refusal::EntriesFull => "the partition has no entry left",
            Refusal::Blocked => "an open transaction needs what is older",
            Refusal::Corrupt => "the file has a table of contents that no save wrote",
        };
        write!(f, "refused, {}: {why}", self.number())
    }
}

impl core::error::Error for Refusal {}
