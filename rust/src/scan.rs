//! The rows that a scan shows.

use crate::limits::BITMAP_MAX;
use core::iter::FusedIterator;

/// Rows that one word of the bitmap speaks of.
const WORD: usize = 64;

/// What a scan shows of a partition (01: lot): an iterator over the rows, in order. It holds the bitmap that the scan
/// wrote, 64 bytes, and borrows the store.
///
/// ```
/// use nizgulk::{Epoch, Refusal, Store};
/// let mut store = Store::new(Epoch::FIRST)?;
/// let load = store.begin()?;
/// store.append(load, 3, &[10, 11, 12])?;
/// let scan = store.scan(load, 3)?;
/// assert_eq!((scan.len(), scan.row_count(), scan.bitmap()), (3, 3, &[0b111][..]));
/// assert!(scan.eq([10, 11, 12]));
/// # Ok::<(), Refusal>(())
/// ```
#[derive(Clone, Debug)]
pub struct Scan<'a> {
    /// All rows of the partition.
    rows: &'a [u64],
    bitmap: [u8; BITMAP_MAX],
    /// How many rows are still to be shown.
    left: usize,
    /// The word of the bitmap that is being read, and what is left of it.
    at: usize,
    word: u64,
}

impl<'a> Scan<'a> {
    pub(crate) fn new(rows: &'a [u64], bitmap: [u8; BITMAP_MAX], ones: usize) -> Scan<'a> {
        Scan { rows, bitmap, left: ones, at: 0, word: word_of(&bitmap, 0) }
    }

    /// How many rows the partition has, shown or not.
    pub fn row_count(&self) -> usize {
        self.rows.len()
    }

    /// A bit for each row of the partition, 1 if it is shown: row 0 is the lowest bit of byte 0, and the bits left in
    /// the last byte are 0.
    pub fn bitmap(&self) -> &[u8] {
        &self.bitmap[..self.rows.len().div_ceil(8)]
    }
}

/// A word of the bitmap: row 64 * at is its lowest bit.
#[inline]
fn word_of(bitmap: &[u8; BITMAP_MAX], at: usize) -> u64 {
    let mut bytes = [0; 8];
    bytes.copy_from_slice(&bitmap[8 * at..8 * at + 8]);
    u64::from_le_bytes(bytes)
}

impl Iterator for Scan<'_> {
    type Item = u64;

    #[inline]
    fn next(&mut self) -> Option<u64> {
        self.left = self.left.checked_sub(1)?;
        while self.word == 0 {
            self.at += 1;
            self.word = word_of(&self.bitmap, self.at);
        }
        let row = WORD * self.at + self.word.trailing_zeros() as usize;
        self.word &= self.word - 1;
        Some(self.rows[row])
    }

    #[inline]
    fn size_hint(&self) -> (usize, Option<usize>) {
        (self.left, Some(self.left))
    }

    /// Goes over 64 rows at a time, and over those that are all shown without a look at their bits: `sum`, `for_each`
    /// and `collect` come here.
    fn fold<B, F: FnMut(B, u64) -> B>(self, start: B, mut add: F) -> B {
        let (mut all, mut word) = (start, self.word);
        for (at, rows) in self.rows.chunks(WORD).enumerate().skip(self.at) {
            if at > self.at {
                word = word_of(&self.bitmap, at);
            }
            if word == u64::MAX {
                all = rows.iter().fold(all, |all, row| add(all, *row));
                continue;
            }
            while word != 0 {
                all = add(all, rows[word.trailing_zeros() as usize]);
                word &= word - 1;
            }
        }
        all
    }
}

impl ExactSizeIterator for Scan<'_> {}
impl FusedIterator for Scan<'_> {}
