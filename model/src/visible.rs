//! Which rows a reader is shown, the bits of a scan, and what rows weigh (01, "Who sees a row"; 02, (ii), (iii), (v)).

use crate::partition::{Entry, CLEARING};
use crate::txn::RwTxn;
use crate::variant::{wrong, Variant};

/// Who scans: a load by its epoch or a page by its ticket.
#[derive(Clone, Copy, Debug, PartialEq, Eq)]
pub enum Reader {
    Rw(u64),
    Ro(u64),
}

/// What an open reader knows: a load its epoch and deps, a page its epoch.
#[derive(Clone, Copy, Debug)]
pub enum View<'a> {
    Rw(&'a RwTxn),
    Ro(u64),
}

impl View<'_> {
    /// Whether rows of epoch j can be seen at all.
    pub fn sees(&self, j: u64) -> bool {
        match self {
            View::Rw(txn) => j == txn.epoch || j < txn.epoch && !txn.deps().contains(&j),
            View::Ro(epoch) => j <= *epoch,
        }
    }

    /// Whether a clearing of epoch k applies: each that is seen does, a load's own like any other.
    fn applies(&self, k: u64) -> bool {
        match self {
            View::Rw(txn) if wrong(Variant::LoadSkipsOwnClear) => self.sees(k) && k < txn.epoch,
            View::Rw(txn) if wrong(Variant::LoadAppliesUnseenClear) => k <= txn.epoch,
            View::Ro(epoch) if wrong(Variant::PageAppliesBelowOnly) => k < *epoch,
            _ => self.sees(k),
        }
    }

    fn is_own(&self, k: u64) -> bool {
        matches!(self, View::Rw(txn) if txn.epoch == k)
    }
}

/// Whether the rows of the entry at place `at` are shown. Rows in a gap below a clearing stand before it.
pub fn shown(view: &View, entries: &[Entry], at: usize) -> bool {
    let j = entries[at].epoch;
    if !view.sees(j) {
        return false;
    }
    for (clearing_at, clearing) in entries.iter().enumerate() {
        if clearing.mark != CLEARING || !view.applies(clearing.epoch) {
            continue;
        }
        let k = clearing.epoch;
        let before = at <= clearing_at;
        let earlier = j < k
            && (before || !wrong(Variant::ClearHidesBeforeOnly))
            && !(view.is_own(k) && wrong(Variant::OwnClearHidesOwnOnly));
        let same = j == k && (before || view.is_own(k) && wrong(Variant::OwnClearHidesRowsAfter));
        if earlier || same {
            return false;
        }
    }
    true
}

/// The milligrams of a row: its low 32 bits.
pub fn milligrams(row: u64) -> u64 {
    row & 0xffff_ffff
}

/// The milligrams of the rows that are shown.
pub fn total(view: &View, entries: &[Entry], rows: &[u64]) -> u64 {
    let mut total: u64 = 0;
    let mut start = 0;
    for (at, entry) in entries.iter().enumerate() {
        let end = entry.end as usize;
        if shown(view, entries, at) || wrong(Variant::TotalCountsHidden) && view.sees(entry.epoch) {
            for &row in &rows[start..end] {
                let weight = if wrong(Variant::TotalOfWholeWords) { row } else { milligrams(row) };
                total = total.wrapping_add(weight);
            }
        }
        start = end;
    }
    total
}

/// The rows that are shown, in their order.
pub fn rows_shown(view: &View, entries: &[Entry], rows: &[u64]) -> Vec<u64> {
    let mut all = Vec::with_capacity(rows.len());
    let mut start = 0;
    for (at, entry) in entries.iter().enumerate() {
        let end = entry.end as usize;
        if shown(view, entries, at) || wrong(Variant::SaveKeepsHidden) && view.sees(entry.epoch) {
            all.extend_from_slice(&rows[start..end]);
        }
        start = end;
    }
    all
}

/// Bytes of bitmap that so many rows need.
pub fn bytes_needed(rows: u64) -> usize {
    rows.div_ceil(8) as usize
}

/// Writes one bit a row, row 0 lowest in byte 0; answers the count of ones. Later bytes stay.
pub fn write_bits(view: &View, entries: &[Entry], rows: u64, bitmap: &mut [u8]) -> u64 {
    bitmap[..bytes_needed(rows)].fill(0);
    let mut ones = 0;
    let mut start = 0;
    for (at, entry) in entries.iter().enumerate() {
        if start < entry.end && shown(view, entries, at) {
            for row in start..entry.end {
                bitmap[(row / 8) as usize] |= 1 << (row % 8);
            }
            ones += entry.end - start;
        }
        start = entry.end;
    }
    if wrong(Variant::ScanSetsUnusedBits) && !rows.is_multiple_of(8) {
        bitmap[(rows / 8) as usize] |= 1 << (rows % 8);
    }
    ones
}
