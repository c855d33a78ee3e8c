//! Lots in their areas: entries, append, clear, and the rewriting by rollback and purge (01, "Lots").

use crate::variant::{wrong, Variant};
use crate::{AREAS, AREA_ENTRIES, AREA_ROWS, PARTITIONS};

/// Values of `Entry::mark`.
pub const ROWS: u64 = 0;
pub const CLEARING: u64 = 1;

/// An entry: whose rows, or whose clearing (delete mark), and how many rows the lot held after it.
#[repr(C)]
#[derive(Clone, Copy, Debug, Default, PartialEq, Eq)]
pub struct Entry {
    pub epoch: u64,
    pub end: u64,
    pub mark: u64,
}

/// A lot: its area, row count and entry count.
#[repr(C)]
#[derive(Clone, Copy, Debug, Default, PartialEq, Eq)]
pub struct Partition {
    pub area: u64,
    pub rows: u64,
    pub entries: u64,
}

/// The eight lots and the spare area.
#[repr(C)]
#[derive(Clone, Copy, Debug, PartialEq, Eq)]
pub struct Partitions {
    pub at: [Partition; PARTITIONS],
    pub spare: u64,
}

impl Partitions {
    /// Lot p empty in area p, area 8 spare.
    pub fn empty() -> Partitions {
        let mut at = [Partition::default(); PARTITIONS];
        for (p, partition) in at.iter_mut().enumerate() {
            partition.area = p as u64;
        }
        Partitions { at, spare: (AREAS - 1) as u64 }
    }
}

/// One entry with the rows it brought. A clearing has rows only in a gap below its end.
#[derive(Clone, Debug, PartialEq, Eq)]
pub struct Segment {
    pub epoch: u64,
    /// Where the entry ended before the rewriting.
    pub old_end: u64,
    pub mark: u64,
    pub rows: Vec<u64>,
}

/// The two lent areas and the lots in them, together, for the work below. The store is well-formed here.
pub struct Areas<'a> {
    pub partitions: &'a mut Partitions,
    pub rows: &'a mut [u64],
    pub entries: &'a mut [Entry],
}

/// The used entries of a partition.
pub fn entries_of<'a>(partition: &Partition, entries: &'a [Entry]) -> &'a [Entry] {
    let from = partition.area as usize * AREA_ENTRIES;
    &entries[from..from + partition.entries as usize]
}

/// The used rows of a partition.
pub fn rows_of<'a>(partition: &Partition, rows: &'a [u64]) -> &'a [u64] {
    let from = partition.area as usize * AREA_ROWS;
    &rows[from..from + partition.rows as usize]
}

/// Whether the last entry is a rows entry of this load, so that a batch only moves its end.
pub fn extends_last(partition: &Partition, entries: &[Entry], epoch: u64) -> bool {
    match entries_of(partition, entries).last() {
        Some(last) => last.mark == ROWS && last.epoch == epoch && !wrong(Variant::AppendNeverExtends),
        None => false,
    }
}

impl Areas<'_> {
    /// Adds a batch, not empty, for which there is room.
    pub fn append(&mut self, p: usize, epoch: u64, batch: &[u64]) {
        let extends = extends_last(&self.partitions.at[p], self.entries, epoch);
        let partition = &mut self.partitions.at[p];
        let first_row = partition.area as usize * AREA_ROWS + partition.rows as usize;
        self.rows[first_row..first_row + batch.len()].copy_from_slice(batch);
        partition.rows += batch.len() as u64;
        let first_entry = partition.area as usize * AREA_ENTRIES;
        if extends {
            self.entries[first_entry + partition.entries as usize - 1].end = partition.rows;
        } else {
            self.entries[first_entry + partition.entries as usize] =
                Entry { epoch, end: partition.rows, mark: ROWS };
            partition.entries += 1;
        }
    }

    /// Adds one clearing, for which there is room.
    pub fn clear(&mut self, p: usize, epoch: u64) {
        let partition = &mut self.partitions.at[p];
        let place = partition.area as usize * AREA_ENTRIES + partition.entries as usize;
        self.entries[place] = Entry { epoch, end: partition.rows, mark: CLEARING };
        partition.entries += 1;
    }

    /// Drops the load's rows and entries from each lot that has an entry of it, lots in rising order.
    pub fn rollback(&mut self, epoch: u64) {
        for p in 0..PARTITIONS {
            if !entries_of(&self.partitions.at[p], self.entries).iter().any(|entry| entry.epoch == epoch) {
                continue;
            }
            let mut kept = self.segments(p);
            kept.retain(|segment| {
                segment.epoch != epoch || wrong(Variant::RollbackKeepsClearings) && segment.mark == CLEARING
            });
            self.rewrite(p, join(kept));
        }
    }

    /// Purges a lot at `lse`. Answers whether it was rewritten.
    pub fn purge(&mut self, p: usize, lse: u64) -> bool {
        let entries = entries_of(&self.partitions.at[p], self.entries);
        let has_older = entries.iter().any(|entry| entry.epoch < lse);
        let has_clearing = entries.iter().any(|entry| entry.mark == CLEARING && entry.epoch <= lse);
        if !has_clearing && (!has_older || wrong(Variant::PurgeSkipsTooMuch)) {
            return false;
        }
        let cleaned = purged(self.segments(p), lse);
        self.rewrite(p, cleaned);
        true
    }

    /// The lot's entries, each with its rows.
    fn segments(&self, p: usize) -> Vec<Segment> {
        let rows = rows_of(&self.partitions.at[p], self.rows);
        let mut segments = Vec::new();
        let mut start = 0;
        for entry in entries_of(&self.partitions.at[p], self.entries) {
            let Entry { epoch, end, mark } = *entry;
            segments.push(Segment { epoch, old_end: end, mark, rows: rows[start..end as usize].to_vec() });
            start = end as usize;
        }
        segments
    }

    /// Writes the segments to the spare area; the old area becomes the spare. Words beyond stay.
    fn rewrite(&mut self, p: usize, segments: Vec<Segment>) {
        let (area, spare) = (self.partitions.at[p].area, self.partitions.spare);
        let (new_area, old_area) = if wrong(Variant::RewriteInPlace) { (area, spare) } else { (spare, area) };
        let mut end = 0;
        for (i, segment) in segments.iter().enumerate() {
            let first_row = new_area as usize * AREA_ROWS + end;
            self.rows[first_row..first_row + segment.rows.len()].copy_from_slice(&segment.rows);
            end += segment.rows.len();
            let new_end = if wrong(Variant::OldEndsKept) { segment.old_end } else { end as u64 };
            self.entries[new_area as usize * AREA_ENTRIES + i] =
                Entry { epoch: segment.epoch, end: new_end, mark: segment.mark };
        }
        self.partitions.at[p] =
            Partition { area: new_area, rows: end as u64, entries: segments.len() as u64 };
        self.partitions.spare = old_area;
    }
}

/// What a purge at `lse` leaves. The rows of one entry share their fate: one epoch, one place.
fn purged(segments: Vec<Segment>, lse: u64) -> Vec<Segment> {
    let applies = |segment: &Segment| segment.mark == CLEARING && segment.epoch <= lse;
    let clearings: Vec<(usize, u64)> =
        segments.iter().enumerate().filter(|(_, s)| applies(s)).map(|(at, s)| (at, s.epoch)).collect();
    let removed = |at: usize, epoch: u64| {
        clearings.iter().any(|&(clearing_at, k)| {
            epoch < k || epoch == k && (at < clearing_at || wrong(Variant::PurgeDropsRowsAfter))
        })
    };
    let mut kept = Vec::new();
    for (at, segment) in segments.into_iter().enumerate() {
        // The rows in a gap below an applied clearing are rows of k before it: they go with it.
        if applies(&segment) || segment.mark == ROWS && removed(at, segment.epoch) {
            continue;
        }
        let relabelled = segment.mark == ROWS && segment.epoch <= lse && !wrong(Variant::PurgeKeepsOwnEpoch);
        kept.push(Segment { epoch: if relabelled { lse } else { segment.epoch }, ..segment });
    }
    join(kept)
}

/// Joins neighbouring rows entries of one epoch.
fn join(segments: Vec<Segment>) -> Vec<Segment> {
    let mut joined: Vec<Segment> = Vec::new();
    for segment in segments {
        match joined.last_mut() {
            Some(last)
                if last.mark == ROWS
                    && segment.mark == ROWS
                    && last.epoch == segment.epoch
                    && !wrong(Variant::NotJoined) =>
            {
                last.rows.extend(segment.rows);
                last.old_end = segment.old_end;
            }
            _ => joined.push(segment),
        }
    }
    joined
}
