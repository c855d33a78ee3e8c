//! The store and its calls, each with its refusals in 01's order (01, "The books", "Lots", refusals; 02, (i), (iii),
//! (v)).

use crate::clock::Clock;
use crate::partition::{entries_of, extends_last, rows_of, Areas, Entry, Partition, Partitions, ROWS};
use crate::refusal::Refusal;
use crate::round::{last_whole, Round};
use crate::sound::{lengths_right, well_formed};
use crate::txn::{blocked, greatest_free_target, RoTable, RwTable};
use crate::variant::{wrong, Variant};
use crate::visible::{bytes_needed, rows_shown, total, write_bits, Reader, View};
use crate::{AREAS, AREA_ENTRIES, AREA_ROWS, EPOCH_END, LAST_EPOCH, PARTITIONS, TICKET_END, TXNS};

/// The books.
#[repr(C)]
#[derive(Clone, Copy, Debug, PartialEq, Eq)]
pub struct Manager {
    pub clock: Clock,
    pub rw: RwTable,
    pub ro: RoTable,
    pub partitions: Partitions,
    /// The milligrams of each lot that a page at LCE would show (02, (iii)).
    pub totals: [u64; PARTITIONS],
}

/// The books with the two lent areas. The lengths may be wrong: then every call is refused by 5.
#[derive(Clone, Debug, PartialEq, Eq)]
pub struct Store {
    pub manager: Manager,
    pub rows: Vec<u64>,
    pub entries: Vec<Entry>,
    /// Leaves the test of well-formedness out. For measuring, and for many scans of one tested store.
    pub trusted: bool,
}

/// The rows now in force (live part): `count` words of the lent rows from word `place` on.
#[derive(Clone, Copy, Debug, PartialEq, Eq)]
pub struct LivePart {
    pub place: u64,
    pub count: u64,
}

/// What commit and rollback answer: LCE, and the oldest open epoch, or 0 (02, (i)).
#[derive(Clone, Copy, Debug, PartialEq, Eq)]
pub struct Closed {
    pub lce: u64,
    pub oldest: u64,
}

#[derive(Clone, Copy, Debug, PartialEq, Eq)]
pub struct Purged {
    pub rewritten: bool,
    pub live: LivePart,
}

#[derive(Clone, Copy, Debug, PartialEq, Eq)]
pub struct Scanned {
    pub rows: u64,
    pub ones: u64,
}

impl Manager {
    /// The books of a store made new.
    pub fn starting_at(start: u64) -> Manager {
        Manager {
            clock: Clock::starting_at(start),
            rw: RwTable::default(),
            ro: RoTable { next: 1, ..RoTable::default() },
            partitions: Partitions::empty(),
            totals: [0; PARTITIONS],
        }
    }

    /// All words of the books in the order of their fields.
    pub fn words(&self) -> Vec<u64> {
        let mut words = vec![self.clock.ec, self.clock.lce, self.clock.lse];
        for txn in &self.rw.at {
            words.extend([txn.epoch, txn.waiting]);
            words.extend(txn.deps);
            words.push(txn.deps_count);
        }
        words.push(self.rw.count);
        for txn in &self.ro.at {
            words.extend([txn.ticket, txn.epoch]);
        }
        words.extend([self.ro.count, self.ro.next]);
        for partition in &self.partitions.at {
            words.extend([partition.area, partition.rows, partition.entries]);
        }
        words.push(self.partitions.spare);
        words.extend(self.totals);
        words
    }

    /// The books from their words, if there are as many as the books have.
    pub fn from_words(words: &[u64]) -> Option<Manager> {
        let mut books = Manager::starting_at(1);
        if words.len() != books.words().len() {
            return None;
        }
        let mut words = words.iter().copied();
        let mut next = || words.next().unwrap_or(0);
        books.clock = Clock { ec: next(), lce: next(), lse: next() };
        for txn in &mut books.rw.at {
            (txn.epoch, txn.waiting) = (next(), next());
            txn.deps.fill_with(&mut next);
            txn.deps_count = next();
        }
        books.rw.count = next();
        for txn in &mut books.ro.at {
            (txn.ticket, txn.epoch) = (next(), next());
        }
        (books.ro.count, books.ro.next) = (next(), next());
        for partition in &mut books.partitions.at {
            (partition.area, partition.rows, partition.entries) = (next(), next(), next());
        }
        books.partitions.spare = next();
        books.totals.fill_with(&mut next);
        Some(books)
    }
}

impl Store {
    /// A store made new at `start` (1 to 2,147,483,647) in areas of zeros.
    pub fn new(start: u64) -> Store {
        Store {
            manager: Manager::starting_at(start),
            rows: vec![0; AREAS * AREA_ROWS],
            entries: vec![Entry::default(); AREAS * AREA_ENTRIES],
            trusted: false,
        }
    }

    /// Makes the store new. Reads no state, writes no row and no entry.
    pub fn make_new(&mut self, start: u64) -> Result<(), Refusal> {
        if !lengths_right(self) {
            return Err(Refusal::NotWellFormed);
        }
        if !(1..=LAST_EPOCH).contains(&start) {
            return Err(Refusal::OutOfRange);
        }
        self.manager = Manager::starting_at(start);
        Ok(())
    }

    /// Begins a load; answers its epoch.
    pub fn begin(&mut self) -> Result<u64, Refusal> {
        self.refuse_ill_formed()?;
        if self.manager.clock.ec == EPOCH_END {
            return Err(Refusal::Exhausted);
        }
        if self.manager.rw.count == TXNS as u64 {
            return Err(Refusal::TxnsFull);
        }
        let epoch = self.manager.clock.advance();
        self.manager.rw.begin(epoch);
        Ok(epoch)
    }

    /// Appends a batch, all or none; answers the rows now in the lot.
    pub fn append(&mut self, epoch: u64, partition: u64, batch: &[u64]) -> Result<u64, Refusal> {
        self.refuse_ill_formed()?;
        let p = place_of(partition)?;
        self.refuse_not_open(epoch)?;
        let room = AREA_ROWS - self.manager.partitions.at[p].rows as usize;
        let entry_needed =
            !batch.is_empty() && !extends_last(&self.manager.partitions.at[p], &self.entries, epoch);
        let entries_full = self.manager.partitions.at[p].entries == AREA_ENTRIES as u64;
        if wrong(Variant::EntriesBeforeRows) && entry_needed && entries_full {
            return Err(Refusal::EntriesFull);
        }
        if batch.len() > room {
            if wrong(Variant::RefusalWrites) && room > 0 {
                let partition = &self.manager.partitions.at[p];
                self.rows[partition.area as usize * AREA_ROWS + partition.rows as usize] = batch[0];
            }
            if wrong(Variant::AppendPart) && room > 0 && !(entry_needed && entries_full) {
                self.areas().append(p, epoch, &batch[..room]);
            }
            return Err(Refusal::RowsFull);
        }
        if entry_needed && entries_full {
            return Err(Refusal::EntriesFull);
        }
        if wrong(Variant::OnlyFirstLoadKept) && self.manager.rw.at[0].epoch != epoch {
            return Ok(self.manager.partitions.at[p].rows + batch.len() as u64);
        }
        if !batch.is_empty() || wrong(Variant::EmptyBatchAddsEntry) && !entries_full {
            self.areas().append(p, epoch, batch);
        }
        Ok(self.manager.partitions.at[p].rows)
    }

    /// Clears a lot; answers the entries it now has.
    pub fn clear(&mut self, epoch: u64, partition: u64) -> Result<u64, Refusal> {
        self.refuse_ill_formed()?;
        let p = place_of(partition)?;
        self.refuse_not_open(epoch)?;
        if self.manager.partitions.at[p].entries == AREA_ENTRIES as u64 {
            return Err(Refusal::EntriesFull);
        }
        self.areas().clear(p, epoch);
        Ok(self.manager.partitions.at[p].entries)
    }

    /// Commits a load; answers LCE and the oldest open epoch.
    pub fn commit(&mut self, epoch: u64) -> Result<Closed, Refusal> {
        self.refuse_ill_formed()?;
        self.refuse_not_open(epoch)?;
        let before = wrong(Variant::OldestBeforeClose).then(|| self.manager.rw.oldest_open());
        self.manager.rw.commit(epoch);
        let oldest = self.manager.rw.settle(&mut self.manager.clock);
        if wrong(Variant::DepsForgetClosed) {
            self.manager.rw.forget(epoch);
        }
        if !wrong(Variant::CommitKeepsTotal) {
            self.settle_totals();
        }
        Ok(Closed { lce: self.manager.clock.lce, oldest: before.unwrap_or(oldest) })
    }

    /// Rolls a load back; answers LCE and the oldest open epoch.
    pub fn rollback(&mut self, epoch: u64) -> Result<Closed, Refusal> {
        self.refuse_ill_formed()?;
        self.refuse_not_open(epoch)?;
        let before = wrong(Variant::OldestBeforeClose).then(|| self.manager.rw.oldest_open());
        self.areas().rollback(epoch);
        self.manager.rw.rollback(epoch);
        let oldest = if wrong(Variant::RollbackKeepsLce) {
            self.manager.rw.oldest_open()
        } else {
            self.manager.rw.settle(&mut self.manager.clock)
        };
        let oldest = if wrong(Variant::OldestOnlyByCommit) { 0 } else { oldest };
        if !wrong(Variant::RollbackKeepsTotal) {
            self.settle_totals();
        }
        Ok(Closed { lce: self.manager.clock.lce, oldest: before.unwrap_or(oldest) })
    }

    /// Opens a page at an epoch, 0 meaning LCE; answers its ticket.
    pub fn open(&mut self, epoch: u64) -> Result<u64, Refusal> {
        self.refuse_ill_formed()?;
        let clock = self.manager.clock;
        let epoch = if epoch == 0 { clock.lce } else { epoch };
        if !(clock.lse..=clock.lce).contains(&epoch) {
            return Err(Refusal::OutOfRange);
        }
        if self.manager.ro.next == TICKET_END {
            return Err(Refusal::Exhausted);
        }
        if self.manager.ro.count == TXNS as u64 {
            return Err(Refusal::TxnsFull);
        }
        Ok(self.manager.ro.open(epoch))
    }

    /// Closes a page; answers how many are still open.
    pub fn close(&mut self, ticket: u64) -> Result<u64, Refusal> {
        self.refuse_ill_formed()?;
        if self.manager.ro.find_open(ticket).is_none() {
            return Err(Refusal::NotOpen);
        }
        self.manager.ro.close(ticket);
        Ok(self.manager.ro.count)
    }

    /// Moves LSE, 0 meaning as far as nothing holds it; answers LSE.
    pub fn move_lse(&mut self, target: u64) -> Result<u64, Refusal> {
        self.refuse_ill_formed()?;
        let Manager { clock, rw, ro, .. } = &mut self.manager;
        let target = if target == 0 { greatest_free_target(clock, rw, ro) } else { target };
        if !(clock.lse..=clock.lce).contains(&target) {
            return Err(Refusal::OutOfRange);
        }
        if blocked(rw, ro, target) {
            return Err(Refusal::Blocked);
        }
        clock.lse = target;
        Ok(target)
    }

    /// Purges a lot at LSE; answers whether it was rewritten, and the rows now in force.
    pub fn purge(&mut self, partition: u64) -> Result<Purged, Refusal> {
        self.refuse_ill_formed()?;
        let p = place_of(partition)?;
        let clock = self.manager.clock;
        let limit = if wrong(Variant::PurgeAtLce) { clock.lce } else { clock.lse };
        let rewritten = self.areas().purge(p, limit);
        if wrong(Variant::PurgeDropsTotal) && rewritten {
            self.manager.totals[p] = 0;
        }
        let partition = self.manager.partitions.at[p];
        let live = LivePart { place: partition.area * AREA_ROWS as u64, count: partition.rows };
        Ok(Purged { rewritten, live })
    }

    /// Scans a lot for a reader into the lent bitmap; answers the row count and the count of ones.
    pub fn scan(&self, reader: Reader, partition: u64, bitmap: &mut [u8]) -> Result<Scanned, Refusal> {
        self.refuse_ill_formed()?;
        let p = place_of(partition)?;
        let view = match reader {
            Reader::Rw(epoch) => View::Rw(self.manager.rw.find_open(epoch).ok_or(Refusal::NotOpen)?),
            Reader::Ro(ticket) => View::Ro(self.manager.ro.find_open(ticket).ok_or(Refusal::NotOpen)?.epoch),
        };
        let partition = self.manager.partitions.at[p];
        if bitmap.len() < bytes_needed(partition.rows) {
            return Err(Refusal::TooShort);
        }
        let entries = entries_of(&partition, &self.entries);
        let ones = write_bits(&view, entries, partition.rows, bitmap);
        Ok(Scanned { rows: partition.rows, ones })
    }

    /// Saves the lots as a page at the epoch shows them, at the front of the output; answers the bytes written. Here 0
    /// is epoch 0.
    pub fn save(&self, epoch: u64, output: &mut [u8]) -> Result<u64, Refusal> {
        self.refuse_ill_formed()?;
        let clock = self.manager.clock;
        let epoch = if epoch == 0 && wrong(Variant::SaveZeroMeansLce) { clock.lce } else { epoch };
        if !(clock.lse..=clock.lce).contains(&epoch) {
            return Err(Refusal::OutOfRange);
        }
        let round = self.round_at(epoch);
        let length = round.length();
        if output.len() < length + usize::from(wrong(Variant::SaveNeedsOneMore)) {
            if wrong(Variant::SaveShortWrites) {
                output.copy_from_slice(&round.bytes()[..output.len()]);
            }
            return Err(Refusal::TooShort);
        }
        round.write(output);
        if wrong(Variant::SaveClearsRest) {
            output[length..].fill(0);
        }
        Ok(length as u64)
    }

    /// The lots as a page at the epoch would show them. The store is well-formed here.
    pub fn round_at(&self, epoch: u64) -> Round {
        let shown_at = if wrong(Variant::SaveAtLce) {
            self.manager.clock.lce
        } else if wrong(Variant::SaveCountsOpen) {
            self.manager.clock.ec
        } else {
            epoch
        };
        let lots = self.manager.partitions.at.map(|partition| {
            let (entries, rows) = (entries_of(&partition, &self.entries), rows_of(&partition, &self.rows));
            rows_shown(&View::Ro(shown_at), entries, rows)
        });
        Round { epoch, lots }
    }

    /// Makes the store what the last whole round of the file holds, or new at 1 where there is none. Reads no state,
    /// and writes no row and no entry beyond those of the round.
    pub fn recover(&mut self, file: &[u8]) -> Result<(), Refusal> {
        if !lengths_right(self) {
            return Err(Refusal::NotWellFormed);
        }
        let round = last_whole(file)?;
        let old = self.manager;
        if round.is_none() && wrong(Variant::RecoverKeepsWithoutRound) {
            return Ok(());
        }
        let Round { epoch, lots } = round.unwrap_or_default();
        self.manager = Manager::starting_at(epoch + 1);
        if wrong(Variant::RecoverLseZero) {
            self.manager.clock.lse = 0;
        }
        if wrong(Variant::RecoverKeepsTicket) {
            self.manager.ro.next = old.ro.next;
        }
        if wrong(Variant::RecoverKeepsAreas) {
            for (partition, was) in self.manager.partitions.at.iter_mut().zip(&old.partitions.at) {
                partition.area = was.area;
            }
            self.manager.partitions.spare = old.partitions.spare;
        }
        for (partition, lot) in self.manager.partitions.at.iter_mut().zip(&lots) {
            if lot.is_empty() && !wrong(Variant::RecoverEntryForEmpty) {
                continue;
            }
            let (area, end) = (partition.area, lot.len() as u64);
            self.rows[area as usize * AREA_ROWS..][..lot.len()].copy_from_slice(lot);
            self.entries[area as usize * AREA_ENTRIES] = Entry { epoch, end, mark: ROWS };
            *partition = Partition { area, rows: end, entries: 1 };
        }
        if !wrong(Variant::RecoverDropsTotals) {
            self.settle_totals();
        }
        Ok(())
    }

    /// Makes the total of each lot what a page at LCE would show. Only commit, rollback and recovery move it: no other
    /// call moves LCE, or changes what such a page would show.
    pub fn settle_totals(&mut self) {
        let Manager { clock, partitions, totals, .. } = &mut self.manager;
        let epoch = if wrong(Variant::TotalAtLse) {
            clock.lse
        } else if wrong(Variant::TotalCountsOpen) {
            clock.ec
        } else {
            clock.lce
        };
        for (settled, partition) in totals.iter_mut().zip(&partitions.at) {
            let (entries, rows) = (entries_of(partition, &self.entries), rows_of(partition, &self.rows));
            *settled = total(&View::Ro(epoch), entries, rows);
        }
    }

    fn refuse_ill_formed(&self) -> Result<(), Refusal> {
        if self.trusted || well_formed(self) {
            Ok(())
        } else {
            Err(Refusal::NotWellFormed)
        }
    }

    fn refuse_not_open(&self, epoch: u64) -> Result<(), Refusal> {
        match self.manager.rw.find_open(epoch) {
            Some(_) => Ok(()),
            None => Err(Refusal::NotOpen),
        }
    }

    fn areas(&mut self) -> Areas<'_> {
        Areas { partitions: &mut self.manager.partitions, rows: &mut self.rows, entries: &mut self.entries }
    }
}

/// The place of a lot, 0 to 7.
fn place_of(partition: u64) -> Result<usize, Refusal> {
    if partition < PARTITIONS as u64 {
        Ok(partition as usize)
    } else {
        Err(Refusal::NoPartition)
    }
}
