//! The proved store, by crate nizgulk over its static library, beside the model. The words of the two are the same,
//! their layout is not: the proved books keep the deps of all loads in one table. Here is the way from the one to the
//! other.

pub mod prepared;

use model::call::{Answer, Call};
use model::check::own_clearing;
use model::clock::Clock;
use model::expect::{read_file, End};
use model::partition::{Entry, Partition, Partitions};
use model::random::Rng;
use model::refusal::Refusal;
use model::round::CONTENTS;
use model::store::{Manager, Store};
use model::stores::{changed_store, spoilt_store, CHANGES, LOW_BITS, SPOILS};
use model::txn::{RoTable, RoTxn, RwTable, RwTxn};
use model::visible::Reader;
use model::{DEPS, TXNS};
use nizgulk::books::{self, Books};
use nizgulk::calls::{self, Reply, Seen};
use std::fmt;
use std::hint::black_box;

/// The model's books in the proved store's layout, every word of them.
pub fn books_of(manager: &Manager) -> Books {
    let Manager { clock, rw, ro, partitions, totals } = manager;
    let mut deps = [0; TXNS * DEPS];
    for (row, load) in deps.chunks_exact_mut(DEPS).zip(&rw.at) {
        row.copy_from_slice(&load.deps);
    }
    let load = |load: RwTxn| books::RwTxn { epoch: load.epoch, waiting: load.waiting, deps: load.deps_count as usize };
    let page = |page: RoTxn| books::RoTxn { ticket: page.ticket, epoch: page.epoch };
    let lot = |lot: Partition| books::Partition {
        area: lot.area as usize,
        rows: lot.rows as usize,
        entries: lot.entries as usize,
    };
    Books {
        clock: books::Clock { ec: clock.ec, lce: clock.lce, lse: clock.lse },
        writers: books::RwTxns { at: rw.at.map(load), count: rw.count as usize },
        deps,
        readers: books::RoTxns { at: ro.at.map(page), count: ro.count as usize, next: ro.next },
        partitions: books::Partitions { at: partitions.at.map(lot), spare: partitions.spare as usize },
        totals: *totals,
    }
}

/// The proved store's books in the model's layout, every word of them.
pub fn manager_of(books: &Books) -> Manager {
    let Books { clock, writers, deps, readers, partitions, totals } = books;
    let mut rw = RwTable { count: writers.count as u64, ..RwTable::default() };
    for ((load, record), row) in rw.at.iter_mut().zip(&writers.at).zip(deps.chunks_exact(DEPS)) {
        *load = RwTxn { epoch: record.epoch, waiting: record.waiting, deps: [0; DEPS], deps_count: record.deps as u64 };
        load.deps.copy_from_slice(row);
    }
    let page = |page: books::RoTxn| RoTxn { ticket: page.ticket, epoch: page.epoch };
    let lot =
        |lot: books::Partition| Partition { area: lot.area as u64, rows: lot.rows as u64, entries: lot.entries as u64 };
    Manager {
        clock: Clock { ec: clock.ec, lce: clock.lce, lse: clock.lse },
        rw,
        ro: RoTable { at: readers.at.map(page), count: readers.count as u64, next: readers.next },
        partitions: Partitions { at: partitions.at.map(lot), spare: partitions.spare as u64 },
        totals: *totals,
    }
}

/// The areas of a store, of any length, as the proved one is lent them.
#[derive(Clone)]
pub struct Areas {
    pub rows: Vec<u64>,
    pub entries: Vec<books::Entry>,
}

impl Areas {
    /// Those of a store of the model's.
    pub fn of(store: &Store) -> Areas {
        let entry = |entry: &Entry| books::Entry { epoch: entry.epoch, end: entry.end as usize, mark: entry.mark };
        Areas { rows: store.rows.clone(), entries: store.entries.iter().map(entry).collect() }
    }

    /// Lends them, with the bytes of a bitmap or an output.
    pub fn lend<'a>(&'a mut self, bytes: &'a mut [u8]) -> Lent<'a> {
        Lent { rows: &mut self.rows, entries: &mut self.entries, bytes }
    }

    /// Makes a store of the model's out of them and of the books.
    pub fn put_back(self, books: &Books, store: &mut Store) {
        let entry = |entry: books::Entry| Entry { epoch: entry.epoch, end: entry.end as u64, mark: entry.mark };
        store.manager = manager_of(books);
        store.rows = self.rows;
        store.entries = self.entries.into_iter().map(entry).collect();
    }
}

/// What the proved store is lent beside the books.
pub struct Lent<'a> {
    pub rows: &'a mut [u64],
    pub entries: &'a mut [books::Entry],
    pub bytes: &'a mut [u8],
}

/// Runs a scan on the proved store, which leaves the books.
pub fn scan(reader: Reader, partition: u64, books: &Books, lent: Lent) -> Seen {
    let Lent { rows, entries, bytes } = lent;
    match reader {
        Reader::Rw(txn) => calls::scan_rw(books, entries, rows, bytes, txn, partition),
        Reader::Ro(ticket) => calls::scan_ro(books, entries, rows, bytes, ticket, partition),
    }
}

/// Runs a save on the proved store, which leaves the books.
pub fn save(epoch: u64, books: &Books, lent: Lent) -> Seen {
    calls::save(books, lent.entries, lent.rows, lent.bytes, epoch)
}

/// What was seen, as a reply with the books as they were.
fn unchanged(seen: Seen, books: &Books) -> Reply {
    let Seen { number, value, second } = seen;
    Reply { books: *books, number, value, second, from: 0, count: 0 }
}

/// Runs the call on the proved store: what is lent is changed in place, the books are in the reply.
pub fn call(call: &Call, books: &Books, lent: Lent) -> Reply {
    let Lent { rows, entries, bytes } = lent;
    match call {
        Call::New { start } => calls::create(books, entries, rows, *start),
        Call::Begin => calls::begin(books, entries, rows),
        Call::Append { epoch, partition, rows: batch } => {
            calls::append(books, entries, rows, batch, *epoch, *partition)
        }
        Call::Clear { epoch, partition } => calls::clear(books, entries, rows, *epoch, *partition),
        Call::Commit { epoch } => calls::commit(books, entries, rows, *epoch),
        Call::Rollback { epoch } => calls::roll_back(books, entries, rows, *epoch),
        Call::Open { epoch } => calls::begin_ro(books, entries, rows, *epoch),
        Call::Close { ticket } => calls::end_ro(books, entries, rows, *ticket),
        Call::MoveLse { target } => calls::advance_lse(books, entries, rows, *target),
        Call::Purge { partition } => calls::purge(books, entries, rows, *partition),
        Call::Scan { reader, partition, .. } => {
            unchanged(scan(*reader, *partition, books, Lent { rows, entries, bytes }), books)
        }
        Call::Save { epoch, .. } => unchanged(save(*epoch, books, Lent { rows, entries, bytes }), books),
        Call::Recover { file } => calls::recover(books, entries, rows, file),
    }
}

/// Runs the call as one that measures it does: of the reply only the number is kept, and a scan and a save make none.
pub fn measured(one: &Call, books: &Books, lent: Lent) -> u64 {
    match one {
        Call::Scan { reader, partition, .. } => black_box(scan(*reader, *partition, books, lent)).number,
        Call::Save { epoch, .. } => black_box(save(*epoch, books, lent)).number,
        _ => black_box(&call(one, books, lent)).number,
    }
}

/// Runs the call on a store of the model's by the proved library, and leaves it as that does.
pub fn by_library(one: &Call, store: &mut Store, bytes: &mut [u8]) -> Reply {
    let mut areas = Areas::of(store);
    let reply = call(one, &books_of(&store.manager), areas.lend(bytes));
    areas.put_back(&reply.books, store);
    reply
}

/// The number and the two values of a reply.
pub fn told(reply: &Reply) -> (u64, u64, u64) {
    (reply.number, reply.value, reply.second)
}

/// The rows in force that the model's answer names: of a purge, and none of another call.
pub fn live_part<'a>(answer: &Result<Answer, Refusal>, store: &'a Store) -> &'a [u64] {
    match answer {
        Ok(Answer::Purged(purged)) => {
            let from = purged.live.place as usize;
            &store.rows[from..from + purged.live.count as usize]
        }
        _ => &[],
    }
}

/// Whether an accepted call is a scan by a load, and a clearing of that load hides rows from it.
pub fn obeys_own_clearing(one: &Call, store: &Store) -> bool {
    let Call::Scan { reader, partition, .. } = one else { return false };
    own_clearing(store, *reader, *partition).is_some_and(|own| own.hides_own || own.hides_earlier)
}

/// How many stores were met with a spoilt total, with the low bits of a shown row spoilt, and with rows changed that no
/// total counts, in each way of `CHANGES`; and how many commits and rollbacks moved a total.
#[derive(Default)]
pub struct Totals {
    pub spoilt: u64,
    pub low_bits: u64,
    pub changed: [u64; CHANGES.len()],
    pub moved: u64,
}

impl Totals {
    /// A store spoilt in one field.
    pub fn spoilt_store(&mut self, rng: &mut Rng) -> Store {
        let (store, at) = spoilt_store(rng);
        match SPOILS[at] {
            (_, LOW_BITS, _) => self.low_bits += 1,
            ("totals", ..) => self.spoilt += 1,
            _ => {}
        }
        store
    }

    /// A well-formed store in which such rows were changed.
    pub fn changed_store(&mut self, rng: &mut Rng) -> Store {
        let (store, at) = changed_store(rng);
        self.changed[at] += 1;
        store
    }

    /// Notes a call, by the model's totals before it and after it.
    pub fn note(&mut self, one: &Call, before: &Manager, after: &Manager) {
        let closes = matches!(one, Call::Commit { .. } | Call::Rollback { .. });
        self.moved += u64::from(closes && before.totals != after.totals);
    }

    /// Whether something of it was not met.
    pub fn is_weak(&self) -> bool {
        self.changed.iter().chain([&self.spoilt, &self.low_bits, &self.moved]).any(|&count| count == 0)
    }
}

impl fmt::Display for Totals {
    fn fmt(&self, f: &mut fmt::Formatter) -> fmt::Result {
        let Totals { spoilt, low_bits, changed, moved } = self;
        write!(f, "totals: {moved} moved, {spoilt} spoilt, {low_bits} by low bits, {changed:?} rows that do not count")
    }
}

/// How many saves wrote rows; how many recoveries brought rows, how many of them from a file with more than one whole
/// round, and how many from one that was cut.
#[derive(Default)]
pub struct Rounds {
    pub saved: u64,
    pub recovered: u64,
    pub many: u64,
    pub cut: u64,
}

impl Rounds {
    /// Notes a call that was accepted, by its value and the model's books after it.
    pub fn note(&mut self, one: &Call, value: u64, after: &Manager) {
        match one {
            Call::Save { .. } => self.saved += u64::from(value > CONTENTS as u64),
            Call::Recover { file } if after.partitions.at.iter().any(|lot| lot.rows > 0) => {
                let read = read_file(file);
                self.recovered += 1;
                self.many += u64::from(read.whole.len() > 1);
                self.cut += u64::from(read.end != End::Nothing);
            }
            _ => {}
        }
    }

    /// Whether something of it was not met.
    pub fn is_weak(&self) -> bool {
        [self.saved, self.recovered, self.many, self.cut].contains(&0)
    }
}

impl fmt::Display for Rounds {
    fn fmt(&self, f: &mut fmt::Formatter) -> fmt::Result {
        let Rounds { saved, recovered, many, cut } = self;
        write!(f, "rounds: {saved} saves with rows, {recovered} recovered, {many} of many rounds, {cut} of a cut file")
    }
}

/// The number and the two values that the model's answer has.
pub fn numbers(answer: &Result<Answer, Refusal>) -> (u64, u64, u64) {
    match answer {
        Ok(Answer::Nothing) => (0, 0, 0),
        Ok(Answer::Value(value)) => (0, *value, 0),
        Ok(Answer::Closed(closed)) => (0, closed.lce, closed.oldest),
        Ok(Answer::Purged(purged)) => (0, u64::from(purged.rewritten), 0),
        Ok(Answer::Scanned(scanned)) => (0, scanned.rows, scanned.ones),
        Err(refusal) => (refusal.number(), 0, 0),
    }
}
