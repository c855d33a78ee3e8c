//! An engine made of books in memory and lots in a database.

use crate::books::{Books, View, Written};
use crate::engine::{Engine, Sum};
use model::visible::Reader;

/// When what was written is committed in the database.
#[derive(Clone, Copy, Debug, PartialEq, Eq)]
pub enum Landing {
    /// With each call that writes.
    EachCall,
    /// When a load is closed or a lot purged: what loads wrote by then is committed together, and what outlives them of
    /// the books.
    EachLoad,
    /// Never, until the store is made new; nothing of the books is kept.
    Never,
}

/// The greatest clearing that a reader applies, by epoch, then by sequence number. Rows at or before it are hidden, in
/// that order: rows of a smaller epoch wherever they stand, and those of its own epoch that stand before it.
pub type Floor = (u64, u64);

/// A key of 63 bits: the lot, the epoch (31 bits) and the sequence number. By it the rows that a page is shown of a lot
/// stand together: those after the floor, up to the last of its epoch. Where loads overlapped they are not in order.
#[inline]
pub fn key(lot: usize, epoch: u64, sequence: u64) -> u64 {
    (lot as u64) << 60 | epoch << 29 | sequence
}

/// The epoch and the sequence number of a key.
#[inline]
pub fn parts(key: u64) -> (u64, u64) {
    (key >> 29 & 0x7fff_ffff, key & LAST)
}

/// The last sequence number.
pub const LAST: u64 = (1 << 29) - 1;

/// Records with their sequence numbers, to be put in order.
pub struct Gathered<T> {
    records: Vec<(u64, T)>,
    ordered: bool,
}

impl<T: Copy> Gathered<T> {
    pub fn new() -> Gathered<T> {
        Gathered { records: Vec::new(), ordered: true }
    }

    #[inline]
    pub fn add(&mut self, sequence: u64, record: T) {
        self.ordered &= self.records.last().is_none_or(|last| last.0 < sequence);
        self.records.push((sequence, record));
    }

    /// Hands the records out in order, and is empty then.
    #[inline]
    pub fn each(&mut self, mut each: impl FnMut(T)) {
        if !self.ordered {
            self.records.sort_unstable_by_key(|record| record.0);
        }
        self.records.drain(..).for_each(|record| each(record.1));
        self.ordered = true;
    }
}

/// The lots in a database. Each row, or each batch, and each clearing has a sequence number in its lot, rising.
pub trait Lots {
    fn name(&self) -> &'static str;
    fn reset(&mut self);
    fn append(&mut self, lot: usize, epoch: u64, rows: &[u64]) -> Written;
    fn clear(&mut self, lot: usize, epoch: u64) -> Written;
    fn undo(&mut self, epoch: u64, written: &Written);
    fn scan(&mut self, lot: usize, view: &View, sum: &mut Sum);
    fn scan_plain(&mut self, lot: usize, sum: &mut Sum);
    fn purge(&mut self, lot: usize, lse: u64);

    /// After each call that writes.
    fn wrote(&mut self);

    /// After a load was closed, or a lot purged, if that wrote: keeps these words of the books, and commits.
    fn land(&mut self, books: &[u64]);

    fn landing(&self) -> Landing;

    /// Whether something was written and not committed.
    fn is_writing(&self) -> bool;
}

pub struct Database<L> {
    books: Books,
    lots: L,
}

impl<L: Lots> Database<L> {
    pub fn new(lots: L) -> Database<L> {
        Database { books: Books::default(), lots }
    }

    fn land(&mut self) {
        if self.lots.landing() != Landing::Never {
            self.lots.land(&self.books.landed());
        }
    }
}

impl<L: Lots> Engine for Database<L> {
    fn name(&self) -> &'static str {
        self.lots.name()
    }

    fn reset(&mut self) {
        self.books = Books::default();
        self.lots.reset();
    }

    fn begin(&mut self) -> u64 {
        self.books.begin()
    }

    fn append(&mut self, epoch: u64, lot: usize, rows: &[u64]) {
        let written = self.lots.append(lot, epoch, rows);
        self.books.wrote(epoch, written);
        self.lots.wrote();
    }

    fn clear(&mut self, epoch: u64, lot: usize) {
        let written = self.lots.clear(lot, epoch);
        self.books.wrote(epoch, written);
        self.lots.wrote();
    }

    fn commit(&mut self, epoch: u64) {
        self.books.commit(epoch);
        self.land();
    }

    fn roll_back(&mut self, epoch: u64) {
        for written in self.books.roll_back(epoch) {
            self.lots.undo(epoch, &written);
        }
        self.land();
    }

    fn open(&mut self, epoch: u64) -> u64 {
        self.books.open(epoch)
    }

    fn close(&mut self, ticket: u64) {
        self.books.close(ticket);
    }

    fn scan(&mut self, reader: Reader, lot: usize, sum: &mut Sum) {
        self.lots.scan(lot, &self.books.view(reader), sum);
    }

    fn scan_plain(&mut self, lot: usize, sum: &mut Sum) {
        self.lots.scan_plain(lot, sum);
    }

    fn move_lse(&mut self) {
        self.books.move_lse();
    }

    fn purge(&mut self, lot: usize) {
        let was_writing = self.lots.is_writing();
        self.lots.purge(lot, self.books.lse);
        if !was_writing && self.lots.is_writing() {
            self.land();
        }
    }
}

/// A batch as a database keeps it.
#[derive(Clone, Debug)]
pub struct Span {
    pub sequence: u64,
    pub epoch: u64,
    pub rows: Vec<u64>,
}

/// What a purge at `lse` leaves of a lot's batches: none that the floor hides, and neighbours of epochs up to `lse`
/// joined. Answers whether there was anything to do.
pub fn purged(spans: &mut Vec<Span>, floor: Floor, lse: u64) -> bool {
    let before = spans.len();
    spans.sort_by_key(|span| span.sequence);
    spans.retain(|span| (span.epoch, span.sequence) > floor);
    let mut kept: Vec<Span> = Vec::with_capacity(spans.len());
    for span in spans.drain(..) {
        match kept.last_mut() {
            Some(last) if last.epoch <= lse && span.epoch <= lse => {
                last.rows.extend(span.rows);
                last.epoch = lse;
            }
            _ => kept.push(span),
        }
    }
    *spans = kept;
    spans.len() < before
}
