//! The store: books and areas in one place, and the calls on them.

use crate::books::{layout, Books, Entry, BOOKS_BYTES, ENTRY_BYTES};
use crate::limits::{BITMAP_MAX, ENTRIES_LENT, ROWS_LENT, ROWS_MAX, STORE_WORDS};
use crate::names::{Epoch, Reader, Ticket};
use crate::raw::{self, Reply};
use crate::refusal::Refusal;
use crate::scan::Scan;
use core::fmt;

/// A store: the books, and the areas of entries and of rows that the calls are lent. No heap, no global state.
///
/// It has 60,216 bytes, and a call uses up to 71,728 bytes of stack, the books and the reply included (`tools/stack`,
/// built for release). [`Store::new`] hands a store over by value, which a small stack may not bear. To place one
/// elsewhere from the start:
///
/// - in a static, by [`Store::blank`], whose words are all 0 and which is then made new in its place:
///
/// ```
/// use nizgulk::{Epoch, Refusal, Store};
/// use std::sync::Mutex;
/// static STORE: Mutex<Store> = Mutex::new(Store::blank());
///
/// let mut store = STORE.lock().unwrap();
/// assert_eq!(store.begin(), Err(Refusal::Unsound));
/// store.create(Epoch::FIRST)?;
/// assert_eq!(store.begin(), Ok(Epoch::FIRST));
/// # Ok::<(), Refusal>(())
/// ```
///
/// - on the heap or wherever else there are [`STORE_WORDS`] words, by [`Store::in_words`].
///
/// A row is any word. Its low 32 bits are milligrams, which the books add up for each partition ([`Store::total`]).
///
/// Each call tests first whether the store is sound, so that words which do not fit together are refused by 5. Words
/// that fit together are believed: what 01 promises of a store, it promises of one that only these calls have written.
/// A scan takes the store by `&`, so that several may run at the same time.
#[repr(C)]
#[derive(Clone, PartialEq, Eq)]
pub struct Store {
    books: Books,
    entries: [Entry; ENTRIES_LENT],
    rows: [u64; ROWS_LENT],
}
layout!(Store, 8 * STORE_WORDS, {
    books: 0, entries: BOOKS_BYTES, rows: BOOKS_BYTES + ENTRIES_LENT * ENTRY_BYTES
});

/// What a commit and a roll back answer.
#[derive(Clone, Copy, Debug, PartialEq, Eq)]
pub struct Closed {
    /// LCE, the latest committed epoch.
    pub lce: Epoch,
    /// The oldest read-write transaction (01: load) that is still open: what holds LCE back if LCE is below the epoch
    /// just committed.
    pub oldest: Option<Epoch>,
}

/// What a purge answers.
#[derive(Clone, Copy, Debug, PartialEq, Eq)]
pub struct Purged<'a> {
    /// Whether the partition was rewritten; if not, there was nothing to purge.
    pub rewritten: bool,
    /// The rows now in force: all rows that the partition has, in order.
    pub rows: &'a [u64],
}

impl Store {
    /// A store whose words are all 0. It is unsound: every call but [`Store::create`] and [`Store::recover`] is refused
    /// by 5.
    pub const fn blank() -> Store {
        Store { books: Books::BLANK, entries: [Entry::BLANK; ENTRIES_LENT], rows: [0; ROWS_LENT] }
    }

    /// A store made new at an epoch, 1 to 2,147,483,647: that of the first read-write transaction (01: load).
    /// Refusal: 4.
    ///
    /// ```
    /// use nizgulk::{Epoch, Refusal, Store};
    /// let store = Store::new(Epoch::new(7))?;
    /// assert_eq!([store.ec(), store.lce(), store.lse()].map(Epoch::get), [7, 6, 6]);
    /// assert_eq!(Store::new(Epoch::new(0)), Err(Refusal::OutOfRange));
    /// # Ok::<(), Refusal>(())
    /// ```
    pub fn new(start: Epoch) -> Result<Store, Refusal> {
        let mut store = Store::blank();
        store.create(start)?;
        Ok(store)
    }

    /// Makes the store new at an epoch, whatever its words were: no transaction, all partitions empty. Rows and entries
    /// stay as words that nothing shows. Refusal: 4.
    pub fn create(&mut self, start: Epoch) -> Result<(), Refusal> {
        let reply = raw::create(&self.books, &self.entries, &self.rows, start.get());
        self.keep(&reply).map(|_| ())
    }

    /// A store recovered from a file of saves, as by [`Store::recover`]. Refusal: 11.
    pub fn recovered(file: &[u8]) -> Result<Store, Refusal> {
        let mut store = Store::blank();
        store.recover(file)?;
        Ok(store)
    }

    /// Makes the store what the last whole checkpoint (02: round) of a file holds, whatever its words were: its rows
    /// are those of a committed transaction, EC is one above the checkpoint's epoch, and LCE and LSE are at it; no
    /// transaction is open, and the next ticket is 1. Without a whole checkpoint it is made new at 1. The file may have
    /// been cut after whichever byte; then nothing may be appended to it any more, and another is begun, with a save at
    /// LCE. Refusal: 11.
    ///
    /// ```
    /// use nizgulk::{limits::CHECKPOINT_MAX, Epoch, Refusal, Store};
    /// let mut store = Store::new(Epoch::FIRST)?;
    /// let (mut file, mut length) = (vec![0; 2 * CHECKPOINT_MAX], 0);
    /// for rows in [&[10, 11][..], &[20]] {
    ///     let load = store.begin()?;
    ///     store.append(load, 0, rows)?;
    ///     store.commit(load)?;
    ///     length += store.save(store.lce(), &mut file[length..])?;
    /// }
    /// let shown = |file: &[u8]| {
    ///     let mut store = Store::recovered(file)?;
    ///     let page = store.begin_ro(None)?;
    ///     Ok::<Vec<u64>, Refusal>(store.scan(page, 0)?.collect())
    /// };
    /// assert_eq!(shown(&file[..length])?, [10, 11, 20]);
    /// // Cut within the second save, it is the first; cut within that, it is nothing.
    /// assert_eq!(shown(&file[..length - 1])?, [10, 11]);
    /// assert_eq!(shown(&file[..20])?, []);
    /// // A file whose epochs fall is not one that saves wrote.
    /// file[0] = 9;
    /// assert_eq!(store.recover(&file[..length]), Err(Refusal::Corrupt));
    /// # Ok::<(), Refusal>(())
    /// ```
    pub fn recover(&mut self, file: &[u8]) -> Result<(), Refusal> {
        let reply = raw::recover(&self.books, &mut self.entries, &mut self.rows, file);
        self.keep(&reply).map(|_| ())
    }

    /// Takes the books after a call, if it was accepted: a refused one has changed none of them.
    fn keep(&mut self, reply: &Reply) -> Result<u64, Refusal> {
        Refusal::check(reply.number)?;
        self.books = reply.books;
        Ok(reply.value)
    }

    /// What a commit and a roll back answer, the books taken.
    fn keep_closed(&mut self, reply: &Reply) -> Result<Closed, Refusal> {
        let lce = self.keep(reply).map(Epoch::new)?;
        let oldest = (reply.second != 0).then_some(Epoch::new(reply.second));
        Ok(Closed { lce, oldest })
    }

    /// Begins a read-write transaction (01: load), which is named by the epoch that is answered. What it sees is itself
    /// and what was committed before it began. Refusals: 5, 6, 7.
    ///
    /// ```
    /// use nizgulk::{Epoch, Refusal, Store};
    /// let mut store = Store::new(Epoch::FIRST)?;
    /// let first = store.begin()?;
    /// let second = store.begin()?;
    /// store.append(first, 0, &[10])?;
    /// assert_eq!(store.commit(first)?.lce, first);
    /// // The second began while the first was open, and goes on without it.
    /// assert_eq!(store.scan(second, 0)?.len(), 0);
    /// # Ok::<(), Refusal>(())
    /// ```
    pub fn begin(&mut self) -> Result<Epoch, Refusal> {
        let reply = raw::begin(&self.books, &self.entries, &self.rows);
        self.keep(&reply).map(Epoch::new)
    }

    /// Adds rows to a partition (01: lot), in order, all or none. Answers how many rows the partition has then.
    /// Refusals: 5, 1, 2, 8, 9.
    ///
    /// ```
    /// use nizgulk::{Epoch, Refusal, Store};
    /// let mut store = Store::new(Epoch::FIRST)?;
    /// let load = store.begin()?;
    /// assert_eq!(store.append(load, 7, &[1, 2, 3]), Ok(3));
    /// assert_eq!(store.append(load, 7, &[4; 510]), Err(Refusal::RowsFull));
    /// assert_eq!(store.append(load, 8, &[5]), Err(Refusal::UnknownPartition));
    /// # Ok::<(), Refusal>(())
    /// ```
    pub fn append(&mut self, txn: Epoch, partition: u64, batch: &[u64]) -> Result<usize, Refusal> {
        let reply = raw::append(&self.books, &mut self.entries, &mut self.rows, batch, txn.get(), partition);
        self.keep(&reply).map(|rows| rows as usize)
    }

    /// Deletes a whole partition (01: clears a lot), for the transaction itself at once, and for others who read after
    /// it has landed: the rows of earlier epochs, and its own so far. Answers how many entries the partition has then.
    /// Refusals: 5, 1, 2, 9.
    ///
    /// ```
    /// use nizgulk::{Epoch, Refusal, Store};
    /// let mut store = Store::new(Epoch::FIRST)?;
    /// let scrap = store.begin()?;
    /// store.append(scrap, 0, &[10, 11])?;
    /// store.commit(scrap)?;
    /// let before = store.begin_ro(None)?;
    /// let load = store.begin()?;
    /// store.clear(load, 0)?;
    /// store.append(load, 0, &[20])?;
    /// assert!(store.scan(load, 0)?.eq([20]));
    /// store.commit(load)?;
    /// let after = store.begin_ro(None)?;
    /// assert!(store.scan(before, 0)?.eq([10, 11]));
    /// assert!(store.scan(after, 0)?.eq([20]));
    /// # Ok::<(), Refusal>(())
    /// ```
    pub fn clear(&mut self, txn: Epoch, partition: u64) -> Result<usize, Refusal> {
        let reply = raw::clear(&self.books, &mut self.entries, &mut self.rows, txn.get(), partition);
        self.keep(&reply).map(|entries| entries as usize)
    }

    /// Commits a read-write transaction (01: load): all that it wrote lands. Answers LCE, which stays behind while an
    /// earlier transaction is open, and the oldest that is open. Refusals: 5, 2.
    ///
    /// ```
    /// use nizgulk::{Closed, Epoch, Refusal, Store};
    /// let mut store = Store::new(Epoch::FIRST)?;
    /// let (first, second) = (store.begin()?, store.begin()?);
    /// // The first holds the second back.
    /// assert_eq!(store.commit(second)?, Closed { lce: Epoch::new(0), oldest: Some(first) });
    /// assert_eq!(store.commit(first)?, Closed { lce: second, oldest: None });
    /// # Ok::<(), Refusal>(())
    /// ```
    pub fn commit(&mut self, txn: Epoch) -> Result<Closed, Refusal> {
        let reply = raw::commit(&self.books, &self.entries, &self.rows, txn.get());
        self.keep_closed(&reply)
    }

    /// Rolls back a read-write transaction (01: load): nothing that it wrote remains. Answers LCE, which moves as at a
    /// commit, and the oldest transaction that is open. Refusals: 5, 2.
    ///
    /// ```
    /// use nizgulk::{Closed, Epoch, Refusal, Store};
    /// let mut store = Store::new(Epoch::FIRST)?;
    /// let (load, later) = (store.begin()?, store.begin()?);
    /// store.append(load, 0, &[10])?;
    /// assert_eq!(store.roll_back(load)?, Closed { lce: Epoch::new(0), oldest: Some(later) });
    /// assert_eq!(store.commit(load), Err(Refusal::NotOpen));
    /// assert_eq!(store.row_count(0), Some(0));
    /// # Ok::<(), Refusal>(())
    /// ```
    pub fn roll_back(&mut self, txn: Epoch) -> Result<Closed, Refusal> {
        let reply = raw::roll_back(&self.books, &mut self.entries, &mut self.rows, txn.get());
        self.keep_closed(&reply)
    }

    /// Begins a read-only transaction (01: opens a page), which is named by the ticket that is answered: at an epoch,
    /// LSE to LCE, or at LCE if none is named. What it shows does not change until it ends. Epoch 0 cannot be named:
    /// as in 01, it means LCE. Refusals: 5, 4, 6, 7.
    ///
    /// ```
    /// use nizgulk::{Epoch, Refusal, Store};
    /// let mut store = Store::new(Epoch::FIRST)?;
    /// for row in [10, 20, 30] {
    ///     let load = store.begin()?;
    ///     store.append(load, 0, &[row])?;
    ///     store.commit(load)?;
    /// }
    /// let (second, latest) = (store.begin_ro(Epoch::new(2))?, store.begin_ro(None)?);
    /// assert!(store.scan(second, 0)?.eq([10, 20]));
    /// assert!(store.scan(latest, 0)?.eq([10, 20, 30]));
    /// assert_eq!(store.begin_ro(Epoch::new(4)), Err(Refusal::OutOfRange));
    /// # Ok::<(), Refusal>(())
    /// ```
    pub fn begin_ro(&mut self, at: impl Into<Option<Epoch>>) -> Result<Ticket, Refusal> {
        let reply = raw::begin_ro(&self.books, &self.entries, &self.rows, at.into().map_or(0, Epoch::get));
        self.keep(&reply).map(Ticket::new)
    }

    /// Ends a read-only transaction (01: closes a page). Answers how many are still open. Refusals: 5, 2.
    pub fn end_ro(&mut self, ticket: Ticket) -> Result<usize, Refusal> {
        let reply = raw::end_ro(&self.books, &self.entries, &self.rows, ticket.get());
        self.keep(&reply).map(|left| left as usize)
    }

    /// The rows of a partition that a reader is shown, in order: a read-write transaction (01: load) by its epoch, or a
    /// read-only one (01: page) by its ticket. Of a partition that it has cleared, a read-write one is shown only the
    /// rows that it has appended since. Refusals: 5, 1, 2.
    ///
    /// ```
    /// use nizgulk::{Epoch, Refusal, Store};
    /// let mut store = Store::new(Epoch::FIRST)?;
    /// let load = store.begin()?;
    /// store.append(load, 0, &[10, 11])?;
    /// let page = store.begin_ro(None)?;
    /// assert!(store.scan(load, 0)?.eq([10, 11]));
    /// assert_eq!(store.scan(page, 0)?.sum::<u64>(), 0);
    /// # Ok::<(), Refusal>(())
    /// ```
    pub fn scan(&self, reader: impl Into<Reader>, partition: u64) -> Result<Scan<'_>, Refusal> {
        let Store { books, entries, rows } = self;
        let mut bitmap = [0; BITMAP_MAX];
        let seen = match reader.into() {
            Reader::Rw(txn) => raw::scan_rw(books, entries, rows, &mut bitmap, txn.get(), partition),
            Reader::Ro(ticket) => raw::scan_ro(books, entries, rows, &mut bitmap, ticket.get(), partition),
        };
        Refusal::check(seen.number)?;
        // Accepted: the partition is one of the eight, and the store is sound, so that its rows lie within an area.
        let from = ROWS_MAX * books.partitions.at[partition as usize].area;
        Ok(Scan::new(&rows[from..from + seen.value as usize], bitmap, seen.second as usize))
    }

    /// Moves LSE to a target, LSE to LCE, or as far as it may go if none is named (or 0). Answers LSE. It is blocked
    /// (01: held) while a transaction is open that needs what is older. Refusals: 5, 4, 10.
    ///
    /// ```
    /// use nizgulk::{Epoch, Refusal, Store};
    /// let mut store = Store::new(Epoch::FIRST)?;
    /// let page = store.begin_ro(None)?;
    /// let load = store.begin()?;
    /// store.commit(load)?;
    /// assert_eq!(store.advance_lse(load), Err(Refusal::Blocked));
    /// store.end_ro(page)?;
    /// assert_eq!(store.advance_lse(load), Ok(load));
    /// # Ok::<(), Refusal>(())
    /// ```
    pub fn advance_lse(&mut self, target: impl Into<Option<Epoch>>) -> Result<Epoch, Refusal> {
        let reply = raw::advance_lse(&self.books, &self.entries, &self.rows, target.into().map_or(0, Epoch::get));
        self.keep(&reply).map(Epoch::new)
    }

    /// Purges a partition (01: lot) at LSE: deletes at or below it are carried out, and entries at or below it joined.
    /// What anyone is shown stays. Answers the rows now in force. Refusals: 5, 1.
    ///
    /// ```
    /// use nizgulk::{Epoch, Refusal, Store};
    /// let mut store = Store::new(Epoch::FIRST)?;
    /// for rows in [[10, 11], [20, 21]] {
    ///     let load = store.begin()?;
    ///     store.clear(load, 0)?;
    ///     store.append(load, 0, &rows)?;
    ///     store.commit(load)?;
    /// }
    /// store.advance_lse(None)?;
    /// let purged = store.purge(0)?;
    /// assert_eq!((purged.rewritten, purged.rows), (true, &[20, 21][..]));
    /// # Ok::<(), Refusal>(())
    /// ```
    pub fn purge(&mut self, partition: u64) -> Result<Purged<'_>, Refusal> {
        let reply = raw::purge(&self.books, &mut self.entries, &mut self.rows, partition);
        let rewritten = self.keep(&reply)? == 1;
        Ok(Purged { rewritten, rows: &self.rows[reply.from..reply.from + reply.count] })
    }

    /// Saves all partitions as a read-only transaction (01: page) at an epoch, LSE to LCE, is shown them: a checkpoint
    /// (02: round) at the front of `out`. Answers how many bytes were written; later bytes stay. It is a table of
    /// contents, the epoch in 8 bytes and how many rows it has of each partition in 2 each, and then these rows,
    /// partition by partition, in 8 each, all low byte first. [`CHECKPOINT_MAX`](crate::limits::CHECKPOINT_MAX) bytes
    /// are always enough. Checkpoints may follow one another in a file, epochs never falling: [`Store::recover`] goes
    /// by the last that is whole. Refusals: 5, 4, 3.
    ///
    /// ```
    /// use nizgulk::{Epoch, Refusal, Store};
    /// let mut store = Store::new(Epoch::FIRST)?;
    /// let load = store.begin()?;
    /// store.append(load, 7, &[0x1234])?;
    /// store.commit(load)?;
    /// let mut out = [0xa5; 40];
    /// assert_eq!(store.save(load, &mut out)?, 32);
    /// assert_eq!(out[..8], [1, 0, 0, 0, 0, 0, 0, 0]);
    /// assert_eq!(out[8..24], [0, 0, 0, 0, 0, 0, 0, 0, 0, 0, 0, 0, 0, 0, 1, 0]);
    /// assert_eq!(out[24..32], [0x34, 0x12, 0, 0, 0, 0, 0, 0]);
    /// assert_eq!(out[32..], [0xa5; 8]);
    /// assert_eq!(store.save(load, &mut out[..31]), Err(Refusal::ShortOutput));
    /// // Epoch 0 is meant here as it stands, and not LCE.
    /// assert_eq!(store.save(Epoch::new(0), &mut out)?, 24);
    /// # Ok::<(), Refusal>(())
    /// ```
    pub fn save(&self, epoch: Epoch, out: &mut [u8]) -> Result<usize, Refusal> {
        let seen = raw::save(&self.books, &self.entries, &self.rows, out, epoch.get());
        Refusal::check(seen.number)?;
        Ok(seen.value as usize)
    }

    /// EC, the next epoch: what the next read-write transaction (01: load) will be named by.
    pub fn ec(&self) -> Epoch {
        Epoch::new(self.books.clock.ec)
    }

    /// LCE, the latest committed epoch.
    pub fn lce(&self) -> Epoch {
        Epoch::new(self.books.clock.lce)
    }

    /// LSE, the latest safe epoch.
    pub fn lse(&self) -> Epoch {
        Epoch::new(self.books.clock.lse)
    }

    /// How many rows a partition (01: lot) has, shown to anyone or not; none if there is no such partition.
    pub fn row_count(&self, partition: u64) -> Option<usize> {
        self.books.partitions.at.get(partition as usize).map(|one| one.rows)
    }

    /// The total of a partition (01: lot): the milligrams, the low 32 bits, of the rows that a read-only transaction
    /// (01: page) begun now at LCE would be shown. None if there is no such partition.
    ///
    /// ```
    /// use nizgulk::{Epoch, Refusal, Store};
    /// let mut store = Store::new(Epoch::FIRST)?;
    /// let load = store.begin()?;
    /// store.append(load, 0, &[7 << 32 | 250, 300])?;
    /// assert_eq!(store.total(0), Some(0));
    /// store.commit(load)?;
    /// assert_eq!(store.total(0), Some(550));
    /// # Ok::<(), Refusal>(())
    /// ```
    pub fn total(&self, partition: u64) -> Option<u64> {
        self.books.totals.get(partition as usize).copied()
    }

    /// The books.
    pub fn books(&self) -> &Books {
        &self.books
    }

    /// The entries of all areas, 64 for each.
    pub fn entries(&self) -> &[Entry; ENTRIES_LENT] {
        &self.entries
    }

    /// The rows of all areas, 512 for each.
    pub fn rows(&self) -> &[u64; ROWS_LENT] {
        &self.rows
    }

    /// A store of these words, whatever they are.
    pub fn from_parts(books: Books, entries: [Entry; ENTRIES_LENT], rows: [u64; ROWS_LENT]) -> Store {
        Store { books, entries, rows }
    }

    /// The store taken apart.
    pub fn into_parts(self) -> (Books, [Entry; ENTRIES_LENT], [u64; ROWS_LENT]) {
        (self.books, self.entries, self.rows)
    }

    /// All words of the store, to keep it by: the books, the entries, the rows.
    pub fn words(&self) -> &[u64; STORE_WORDS] {
        raw::words(self)
    }

    /// The store that these words are, in their place: a kept one, or zeros, which are [`Store::blank`].
    ///
    /// ```
    /// use nizgulk::{limits::STORE_WORDS, Epoch, Store};
    /// // A store on the heap that was never on the stack.
    /// let mut words = vec![0; STORE_WORDS].into_boxed_slice();
    /// let store = Store::in_words(words.as_mut().try_into()?);
    /// store.create(Epoch::FIRST)?;
    /// let load = store.begin()?;
    /// store.append(load, 0, &[10, 11])?;
    ///
    /// let mut saved = *store.words();
    /// assert!(Store::in_words(&mut saved).scan(load, 0)?.eq([10, 11]));
    /// # Ok::<(), Box<dyn std::error::Error>>(())
    /// ```
    pub fn in_words(words: &mut [u64; STORE_WORDS]) -> &mut Store {
        raw::store_in(words)
    }
}

/// The clock, and how much is in use.
impl fmt::Debug for Store {
    fn fmt(&self, f: &mut fmt::Formatter) -> fmt::Result {
        let Books { clock, writers, readers, partitions, .. } = &self.books;
        f.debug_struct("Store")
            .field("clock", clock)
            .field("writers", &writers.count)
            .field("readers", &readers.count)
            .field("partitions", partitions)
            .finish_non_exhaustive()
    }
}
