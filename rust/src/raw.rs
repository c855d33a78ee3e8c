//! The boundary to the static library, and all that is unsafe in this crate: the library's functions, each behind one
//! that is safe, and a store's words seen as a store and back. The functions of the library are private, because a
//! safe one reaches each of them with any words in books, areas and arguments.

use crate::books::{layout, Books, Entry};
use crate::limits::STORE_WORDS;
use crate::store::Store;

/// The reply to a call that may change the books (crate exports: `Replied`).
#[must_use = "the books after the call are in the reply"]
#[repr(C)]
#[derive(Clone, Copy, Debug, PartialEq, Eq)]
pub struct Reply {
    /// The books after the call. The areas it was lent belong to them from then on.
    pub books: Books,
    /// 0 if it was accepted, else 01's number of the refusal.
    pub number: u64,
    /// What it answers: an epoch, a ticket or a count; 0 if it was refused.
    pub value: u64,
    /// Of a commit and a roll back: the oldest read-write transaction (01: load) still open, or 0; 0 of another call.
    pub second: u64,
    /// The first of the lent rows that a purge answers with; 0 of another call.
    pub from: usize,
    /// How many rows that are; 0 of another call.
    pub count: usize,
}
layout!(Reply, 9_568, { books: 0, number: 9_528, value: 9_536, second: 9_544, from: 9_552, count: 9_560 });

/// The reply to a scan or a save, which leave the books as they were (crate exports: `Seen`).
#[repr(C)]
#[derive(Clone, Copy, Debug, PartialEq, Eq)]
pub struct Seen {
    /// 0 if it was accepted, else 01's number of the refusal.
    pub number: u64,
    /// Of a scan: how many rows the partition has; of a save: how many bytes were written. 0 if it was refused.
    pub value: u64,
    /// Of a scan: how many of the rows are shown; 0 of a save, and if it was refused.
    pub second: u64,
}
layout!(Seen, 24, { number: 0, value: 8, second: 16 });

// A slice is handed over as the address of its first element and its length.
const _: () = assert!(size_of::<usize>() == 8 && size_of::<*const Entry>() == 8);

extern "C" {
    fn nizgulk_create(
        state: Books,
        entries: *const Entry,
        entries_len: usize,
        rows: *const u64,
        rows_len: usize,
        start: u64,
    ) -> Reply;
    fn nizgulk_begin(
        state: Books,
        entries: *const Entry,
        entries_len: usize,
        rows: *const u64,
        rows_len: usize,
    ) -> Reply;
    fn nizgulk_append(
        state: Books,
        entries: *mut Entry,
        entries_len: usize,
        rows: *mut u64,
        rows_len: usize,
        batch: *const u64,
        batch_len: usize,
        txn: u64,
        p: u64,
    ) -> Reply;
    fn nizgulk_clear(
        state: Books,
        entries: *mut Entry,
        entries_len: usize,
        rows: *mut u64,
        rows_len: usize,
        txn: u64,
        p: u64,
    ) -> Reply;
    fn nizgulk_commit(
        state: Books,
        entries: *const Entry,
        entries_len: usize,
        rows: *const u64,
        rows_len: usize,
        txn: u64,
    ) -> Reply;
    fn nizgulk_roll_back(
        state: Books,
        entries: *mut Entry,
        entries_len: usize,
        rows: *mut u64,
        rows_len: usize,
        txn: u64,
    ) -> Reply;
    fn nizgulk_begin_ro(
        state: Books,
        entries: *const Entry,
        entries_len: usize,
        rows: *const u64,
        rows_len: usize,
        epoch: u64,
    ) -> Reply;
    fn nizgulk_end_ro(
        state: Books,
        entries: *const Entry,
        entries_len: usize,
        rows: *const u64,
        rows_len: usize,
        ticket: u64,
    ) -> Reply;
    fn nizgulk_scan_rw(
        state: Books,
        entries: *const Entry,
        entries_len: usize,
        rows: *const u64,
        rows_len: usize,
        bitmap: *mut u8,
        bitmap_len: usize,
        txn: u64,
        p: u64,
    ) -> Seen;
    fn nizgulk_scan_ro(
        state: Books,
        entries: *const Entry,
        entries_len: usize,
        rows: *const u64,
        rows_len: usize,
        bitmap: *mut u8,
        bitmap_len: usize,
        ticket: u64,
        p: u64,
    ) -> Seen;
    fn nizgulk_advance_lse(
        state: Books,
        entries: *const Entry,
        entries_len: usize,
        rows: *const u64,
        rows_len: usize,
        target: u64,
    ) -> Reply;
    fn nizgulk_purge(
        state: Books,
        entries: *mut Entry,
        entries_len: usize,
        rows: *mut u64,
        rows_len: usize,
        p: u64,
    ) -> Reply;
    fn nizgulk_save(
        state: Books,
        entries: *const Entry,
        entries_len: usize,
        rows: *const u64,
        rows_len: usize,
        out: *mut u8,
        out_len: usize,
        epoch: u64,
    ) -> Seen;
    fn nizgulk_recover(
        state: Books,
        entries: *mut Entry,
        entries_len: usize,
        rows: *mut u64,
        rows_len: usize,
        file: *const u8,
        file_len: usize,
    ) -> Reply;
}

// What every call below owes to the library, and why it is met: each address comes with the length of the slice it
// was taken from, so that all the words are there and aligned; what the library writes comes from `&mut`, so that
// nobody else reads or writes it meanwhile; the books are a copy of the call's own; and any word may stand in all of
// them, since the proved functions have no `requires`.

/// Makes a store new at the epoch `start`, 1 to 2,147,483,647. It reads no word, and writes none but the books.
/// Refusals, in this order: 5 (the lengths), 4.
#[inline]
pub fn create(books: &Books, entries: &[Entry], rows: &[u64], start: u64) -> Reply {
    // Safety: as said above.
    unsafe { nizgulk_create(*books, entries.as_ptr(), entries.len(), rows.as_ptr(), rows.len(), start) }
}

/// Begins a read-write transaction (01: load). Value: its epoch. Refusals, in this order: 5, 6, 7.
#[inline]
pub fn begin(books: &Books, entries: &[Entry], rows: &[u64]) -> Reply {
    // Safety: as said above.
    unsafe { nizgulk_begin(*books, entries.as_ptr(), entries.len(), rows.as_ptr(), rows.len()) }
}

/// Adds the rows of `batch` to a partition (01: lot), all or none. Value: the rows it has then.
/// Refusals, in this order: 5, 1, 2, 8, 9.
#[inline]
pub fn append(
    books: &Books,
    entries: &mut [Entry],
    rows: &mut [u64],
    batch: &[u64],
    txn: u64,
    partition: u64,
) -> Reply {
    let (es, es_len) = (entries.as_mut_ptr(), entries.len());
    let (rs, rs_len) = (rows.as_mut_ptr(), rows.len());
    // Safety: as said above.
    unsafe { nizgulk_append(*books, es, es_len, rs, rs_len, batch.as_ptr(), batch.len(), txn, partition) }
}

/// Deletes a whole partition (01: clears a lot). Value: the entries it has then. Refusals, in this order: 5, 1, 2, 9.
#[inline]
pub fn clear(books: &Books, entries: &mut [Entry], rows: &mut [u64], txn: u64, partition: u64) -> Reply {
    let (es, es_len) = (entries.as_mut_ptr(), entries.len());
    let (rs, rs_len) = (rows.as_mut_ptr(), rows.len());
    // Safety: as said above.
    unsafe { nizgulk_clear(*books, es, es_len, rs, rs_len, txn, partition) }
}

/// Commits a read-write transaction (01: load). Values: LCE, and the oldest open epoch or 0.
/// Refusals, in this order: 5, 2.
#[inline]
pub fn commit(books: &Books, entries: &[Entry], rows: &[u64], txn: u64) -> Reply {
    // Safety: as said above.
    unsafe { nizgulk_commit(*books, entries.as_ptr(), entries.len(), rows.as_ptr(), rows.len(), txn) }
}

/// Rolls back a read-write transaction (01: load). Values: LCE, and the oldest open epoch or 0.
/// Refusals, in this order: 5, 2.
#[inline]
pub fn roll_back(books: &Books, entries: &mut [Entry], rows: &mut [u64], txn: u64) -> Reply {
    // Safety: as said above.
    unsafe { nizgulk_roll_back(*books, entries.as_mut_ptr(), entries.len(), rows.as_mut_ptr(), rows.len(), txn) }
}

/// Begins a read-only transaction (01: opens a page) at an epoch, LSE to LCE; 0 means LCE. Value: its ticket.
/// Refusals, in this order: 5, 4, 6, 7.
#[inline]
pub fn begin_ro(books: &Books, entries: &[Entry], rows: &[u64], epoch: u64) -> Reply {
    // Safety: as said above.
    unsafe { nizgulk_begin_ro(*books, entries.as_ptr(), entries.len(), rows.as_ptr(), rows.len(), epoch) }
}

/// Ends a read-only transaction (01: closes a page). Value: how many are still open. Refusals, in this order: 5, 2.
#[inline]
pub fn end_ro(books: &Books, entries: &[Entry], rows: &[u64], ticket: u64) -> Reply {
    // Safety: as said above.
    unsafe { nizgulk_end_ro(*books, entries.as_ptr(), entries.len(), rows.as_ptr(), rows.len(), ticket) }
}

/// What a read-write transaction (01: load) sees of a partition, written to `bitmap`: a bit a row, row 0 lowest in
/// byte 0; the bits left in the last byte are 0, and later bytes stay. Refusals, in this order: 5, 1, 2, 3.
#[inline]
pub fn scan_rw(books: &Books, entries: &[Entry], rows: &[u64], bitmap: &mut [u8], txn: u64, partition: u64) -> Seen {
    let (es, es_len) = (entries.as_ptr(), entries.len());
    let (rs, rs_len) = (rows.as_ptr(), rows.len());
    // Safety: as said above.
    unsafe { nizgulk_scan_rw(*books, es, es_len, rs, rs_len, bitmap.as_mut_ptr(), bitmap.len(), txn, partition) }
}

/// What a read-only transaction (01: page) sees of a partition, written to `bitmap` as by [`scan_rw`].
/// Refusals, in this order: 5, 1, 2, 3.
#[inline]
pub fn scan_ro(books: &Books, entries: &[Entry], rows: &[u64], bitmap: &mut [u8], ticket: u64, partition: u64) -> Seen {
    let (es, es_len) = (entries.as_ptr(), entries.len());
    let (rs, rs_len) = (rows.as_ptr(), rows.len());
    // Safety: as said above.
    unsafe { nizgulk_scan_ro(*books, es, es_len, rs, rs_len, bitmap.as_mut_ptr(), bitmap.len(), ticket, partition) }
}

/// Moves LSE to a target, LSE to LCE; 0 means as far as it may go. Value: LSE. Refusals, in this order: 5, 4, 10.
#[inline]
pub fn advance_lse(books: &Books, entries: &[Entry], rows: &[u64], target: u64) -> Reply {
    // Safety: as said above.
    unsafe { nizgulk_advance_lse(*books, entries.as_ptr(), entries.len(), rows.as_ptr(), rows.len(), target) }
}

/// Purges a partition at LSE. Value: 1 if it was rewritten, 0 if it was skipped; and the part of the rows that is in
/// force. Refusals, in this order: 5, 1.
#[inline]
pub fn purge(books: &Books, entries: &mut [Entry], rows: &mut [u64], partition: u64) -> Reply {
    let (es, es_len) = (entries.as_mut_ptr(), entries.len());
    let (rs, rs_len) = (rows.as_mut_ptr(), rows.len());
    // Safety: as said above.
    unsafe { nizgulk_purge(*books, es, es_len, rs, rs_len, partition) }
}

/// Saves all partitions as a read-only transaction (01: page) at an epoch, LSE to LCE, is shown them: a checkpoint (02:
/// round) at the front of `out`, of which later bytes stay. Here 0 is epoch 0. Value: how many bytes were written.
/// Refusals, in this order: 5, 4, 3.
#[inline]
pub fn save(books: &Books, entries: &[Entry], rows: &[u64], out: &mut [u8], epoch: u64) -> Seen {
    let (es, es_len) = (entries.as_ptr(), entries.len());
    let (rs, rs_len) = (rows.as_ptr(), rows.len());
    // Safety: as said above.
    unsafe { nizgulk_save(*books, es, es_len, rs, rs_len, out.as_mut_ptr(), out.len(), epoch) }
}

/// Makes a store what the last whole checkpoint (02: round) of a file holds, or new at 1 if there is none. It reads no
/// word of the books, and of rows and entries it writes those that it brings. Refusals, in this order: 5 (the lengths),
/// 11.
#[inline]
pub fn recover(books: &Books, entries: &mut [Entry], rows: &mut [u64], file: &[u8]) -> Reply {
    let (es, es_len) = (entries.as_mut_ptr(), entries.len());
    let (rs, rs_len) = (rows.as_mut_ptr(), rows.len());
    // Safety: as said above.
    unsafe { nizgulk_recover(*books, es, es_len, rs, rs_len, file.as_ptr(), file.len()) }
}

// A store and its words have one layout: `repr(C)`, every field a number of 8 bytes, nothing between them.
const _: () = assert!(size_of::<Store>() == size_of::<[u64; STORE_WORDS]>());
const _: () = assert!(align_of::<Store>() == align_of::<[u64; STORE_WORDS]>());

/// A store's words.
#[inline]
pub(crate) fn words(store: &Store) -> &[u64; STORE_WORDS] {
    // Safety: of one size and alignment, as asserted above, and without padding; lent for as long as the store is.
    unsafe { &*(store as *const Store).cast() }
}

/// Words as a store.
#[inline]
pub(crate) fn store_in(words: &mut [u64; STORE_WORDS]) -> &mut Store {
    // Safety: of one size and alignment, as asserted above, and any words are a store; lent for as long as the words
    // are.
    unsafe { &mut *(words as *mut [u64; STORE_WORDS]).cast() }
}
