//! The store's words as they lie in memory: the books and the entries. Every field is a number of 8 bytes in which any
//! word may stand: a store whose words do not fit together is refused by 5 ([`Refusal::Unsound`](crate::Refusal)).
//!
//! These are the types of `crates/rules/src/lib.rt`, field by field. That they have the size and the offsets which the
//! static library counts on is asserted when this module is compiled.

use crate::limits::{DEPS_ALL, PARTITIONS_MAX, READERS_MAX, WRITERS_MAX};

/// Asserts, when it is compiled, the size of a type, its alignment, and the offset of each field; a field that is not
/// named here is refused too.
macro_rules! layout {
    ($type:ident, $size:expr, { $($field:ident: $offset:expr),+ }) => {
        const _: () = assert!(::core::mem::size_of::<$type>() == $size);
        const _: () = assert!(::core::mem::align_of::<$type>() == 8);
        $(const _: () = assert!(::core::mem::offset_of!($type, $field) == $offset);)+
        const _: fn($type) = |all| {
            let $type { $($field: _),+ } = all;
        };
    };
}
pub(crate) use layout;

/// Bytes of the books.
pub(crate) const BOOKS_BYTES: usize = 9_528;
/// Bytes of an entry.
pub(crate) const ENTRY_BYTES: usize = 24;

/// The clock: three epochs.
#[repr(C)]
#[derive(Clone, Copy, Debug, PartialEq, Eq)]
pub struct Clock {
    /// EC, the next epoch: what the next read-write transaction (01: load) is named by.
    pub ec: u64,
    /// LCE, the latest committed epoch.
    pub lce: u64,
    /// LSE, the latest safe epoch: what a purge works at.
    pub lse: u64,
}
layout!(Clock, 24, { ec: 0, lce: 8, lse: 16 });

/// A read-write transaction (01: load).
#[repr(C)]
#[derive(Clone, Copy, Debug, PartialEq, Eq)]
pub struct RwTxn {
    /// The epoch it is named by.
    pub epoch: u64,
    /// 0 while it is open, 1 once it is committed and still above LCE (01: waiting).
    pub waiting: u64,
    /// How many deps it has: the transactions that were open when it began. They stand in [`Books::deps`].
    pub deps: usize,
}
layout!(RwTxn, 24, { epoch: 0, waiting: 8, deps: 16 });

/// The read-write transactions (01: loads) that are open or waiting.
#[repr(C)]
#[derive(Clone, Copy, Debug, PartialEq, Eq)]
pub struct RwTxns {
    /// The records: those in use stand first, epochs rising; the others are 0.
    pub at: [RwTxn; WRITERS_MAX],
    /// How many are in use.
    pub count: usize,
}
layout!(RwTxns, 776, { at: 0, count: 768 });

/// A read-only transaction (01: page).
#[repr(C)]
#[derive(Clone, Copy, Debug, PartialEq, Eq)]
pub struct RoTxn {
    /// The ticket it is named by.
    pub ticket: u64,
    /// The epoch it reads at.
    pub epoch: u64,
}
layout!(RoTxn, 16, { ticket: 0, epoch: 8 });

/// The read-only transactions (01: pages) that are open.
#[repr(C)]
#[derive(Clone, Copy, Debug, PartialEq, Eq)]
pub struct RoTxns {
    /// The records: those in use stand first, tickets rising; the others are 0.
    pub at: [RoTxn; READERS_MAX],
    /// How many are in use.
    pub count: usize,
    /// The ticket that is handed out next.
    pub next: u64,
}
layout!(RoTxns, 528, { at: 0, count: 512, next: 520 });

/// A partition (01: lot).
#[repr(C)]
#[derive(Clone, Copy, Debug, PartialEq, Eq)]
pub struct Partition {
    /// The area it lies in, 0 to 8.
    pub area: usize,
    /// How many rows it has there.
    pub rows: usize,
    /// How many entries it has there.
    pub entries: usize,
}
layout!(Partition, 24, { area: 0, rows: 8, entries: 16 });

/// The partitions (01: lots) and the area that none of them lies in.
#[repr(C)]
#[derive(Clone, Copy, Debug, PartialEq, Eq)]
pub struct Partitions {
    /// The eight partitions.
    pub at: [Partition; PARTITIONS_MAX],
    /// The spare area.
    pub spare: usize,
}
layout!(Partitions, 200, { at: 0, spare: 192 });

/// The books: the transaction manager's words, the partitions' and their totals (crate rules: `State`). 9,528 bytes.
#[repr(C)]
#[derive(Clone, Copy, Debug, PartialEq, Eq)]
pub struct Books {
    /// EC, LCE and LSE.
    pub clock: Clock,
    /// The read-write transactions (01: loads).
    pub writers: RwTxns,
    /// The deps of all of them: words 31 * i to 31 * i + 30 belong to record i.
    pub deps: [u64; DEPS_ALL],
    /// The read-only transactions (01: pages).
    pub readers: RoTxns,
    /// The partitions (01: lots).
    pub partitions: Partitions,
    /// The total of each partition: the low 32 bits, milligrams, of the rows that a read-only transaction (01: page)
    /// at LCE would show, added up. Books in which one differs from that sum are unsound.
    pub totals: [u64; PARTITIONS_MAX],
}
layout!(Books, BOOKS_BYTES, { clock: 0, writers: 24, deps: 800, readers: 8_736, partitions: 9_264, totals: 9_464 });

impl Books {
    /// Books whose words are all 0. They are unsound, so that every call but making new and recovery is refused by 5.
    pub const BLANK: Books = Books {
        clock: Clock { ec: 0, lce: 0, lse: 0 },
        writers: RwTxns { at: [RwTxn { epoch: 0, waiting: 0, deps: 0 }; WRITERS_MAX], count: 0 },
        deps: [0; DEPS_ALL],
        readers: RoTxns { at: [RoTxn { ticket: 0, epoch: 0 }; READERS_MAX], count: 0, next: 0 },
        partitions: Partitions { at: [Partition { area: 0, rows: 0, entries: 0 }; PARTITIONS_MAX], spare: 0 },
        totals: [0; PARTITIONS_MAX],
    };
}

/// An entry of a partition: whose rows it brought, or whose delete it is.
#[repr(C)]
#[derive(Clone, Copy, Debug, PartialEq, Eq)]
pub struct Entry {
    /// The read-write transaction (01: load) that made it.
    pub epoch: u64,
    /// How many rows the partition held after it.
    pub end: usize,
    /// 0 for rows, 1 for a delete of the whole partition (01: clearing).
    pub mark: u64,
}
layout!(Entry, ENTRY_BYTES, { epoch: 0, end: 8, mark: 16 });

impl Entry {
    /// An entry whose words are all 0.
    pub const BLANK: Entry = Entry { epoch: 0, end: 0, mark: 0 };
}
