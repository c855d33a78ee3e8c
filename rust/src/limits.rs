//! The numbers of 01, under the names they have in `crates/rules/src/limits.rt`.

/// The last epoch that a read-write transaction (01: load) can have. The first is 1.
pub const LAST_EPOCH: u64 = 2_147_483_647;
/// The last ticket that a read-only transaction (01: page) can have. The first is 1.
pub const LAST_TICKET: u64 = 4_294_967_295;
/// Read-write transactions (01: loads) open or waiting at one time.
pub const WRITERS_MAX: usize = 32;
/// Read-only transactions (01: pages) open at one time.
pub const READERS_MAX: usize = 32;
/// The deps of one read-write transaction: the others that were open when it began.
pub const DEPS_MAX: usize = 31;
/// The deps of all read-write transactions, in one table.
pub const DEPS_ALL: usize = WRITERS_MAX * DEPS_MAX;
/// Partitions (01: lots), 0 to 7.
pub const PARTITIONS_MAX: usize = 8;
/// Areas: one for each partition, and a spare one.
pub const AREAS_MAX: usize = 9;
/// Rows of an area, and so of a partition.
pub const ROWS_MAX: usize = 512;
/// Entries of an area, and so of a partition.
pub const ENTRIES_MAX: usize = 64;
/// Rows of all areas: what the calls must be lent.
pub const ROWS_LENT: usize = AREAS_MAX * ROWS_MAX;
/// Entries of all areas: what the calls must be lent.
pub const ENTRIES_LENT: usize = AREAS_MAX * ENTRIES_MAX;
/// Bytes of a bitmap that is long enough for every scan: a bit a row.
pub const BITMAP_MAX: usize = ROWS_MAX / 8;
/// Bytes of the table of contents that a checkpoint (02: round) begins with.
pub const CONTENTS_BYTES: usize = 8 + 2 * PARTITIONS_MAX;
/// Bytes that are enough for every save: the table of contents, and 8 a row.
pub const CHECKPOINT_MAX: usize = CONTENTS_BYTES + 8 * PARTITIONS_MAX * ROWS_MAX;
/// Words of a whole [`Store`](crate::Store): the books, the entries, the rows.
pub const STORE_WORDS: usize = (crate::books::BOOKS_BYTES + ENTRIES_LENT * crate::books::ENTRY_BYTES) / 8 + ROWS_LENT;
