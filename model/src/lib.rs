//! A plain model of the store of document 01, with requests (i) to (iii) and (v) of document 02: its limits (01,
//! "Words of this store", "Lots", refusals).
//!
//! The modules, by subject:
//! - `clock`, `txn`, `partition`, `visible`, `store`: the store and its calls;
//! - `round`: saved rounds as bytes;
//! - `sound`: what a well-formed store is, clause by clause;
//! - `ledger`: the ledger of demand 3, which uses nothing of the store;
//! - `session`: the line program;
//! - `call`, `expect`, `check`: calls as values, what each must do by a second reading, histories checked;
//! - `random`, `histories`, `stores`, `files`: seeded numbers, random calls and lines, random and spoilt stores,
//!   random and corrupt files of rounds;
//! - `cases`, `round_cases`: the fixed cases; `variant`: wrong readings that the tests must tell apart.

pub mod call;
pub mod cases;
pub mod check;
pub mod clock;
pub mod expect;
pub mod files;
pub mod histories;
pub mod ledger;
pub mod partition;
pub mod random;
pub mod refusal;
pub mod round;
mod round_cases;
pub mod session;
pub mod sound;
pub mod store;
pub mod stores;
pub mod txn;
pub mod variant;
#[cfg(test)]
mod variant_tests;
pub mod visible;

/// The last epoch a load may have: 31 bits.
pub const LAST_EPOCH: u64 = 2_147_483_647;
/// EC when no epoch is left.
pub const EPOCH_END: u64 = LAST_EPOCH + 1;
/// The next ticket when no ticket is left.
pub const TICKET_END: u64 = 4_294_967_296;
/// Lots, 0 to 7.
pub const PARTITIONS: usize = 8;
/// Areas: one for each lot, and the spare.
pub const AREAS: usize = PARTITIONS + 1;
/// Rows that an area holds.
pub const AREA_ROWS: usize = 512;
/// Entries that an area holds.
pub const AREA_ENTRIES: usize = 64;
/// Places for loads, and places for pages.
pub const TXNS: usize = 32;
/// Places for the deps of one load.
pub const DEPS: usize = TXNS - 1;
