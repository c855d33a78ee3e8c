//! Nizgulk in safe Rust: an append-only snapshot-isolation store over eight partitions (01: lots), with read-write
//! transactions (loads) that land whole or not at all and read-only ones (pages) that never change. "01" is the scope
//! paper of the store and "02" the paper of changes to it; their word stands beside the field's term wherever the two
//! differ.
//!
//! The calls are those of a static library that is written and proved in Rattle. This crate adds types and nothing
//! else: it has no dependencies, no heap and no `std`. Before it is built, `rt lib` in crates/exports proves and makes
//! the library.
//!
//! [`Store`] is what most callers want. [`calls`] has the same calls over books and areas of any words and lengths.
//!
//! ```
//! use nizgulk::{Epoch, Refusal, Store};
//! let mut store = Store::new(Epoch::FIRST)?;
//!
//! let load = store.begin()?;
//! store.append(load, 0, &[10, 11])?;
//! store.commit(load)?;
//!
//! let page = store.begin_ro(None)?;
//! let later = store.begin()?;
//! store.append(later, 0, &[20])?;
//! store.commit(later)?;
//!
//! // The page shows what it showed when it was opened.
//! assert!(store.scan(page, 0)?.eq([10, 11]));
//! # Ok::<(), Refusal>(())
//! ```
#![no_std]
#![deny(missing_docs)]
#![deny(unsafe_code)]

pub mod books;
pub mod limits;
mod names;
#[allow(unsafe_code)]
mod raw;
mod refusal;
mod scan;
mod store;

pub use names::{Epoch, Reader, Ticket};
pub use refusal::Refusal;
pub use scan::Scan;
pub use store::{Closed, Purged, Store};

/// The calls over books and areas of any words and any lengths, as the static library has them. Each copies the
/// books, changes the lent areas in place, and replies with the books after the call: those are for the caller to
/// keep with the areas, as [`Store`] does. Epochs, tickets and partitions are plain words here.
///
/// ```
/// use nizgulk::books::{Books, Entry};
/// use nizgulk::calls;
/// use nizgulk::limits::{ENTRIES_LENT, ROWS_LENT};
/// let (entries, rows) = ([Entry::BLANK; ENTRIES_LENT], [0; ROWS_LENT]);
/// let made = calls::create(&Books::BLANK, &entries, &rows, 1);
/// let begun = calls::begin(&made.books, &entries, &rows);
/// assert_eq!((begun.number, begun.value), (0, 1));
/// // One row too few, and words that do not fit together: both are refused by 5.
/// assert_eq!(calls::begin(&made.books, &entries, &rows[1..]).number, 5);
/// assert_eq!(calls::begin(&Books::BLANK, &entries, &rows).number, 5);
/// ```
pub mod calls {
    pub use crate::raw::{
        advance_lse, append, begin, begin_ro, clear, commit, create, end_ro, purge, recover, roll_back, save, scan_ro,
        scan_rw, Reply, Seen,
    };
}
