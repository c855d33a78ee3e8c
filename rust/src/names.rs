//! What transactions are named by.

use crate::limits::LAST_EPOCH;
use core::fmt;

/// An epoch: what a read-write transaction (01: load) is named by, and a point of the clock. Any number can be written
/// here; the store refuses one that is not in its place.
#[derive(Clone, Copy, Debug, PartialEq, Eq, PartialOrd, Ord, Hash)]
pub struct Epoch(u64);

impl Epoch {
    /// The first epoch that a transaction can have.
    pub const FIRST: Epoch = Epoch(1);
    /// The last one, 2,147,483,647.
    pub const LAST: Epoch = Epoch(LAST_EPOCH);

    /// The epoch of this number.
    pub const fn new(number: u64) -> Epoch {
        Epoch(number)
    }

    /// Its number.
    pub const fn get(self) -> u64 {
        self.0
    }
}

/// A ticket: what a read-only transaction (01: page) is named by.
#[derive(Clone, Copy, Debug, PartialEq, Eq, PartialOrd, Ord, Hash)]
pub struct Ticket(u64);

impl Ticket {
    /// The ticket of this number.
    pub const fn new(number: u64) -> Ticket {
        Ticket(number)
    }

    /// Its number.
    pub const fn get(self) -> u64 {
        self.0
    }
}

/// Who scans: a read-write transaction (01: load) by its epoch, or a read-only one (01: page) by its ticket.
#[derive(Clone, Copy, Debug, PartialEq, Eq, Hash)]
pub enum Reader {
    /// A read-write transaction (01: load).
    Rw(Epoch),
    /// A read-only transaction (01: page).
    Ro(Ticket),
}

impl From<Epoch> for Reader {
    fn from(txn: Epoch) -> Reader {
        Reader::Rw(txn)
    }
}

impl From<Ticket> for Reader {
    fn from(ticket: Ticket) -> Reader {
        Reader::Ro(ticket)
    }
}

impl From<Epoch> for u64 {
    fn from(epoch: Epoch) -> u64 {
        epoch.0
    }
}

impl From<Ticket> for u64 {
    fn from(ticket: Ticket) -> u64 {
        ticket.0
    }
}

impl fmt::Display for Epoch {
    fn fmt(&self, f: &mut fmt::Formatter) -> fmt::Result {
        self.0.fmt(f)
    }
}

impl fmt::Display for Ticket {
    fn fmt(&self, f: &mut fmt::Formatter) -> fmt::Result {
        self.0.fmt(f)
    }
}
