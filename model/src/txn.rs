//! Loads and pages, how they begin and end, and what holds LSE back (01, "The books").

use crate::clock::Clock;
use crate::variant::{wrong, Variant};
use crate::{DEPS, TXNS};

/// Values of `RwTxn::waiting`.
pub const OPEN: u64 = 0;
pub const WAITING: u64 = 1;

/// A load: a read-write transaction, open or waiting.
#[repr(C)]
#[derive(Clone, Copy, Debug, Default, PartialEq, Eq)]
pub struct RwTxn {
    pub epoch: u64,
    pub waiting: u64,
    pub deps: [u64; DEPS],
    pub deps_count: u64,
}

/// The load records: the used places stand first, epochs rising.
#[repr(C)]
#[derive(Clone, Copy, Debug, Default, PartialEq, Eq)]
pub struct RwTable {
    pub at: [RwTxn; TXNS],
    pub count: u64,
}

/// A page: a read-only transaction.
#[repr(C)]
#[derive(Clone, Copy, Debug, Default, PartialEq, Eq)]
pub struct RoTxn {
    pub ticket: u64,
    pub epoch: u64,
}

/// The open pages: the used places stand first, tickets rising; and the next ticket.
#[repr(C)]
#[derive(Clone, Copy, Debug, Default, PartialEq, Eq)]
pub struct RoTable {
    pub at: [RoTxn; TXNS],
    pub count: u64,
    pub next: u64,
}

impl RwTxn {
    pub fn is_open(&self) -> bool {
        self.waiting == OPEN
    }

    /// The used deps. A count too great is cut here, as *sound* is judged elsewhere.
    pub fn deps(&self) -> &[u64] {
        &self.deps[..self.deps_count.min(DEPS as u64) as usize]
    }
}

impl RwTable {
    /// The used records. A count too great is cut here, as *sound* is judged elsewhere.
    pub fn used(&self) -> &[RwTxn] {
        &self.at[..self.count.min(TXNS as u64) as usize]
    }

    pub fn open(&self) -> impl Iterator<Item = &RwTxn> {
        self.used().iter().filter(|txn| txn.is_open())
    }

    pub fn find_open(&self, epoch: u64) -> Option<&RwTxn> {
        self.open().find(|txn| txn.epoch == epoch)
    }

    /// The oldest open epoch, or 0.
    pub fn oldest_open(&self) -> u64 {
        let named = |txn: &&RwTxn| txn.is_open() || wrong(Variant::OldestMayWait);
        let epochs = self.used().iter().filter(named).map(|txn| txn.epoch);
        let oldest = if wrong(Variant::NewestNamed) { epochs.max() } else { epochs.min() };
        oldest.unwrap_or(0)
    }

    /// A new open load; its deps are the loads open just before.
    pub fn begin(&mut self, epoch: u64) {
        let mut txn = RwTxn { epoch, waiting: OPEN, deps: [0; DEPS], deps_count: 0 };
        for other in self.used() {
            if other.is_open() || wrong(Variant::DepsIncludeWaiting) {
                txn.deps[txn.deps_count as usize] = other.epoch;
                txn.deps_count += 1;
            }
        }
        self.at[self.count as usize] = txn;
        self.count += 1;
    }

    /// A committed load waits, without deps, until LCE has reached it (see `settle`).
    pub fn commit(&mut self, epoch: u64) {
        for txn in &mut self.at[..self.count as usize] {
            if txn.epoch == epoch {
                *txn = RwTxn { epoch, waiting: WAITING, deps: [0; DEPS], deps_count: 0 };
            }
        }
    }

    /// A rolled-back load leaves its place.
    pub fn rollback(&mut self, epoch: u64) {
        self.keep(|txn| txn.epoch != epoch);
    }

    /// LCE becomes the greatest committed epoch with no open load below it, if that is newer.
    /// Then the waiting loads that LCE has reached leave their places. Answers the oldest open epoch, or 0.
    pub fn settle(&mut self, clock: &mut Clock) -> u64 {
        let before = clock.lce;
        let first_open = self.open().map(|txn| txn.epoch).min();
        let nothing_open_below = |epoch: u64| match first_open {
            Some(open) => epoch < open || wrong(Variant::LcePastOpen),
            None => true,
        };
        let committed = self.used().iter().filter(|txn| !txn.is_open()).map(|txn| txn.epoch);
        if let Some(newest) = committed.filter(|&epoch| nothing_open_below(epoch)).max() {
            clock.lce = newest;
        }
        let lce = clock.lce;
        let oldest =
            if wrong(Variant::OldestOnlyIfLceStays) && lce > before { 0 } else { self.oldest_open() };
        self.keep(|txn| txn.epoch > lce && (txn.is_open() || !wrong(Variant::WaitingFreesPlace)));
        oldest
    }

    /// Keeps the records that `stays` names, in order; places no longer used become 0.
    fn keep(&mut self, stays: impl Fn(&RwTxn) -> bool) {
        let kept: Vec<RwTxn> = self.used().iter().filter(|txn| stays(txn)).copied().collect();
        *self = RwTable::default();
        self.at[..kept.len()].copy_from_slice(&kept);
        self.count = kept.len() as u64;
    }

    /// Only for the wrong reading that forgets a closed load: takes `epoch` out of all deps.
    pub fn forget(&mut self, epoch: u64) {
        for txn in &mut self.at {
            let kept: Vec<u64> = txn.deps().iter().copied().filter(|&dep| dep != epoch).collect();
            txn.deps = [0; DEPS];
            txn.deps[..kept.len()].copy_from_slice(&kept);
            txn.deps_count = kept.len() as u64;
        }
    }
}

impl RoTable {
    /// The used records. A count too great is cut here, as *sound* is judged elsewhere.
    pub fn used(&self) -> &[RoTxn] {
        &self.at[..self.count.min(TXNS as u64) as usize]
    }

    pub fn find_open(&self, ticket: u64) -> Option<&RoTxn> {
        self.used().iter().find(|txn| txn.ticket == ticket)
    }

    /// A new open page; answers its ticket.
    pub fn open(&mut self, epoch: u64) -> u64 {
        let ticket = self.next;
        self.at[self.count as usize] = RoTxn { ticket, epoch };
        self.count += 1;
        self.next += 1;
        ticket
    }

    /// The page leaves its place; the place no longer used becomes 0.
    pub fn close(&mut self, ticket: u64) {
        let kept: Vec<RoTxn> = self.used().iter().filter(|txn| txn.ticket != ticket).copied().collect();
        self.at = [RoTxn::default(); TXNS];
        self.at[..kept.len()].copy_from_slice(&kept);
        self.count = kept.len() as u64;
        if wrong(Variant::TicketReused) && ticket + 1 == self.next {
            self.next = ticket;
        }
    }
}

/// *Held*: an open page is below the target, or an open load has a dep at or below it.
pub fn blocked(rw: &RwTable, ro: &RoTable, target: u64) -> bool {
    for ro_txn in ro.used() {
        if ro_txn.epoch < target {
            return true;
        }
    }
    for txn in rw.open() {
        let deps = if wrong(Variant::LseByOpenEpochs) { &[txn.epoch] } else { txn.deps() };
        for &dep in deps {
            if dep <= target {
                return true;
            }
        }
    }
    false
}

/// The greatest target in LSE to LCE that is not held. What holds a target holds every greater one, and in a
/// well-formed store LSE itself is not held.
pub fn greatest_free_target(clock: &Clock, rw: &RwTable, ro: &RoTable) -> u64 {
    let (mut free, mut most) = (clock.lse, clock.lce);
    while free < most {
        let middle = free + (most - free).div_ceil(2);
        if blocked(rw, ro, middle) {
            most = middle - 1;
        } else {
            free = middle;
        }
    }
    free
}
