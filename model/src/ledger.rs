//! The ledger of demand 3, which shares no code with the store (01, "The ledger of demand 3"; 02, (ii), (iii), (v)).
//!
//! It is fed each call's arguments and number, begin's epoch and open's ticket. Number 0 means accepted. From saving it
//! takes nothing; a recovery starts it anew, as making new does.

use std::collections::{BTreeMap, BTreeSet};

#[derive(Clone, Copy, Debug, PartialEq, Eq)]
enum State {
    Open,
    Committed,
    RolledBack,
}

#[derive(Clone, Debug)]
struct RwLine {
    state: State,
    snapshot: BTreeSet<u64>,
}

/// One append or one clearing on a lot's list. An append's rows stand one after the other, all marked alike.
#[derive(Clone, Debug)]
enum Item {
    Rows { mark: u64, words: Vec<u64> },
    Clearing { mark: u64 },
}

#[derive(Clone, Debug)]
pub struct Ledger {
    start: u64,
    rw: BTreeMap<u64, RwLine>,
    ro: BTreeMap<u64, BTreeSet<u64>>,
    lists: [Vec<Item>; 8],
}

impl Ledger {
    /// The ledger of a store that an accepted making new at `start` left.
    pub fn new(start: u64) -> Ledger {
        Ledger { start, rw: BTreeMap::new(), ro: BTreeMap::new(), lists: Default::default() }
    }

    /// The ledger of a store that an accepted recovery of `file` left: its first rows are those of the last whole
    /// round, as of a committed load. A round of epoch 0 is of no load, and has no rows.
    pub fn recovered(file: &[u8]) -> Ledger {
        let Some((epoch, lots)) = last_whole_round(file) else {
            return Ledger::new(1);
        };
        let mut ledger = Ledger::new(epoch + 1);
        if epoch > 0 {
            ledger.begin(0, epoch);
            for (partition, rows) in (0..).zip(&lots) {
                ledger.append(epoch, partition, rows, 0);
            }
            ledger.commit(epoch, 0);
        }
        ledger
    }

    pub fn make_new(&mut self, start: u64, number: u64) {
        if number == 0 {
            *self = Ledger::new(start);
        }
    }

    pub fn recover(&mut self, file: &[u8], number: u64) {
        if number == 0 {
            *self = Ledger::recovered(file);
        }
    }

    pub fn begin(&mut self, number: u64, epoch: u64) {
        if number != 0 {
            return;
        }
        let committed = self.rw.iter().filter(|(_, line)| line.state == State::Committed);
        let mut snapshot: BTreeSet<u64> = committed.map(|(&j, _)| j).filter(|&j| j < epoch).collect();
        snapshot.insert(epoch);
        self.rw.insert(epoch, RwLine { state: State::Open, snapshot });
    }

    pub fn append(&mut self, epoch: u64, partition: u64, rows: &[u64], number: u64) {
        if number == 0 {
            self.lists[partition as usize].push(Item::Rows { mark: epoch, words: rows.to_vec() });
        }
    }

    pub fn clear(&mut self, epoch: u64, partition: u64, number: u64) {
        if number == 0 {
            self.lists[partition as usize].push(Item::Clearing { mark: epoch });
        }
    }

    pub fn commit(&mut self, epoch: u64, number: u64) {
        self.end(epoch, number, State::Committed);
    }

    pub fn rollback(&mut self, epoch: u64, number: u64) {
        self.end(epoch, number, State::RolledBack);
    }

    fn end(&mut self, epoch: u64, number: u64, state: State) {
        if number == 0 {
            if let Some(line) = self.rw.get_mut(&epoch) {
                line.state = state;
            }
        }
    }

    pub fn open(&mut self, epoch: u64, number: u64, ticket: u64) {
        if number != 0 {
            return;
        }
        let epoch = if epoch == 0 { self.newest_settled() } else { epoch };
        self.ro.insert(ticket, self.committed_up_to(epoch));
    }

    fn committed_up_to(&self, epoch: u64) -> BTreeSet<u64> {
        let committed = self.rw.iter().filter(|(_, line)| line.state == State::Committed);
        committed.map(|(&j, _)| j).filter(|&j| j <= epoch).collect()
    }

    pub fn close(&mut self, ticket: u64, number: u64) {
        if number == 0 {
            self.ro.remove(&ticket);
        }
    }

    /// The greatest committed epoch that has no open load of smaller epoch, or s - 1.
    fn newest_settled(&self) -> u64 {
        let mut newest = self.start - 1;
        for (&epoch, line) in &self.rw {
            match line.state {
                State::Open => break,
                State::Committed => newest = epoch,
                State::RolledBack => {}
            }
        }
        newest
    }

    /// The oldest open load, or 0 (02, (i)).
    pub fn oldest_open(&self) -> u64 {
        self.rw_txns().find(|&(_, is_open)| is_open).map_or(0, |(epoch, _)| epoch)
    }

    pub fn rw_is_open(&self, epoch: u64) -> bool {
        self.rw.get(&epoch).is_some_and(|line| line.state == State::Open)
    }

    /// All loads ever begun, with whether each is open.
    pub fn rw_txns(&self) -> impl Iterator<Item = (u64, bool)> + '_ {
        self.rw.iter().map(|(&epoch, line)| (epoch, line.state == State::Open))
    }

    /// The tickets of the open pages.
    pub fn ro_open(&self) -> impl Iterator<Item = u64> + '_ {
        self.ro.keys().copied()
    }

    pub fn ro_is_open(&self, ticket: u64) -> bool {
        self.ro.contains_key(&ticket)
    }

    /// What the ledger shows an open load of a lot, put into `shown`.
    pub fn show_rw(&self, epoch: u64, partition: usize, shown: &mut Vec<u64>) {
        self.show(&self.rw[&epoch].snapshot, partition, shown);
    }

    /// What the ledger shows an open page of a lot, put into `shown`.
    pub fn show_ro(&self, ticket: u64, partition: usize, shown: &mut Vec<u64>) {
        self.show(&self.ro[&ticket], partition, shown);
    }

    /// What the ledger would show a page opened now at this epoch of a lot, put into `shown`.
    pub fn show_at(&self, epoch: u64, partition: usize, shown: &mut Vec<u64>) {
        self.show(&self.committed_up_to(epoch), partition, shown);
    }

    /// The low 32 bits of what the ledger would show a page opened now at 0, added up for each lot.
    pub fn totals(&self) -> [u64; 8] {
        let snapshot = self.committed_up_to(self.newest_settled());
        let mut shown = Vec::new();
        [0, 1, 2, 3, 4, 5, 6, 7].map(|partition| {
            self.show(&snapshot, partition, &mut shown);
            shown.iter().map(|row| row & 0xffff_ffff).sum()
        })
    }

    fn show(&self, snapshot: &BTreeSet<u64>, partition: usize, shown: &mut Vec<u64>) {
        shown.clear();
        let list = &self.lists[partition];
        let mut applied = Vec::new();
        for (at, item) in list.iter().enumerate() {
            if let Item::Clearing { mark } = item {
                if snapshot.contains(mark) {
                    applied.push((at, *mark));
                }
            }
        }
        for (at, item) in list.iter().enumerate() {
            if let Item::Rows { mark, words } = item {
                let hidden = applied.iter().any(|&(place, k)| *mark < k || *mark == k && at < place);
                if !hidden && snapshot.contains(mark) {
                    shown.extend_from_slice(words);
                }
            }
        }
    }
}

/// Takes so many bytes off a file, if there are so many, as numbers of `width` bytes each.
fn take(file: &mut &[u8], count: usize, width: usize) -> Option<Vec<u64>> {
    let (bytes, rest) = file.split_at_checked(count * width)?;
    *file = rest;
    let number = |bytes: &[u8]| bytes.iter().rev().fold(0, |number, &byte| number << 8 | u64::from(byte));
    Some(bytes.chunks(width).map(number).collect())
}

/// The epoch and the rows of the last whole round of a file that was accepted.
fn last_whole_round(mut file: &[u8]) -> Option<(u64, Vec<Vec<u64>>)> {
    let mut next = || {
        let epoch = take(&mut file, 1, 8)?[0];
        let counts = take(&mut file, 8, 2)?;
        let lots: Option<_> = counts.iter().map(|&count| take(&mut file, count as usize, 8)).collect();
        Some((epoch, lots?))
    };
    std::iter::from_fn(&mut next).last()
}
