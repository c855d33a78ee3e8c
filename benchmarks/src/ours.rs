//! This store as an engine, through its Rust crate.

use crate::engine::{Engine, Sum};
use model::visible::Reader;
use nizgulk::limits::ROWS_MAX;
use nizgulk::{Epoch, Store, Ticket};

pub struct Ours {
    store: Box<Store>,
}

impl Ours {
    pub fn new() -> Ours {
        Ours { store: Box::new(Store::new(Epoch::FIRST).expect("accepted")) }
    }
}

impl Engine for Ours {
    fn name(&self) -> &'static str {
        "Nizgulk"
    }

    fn reset(&mut self) {
        self.store.create(Epoch::FIRST).expect("accepted");
    }

    fn begin(&mut self) -> u64 {
        self.store.begin().expect("accepted").get()
    }

    fn append(&mut self, epoch: u64, lot: usize, rows: &[u64]) {
        self.store.append(Epoch::new(epoch), lot as u64, rows).expect("accepted");
    }

    fn clear(&mut self, epoch: u64, lot: usize) {
        self.store.clear(Epoch::new(epoch), lot as u64).expect("accepted");
    }

    fn commit(&mut self, epoch: u64) {
        self.store.commit(Epoch::new(epoch)).expect("accepted");
    }

    fn roll_back(&mut self, epoch: u64) {
        self.store.roll_back(Epoch::new(epoch)).expect("accepted");
    }

    fn open(&mut self, epoch: u64) -> u64 {
        self.store.begin_ro(Epoch::new(epoch)).expect("accepted").get()
    }

    fn close(&mut self, ticket: u64) {
        self.store.end_ro(Ticket::new(ticket)).expect("accepted");
    }

    fn scan(&mut self, reader: Reader, lot: usize, sum: &mut Sum) {
        let reader = match reader {
            Reader::Rw(epoch) => nizgulk::Reader::Rw(Epoch::new(epoch)),
            Reader::Ro(ticket) => nizgulk::Reader::Ro(Ticket::new(ticket)),
        };
        self.store.scan(reader, lot as u64).expect("accepted").for_each(|row| sum.row(row));
    }

    fn scan_plain(&mut self, lot: usize, sum: &mut Sum) {
        let partition = &self.store.books().partitions.at[lot];
        let from = ROWS_MAX * partition.area;
        sum.rows(&self.store.rows()[from..from + partition.rows]);
    }

    fn move_lse(&mut self) {
        self.store.advance_lse(None).expect("accepted");
    }

    fn purge(&mut self, lot: usize) {
        self.store.purge(lot as u64).expect("accepted");
    }
}
