//! The plain Rust model as an engine.

use crate::engine::{visit, Engine, Sum};
use model::partition::rows_of;
use model::store::Store;
use model::visible::Reader;

pub struct Model {
    store: Store,
    name: &'static str,
}

impl Model {
    /// `trusted` leaves the test of *sound* out.
    pub fn new(name: &'static str, trusted: bool) -> Model {
        let mut store = Store::new(1);
        store.trusted = trusted;
        Model { store, name }
    }
}

impl Engine for Model {
    fn name(&self) -> &'static str {
        self.name
    }

    fn reset(&mut self) {
        self.store.make_new(1).expect("accepted");
    }

    fn begin(&mut self) -> u64 {
        self.store.begin().expect("accepted")
    }

    fn append(&mut self, epoch: u64, lot: usize, rows: &[u64]) {
        self.store.append(epoch, lot as u64, rows).expect("accepted");
    }

    fn clear(&mut self, epoch: u64, lot: usize) {
        self.store.clear(epoch, lot as u64).expect("accepted");
    }

    fn commit(&mut self, epoch: u64) {
        self.store.commit(epoch).expect("accepted");
    }

    fn roll_back(&mut self, epoch: u64) {
        self.store.rollback(epoch).expect("accepted");
    }

    fn open(&mut self, epoch: u64) -> u64 {
        self.store.open(epoch).expect("accepted")
    }

    fn close(&mut self, ticket: u64) {
        self.store.close(ticket).expect("accepted");
    }

    fn scan(&mut self, reader: Reader, lot: usize, sum: &mut Sum) {
        let mut bitmap = [0; 64];
        self.store.scan(reader, lot as u64, &mut bitmap).expect("accepted");
        visit(&bitmap, rows_of(&self.store.manager.partitions.at[lot], &self.store.rows), sum);
    }

    fn scan_plain(&mut self, lot: usize, sum: &mut Sum) {
        sum.rows(rows_of(&self.store.manager.partitions.at[lot], &self.store.rows));
    }

    fn move_lse(&mut self) {
        self.store.move_lse(0).expect("accepted");
    }

    fn purge(&mut self, lot: usize) {
        self.store.purge(lot as u64).expect("accepted");
    }
}
