//! The books for engines that have none: clock, loads and pages (01, "The books"), kept in the program's memory. SQLite
//! and LMDB keep the lots, and of the books what outlives open loads and pages. Their own transactions cannot stand for
//! loads, as each has one writer at a time and 01 has 32.

use model::visible::Reader;

/// What a load wrote into a lot: rows, or a clearing, of these sequence numbers. A roll back removes it.
#[derive(Clone, Copy, Debug)]
pub struct Written {
    pub lot: usize,
    pub clearing: bool,
    pub first: u64,
    pub last: u64,
}

#[derive(Debug)]
struct Load {
    epoch: u64,
    waiting: bool,
    deps: Vec<u64>,
    written: Vec<Written>,
}

/// What a reader sees: the epochs up to `last` but those in `deps`. Their clearings are those that it applies.
#[derive(Clone, Copy, Debug)]
pub struct View<'a> {
    pub last: u64,
    pub deps: &'a [u64],
}

impl View<'_> {
    #[inline]
    pub fn sees(&self, epoch: u64) -> bool {
        epoch <= self.last && !self.deps.contains(&epoch)
    }
}

#[derive(Debug)]
pub struct Books {
    next_epoch: u64,
    lce: u64,
    pub lse: u64,
    /// Open or waiting, epochs rising.
    loads: Vec<Load>,
    /// Ticket and epoch.
    pages: Vec<(u64, u64)>,
    next_ticket: u64,
}

impl Default for Books {
    fn default() -> Books {
        Books { next_epoch: 1, lce: 0, lse: 0, loads: Vec::new(), pages: Vec::new(), next_ticket: 1 }
    }
}

impl Books {
    pub fn begin(&mut self) -> u64 {
        let epoch = self.next_epoch;
        self.next_epoch += 1;
        let deps = self.loads.iter().filter(|load| !load.waiting).map(|load| load.epoch).collect();
        self.loads.push(Load { epoch, waiting: false, deps, written: Vec::new() });
        epoch
    }

    fn place_of(&self, epoch: u64) -> usize {
        let open = |load: &Load| load.epoch == epoch && !load.waiting;
        self.loads.iter().position(open).expect("an open load")
    }

    pub fn wrote(&mut self, epoch: u64, written: Written) {
        let at = self.place_of(epoch);
        self.loads[at].written.push(written);
    }

    pub fn commit(&mut self, epoch: u64) {
        let at = self.place_of(epoch);
        self.loads[at] = Load { epoch, waiting: true, deps: Vec::new(), written: Vec::new() };
        self.settle();
    }

    /// Answers what the load wrote.
    pub fn roll_back(&mut self, epoch: u64) -> Vec<Written> {
        let at = self.place_of(epoch);
        let load = self.loads.remove(at);
        self.settle();
        load.written
    }

    /// LCE goes on to the last committed load that has no open one before it.
    fn settle(&mut self) {
        while self.loads.first().is_some_and(|load| load.waiting) {
            self.lce = self.loads.remove(0).epoch;
        }
    }

    pub fn open(&mut self, epoch: u64) -> u64 {
        let ticket = self.next_ticket;
        self.next_ticket += 1;
        self.pages.push((ticket, if epoch == 0 { self.lce } else { epoch }));
        ticket
    }

    pub fn close(&mut self, ticket: u64) {
        self.pages.retain(|page| page.0 != ticket);
    }

    /// What outlives the loads and pages that are open: EC, LCE, LSE, and the epochs that are committed above LCE.
    pub fn landed(&self) -> Vec<u64> {
        let waiting = self.loads.iter().filter(|load| load.waiting).map(|load| load.epoch);
        [self.next_epoch, self.lce, self.lse].into_iter().chain(waiting).collect()
    }

    pub fn move_lse(&mut self) {
        let pages = self.pages.iter().map(|page| page.1);
        let deps = self.loads.iter().filter_map(|load| load.deps.first()).map(|dep| dep - 1);
        self.lse = pages.chain(deps).fold(self.lce, u64::min);
    }

    pub fn view(&self, reader: Reader) -> View<'_> {
        match reader {
            Reader::Rw(epoch) => {
                let load = &self.loads[self.place_of(epoch)];
                View { last: epoch, deps: &load.deps }
            }
            Reader::Ro(ticket) => {
                let page = self.pages.iter().find(|page| page.0 == ticket).expect("an open page");
                View { last: page.1, deps: &[] }
            }
        }
    }
}
