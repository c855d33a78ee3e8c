//! The workloads: lists of calls, made once from a seed, that every engine runs. The model runs each call as the list
//! is made, so that no list has a call that 01 refuses.

use model::call::{number_of, Call};
use model::partition::{entries_of, CLEARING};
use model::random::Rng;
use model::store::Store;
use model::visible::Reader;
use model::{AREA_ENTRIES, AREA_ROWS};

pub struct Workload {
    pub name: &'static str,
    /// For the head of a column.
    pub short: &'static str,
    /// Not timed.
    pub before: Vec<Call>,
    pub calls: Vec<Call>,
    /// Whether the calls are scans, which can be had without a snapshot too.
    pub scans: bool,
}

impl Workload {
    /// How many calls of each kind, most of them first.
    pub fn kinds(&self) -> String {
        let mut counts: Vec<(usize, &str)> = Vec::new();
        for (kind, name) in model::call::CALL_NAMES.iter().enumerate() {
            counts.push((self.calls.iter().filter(|call| call.kind() == kind).count(), name));
        }
        counts.sort_by_key(|count| std::cmp::Reverse(count.0));
        let some = counts.iter().filter(|count| count.0 > 0);
        some.map(|(count, name)| format!("{count} {name}")).collect::<Vec<String>>().join(", ")
    }
}

const LOTS: u64 = 8;

/// A list of calls that grows, and the store that it leaves.
struct Day {
    store: Store,
    rng: Rng,
    calls: Vec<Call>,
}

impl Day {
    fn new(seed: u64) -> Day {
        let mut store = Store::new(1);
        store.trusted = true;
        Day { store, rng: Rng::new(seed), calls: Vec::new() }
    }

    fn call(&mut self, call: Call) {
        let mut bitmap = call.lent_bytes();
        assert_eq!(number_of(&call.run(&mut self.store, &mut bitmap)), 0, "{call:?}");
        self.calls.push(call);
    }

    fn begin(&mut self) -> u64 {
        let epoch = self.store.manager.clock.ec;
        self.call(Call::Begin);
        epoch
    }

    fn append(&mut self, epoch: u64, partition: u64, count: u64) {
        let rows = (0..count).map(|_| self.rng.any()).collect();
        self.call(Call::Append { epoch, partition, rows });
    }

    fn commit(&mut self, epoch: u64) {
        self.call(Call::Commit { epoch });
    }

    fn open(&mut self, epoch: u64) -> u64 {
        let ticket = self.store.manager.ro.next;
        self.call(Call::Open { epoch });
        ticket
    }

    fn close(&mut self, ticket: u64) {
        self.call(Call::Close { ticket });
    }

    fn scan(&mut self, reader: Reader, partition: u64) {
        self.call(Call::Scan { reader, partition, lent: AREA_ROWS / 8 });
    }

    fn purge_all(&mut self) {
        self.call(Call::MoveLse { target: 0 });
        (0..LOTS).for_each(|partition| self.call(Call::Purge { partition }));
    }

    fn has_room(&self, partition: u64, rows: u64) -> bool {
        let lot = &self.store.manager.partitions.at[partition as usize];
        lot.rows + rows <= AREA_ROWS as u64 && lot.entries < AREA_ENTRIES as u64
    }

    fn is_cleared(&self, partition: u64) -> bool {
        let lot = &self.store.manager.partitions.at[partition as usize];
        entries_of(lot, &self.store.entries).iter().any(|entry| entry.mark == CLEARING)
    }

    /// Ends the calls that are not timed.
    fn started(&mut self) -> Vec<Call> {
        std::mem::take(&mut self.calls)
    }
}

pub fn all() -> Vec<Workload> {
    vec![
        mixed(),
        long_page(),
        reload(),
        scans("scans of full lots, 64 entries", "64 entries", false),
        scans("scans of full lots, purged", "purged", true),
    ]
}

const MIXED_LOADS: u64 = 400;

/// Up to four loads and four pages are open at once. A load appends one to four batches of 4 to 12 rows to lots at
/// random; one in ten is rolled back, one in sixteen clears a lot. Before one in eight of its calls it scans a lot
/// itself. A page scans four lots; one in four is opened at some epoch from LSE to LCE, the others at LCE. After every
/// sixteenth load LSE moves and all lots are purged. A lot that is three quarters full is cleared.
fn mixed() -> Workload {
    let mut day = Day::new(1);
    let mut left: Vec<(u64, u64)> = Vec::new();
    let mut to_scan: Vec<(u64, u64)> = Vec::new();
    let mut closed = 0;
    while closed < MIXED_LOADS {
        if day.rng.per_mille(500) {
            load_step(&mut day, &mut left, &mut closed);
        } else {
            page_step(&mut day, &mut to_scan);
        }
    }
    Workload { name: "mixed loads and pages", short: "mixed", before: Vec::new(), calls: day.calls, scans: false }
}

/// A step of some load; `left` has the batches that each open one still has to append.
fn load_step(day: &mut Day, left: &mut Vec<(u64, u64)>, closed: &mut u64) {
    let at = day.rng.below(4) as usize;
    if at >= left.len() {
        let (epoch, batches) = (day.begin(), day.rng.within(1, 4));
        left.push((epoch, batches));
        let full = (0..LOTS).find(|&lot| !day.has_room(lot, AREA_ROWS as u64 / 4) && !day.is_cleared(lot));
        let lot = full.unwrap_or_else(|| day.rng.below(LOTS));
        if day.has_room(lot, 0) && (full.is_some() || day.rng.per_mille(1000 / 16)) {
            day.call(Call::Clear { epoch, partition: lot });
        }
        return;
    }
    let (epoch, batches) = left[at];
    if day.rng.per_mille(125) {
        let lot = day.rng.below(LOTS);
        day.scan(Reader::Rw(epoch), lot);
    }
    if batches > 0 {
        let (lot, rows) = (day.rng.below(LOTS), day.rng.within(4, 12));
        if day.has_room(lot, rows) {
            day.append(epoch, lot, rows);
        }
        left[at].1 -= 1;
        return;
    }
    left.remove(at);
    *closed += 1;
    if day.rng.per_mille(100) {
        day.call(Call::Rollback { epoch });
    } else {
        day.commit(epoch);
    }
    if closed.is_multiple_of(16) {
        day.purge_all();
    }
}

/// A step of some page; `to_scan` has the scans that each open one still has to make.
fn page_step(day: &mut Day, to_scan: &mut Vec<(u64, u64)>) {
    let at = day.rng.below(4) as usize;
    if at >= to_scan.len() {
        let clock = day.store.manager.clock;
        let past = day.rng.per_mille(250) && clock.lse > 0;
        let epoch = if past { day.rng.within(clock.lse, clock.lce) } else { 0 };
        to_scan.push((day.open(epoch), 4));
        return;
    }
    let (ticket, scans) = to_scan[at];
    if scans > 0 {
        let lot = day.rng.below(LOTS);
        day.scan(Reader::Ro(ticket), lot);
        to_scan[at].1 -= 1;
    } else {
        to_scan.remove(at);
        day.close(ticket);
    }
}

/// A page is opened on lots of 64 rows and stays open while 440 loads append 8 rows each, to the lots in turn; it scans
/// the lot after each. LSE cannot pass it, so that every lot ends with 56 entries. Then it is closed and the lots are
/// purged.
fn long_page() -> Workload {
    let mut day = Day::new(2);
    let first = day.begin();
    (0..LOTS).for_each(|lot| day.append(first, lot, 64));
    day.commit(first);
    let before = day.started();
    let ticket = day.open(0);
    for turn in 0..440 {
        let (epoch, lot) = (day.begin(), turn % LOTS);
        day.append(epoch, lot, 8);
        day.commit(epoch);
        day.scan(Reader::Ro(ticket), lot);
    }
    day.close(ticket);
    day.purge_all();
    Workload { name: "a page open all day", short: "long page", before, calls: day.calls, scans: false }
}

/// A load clears a lot of 256 rows and appends 256 others in batches of 64; a page is opened, scans it and is closed;
/// LSE moves and the lot is purged. Every lot eight times.
fn reload() -> Workload {
    let mut day = Day::new(3);
    let fill = |day: &mut Day, epoch: u64, lot: u64| (0..4).for_each(|_| day.append(epoch, lot, 64));
    let first = day.begin();
    (0..LOTS).for_each(|lot| fill(&mut day, first, lot));
    day.commit(first);
    let before = day.started();
    for turn in 0..64 {
        let (epoch, lot) = (day.begin(), turn % LOTS);
        day.call(Call::Clear { epoch, partition: lot });
        fill(&mut day, epoch, lot);
        day.commit(epoch);
        let ticket = day.open(0);
        day.scan(Reader::Ro(ticket), lot);
        day.close(ticket);
        day.call(Call::MoveLse { target: 0 });
        day.call(Call::Purge { partition: lot });
    }
    Workload { name: "clear and reload", short: "reload", before, calls: day.calls, scans: false }
}

/// Lots of 512 rows, appended by 64 loads of 8 rows each to every lot, or the same after a purge, which leaves one
/// entry. A page at LCE, which is shown all rows, scans every lot forty times.
fn scans(name: &'static str, short: &'static str, purge: bool) -> Workload {
    let mut day = Day::new(4);
    for _ in 0..AREA_ENTRIES {
        let epoch = day.begin();
        (0..LOTS).for_each(|lot| day.append(epoch, lot, 8));
        day.commit(epoch);
    }
    if purge {
        day.purge_all();
    }
    let ticket = day.open(0);
    let before = day.started();
    for turn in 0..320 {
        day.scan(Reader::Ro(ticket), turn % LOTS);
    }
    Workload { name, short, before, calls: day.calls, scans: true }
}
