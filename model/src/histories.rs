//! Random calls and random session lines by seed and profile (01, "A session" and the calls; 02, (v)).

use crate::call::Call;
use crate::files::any_file;
use crate::ledger::Ledger;
use crate::partition::{entries_of, Entry, Partition};
use crate::random::Rng;
use crate::round::{Round, CONTENTS};
use crate::session::{line_of, parse, LONGEST_LINE};
use crate::store::{Manager, Store};
use crate::visible::{bytes_needed, Reader};
use crate::{AREAS, AREA_ENTRIES, AREA_ROWS, LAST_EPOCH, TICKET_END, TXNS};

/// How often each call comes, and how the history leans.
#[derive(Clone, Copy, Debug)]
pub struct Profile {
    pub name: &'static str,
    /// Lots that are used.
    pub partitions: u64,
    /// Loads and pages that the history leans towards.
    pub rw: u64,
    pub ro: u64,
    /// The greatest usual batch.
    pub batch: u64,
    /// Of 1,000 arguments, how many are wrong on purpose.
    pub wrong: u64,
    /// Of 1,000 lines, how many are garbage. Calls do not look at it.
    pub garbage: u64,
    /// Weights: begin or end a load, append, clear, open or close a page, move LSE, purge, scan, make new, save,
    /// recover.
    pub weights: [u64; 10],
    /// Of 1,000 ended loads, how many are rolled back.
    pub rollback: u64,
}

pub const PROFILES: [Profile; 11] = [
    Profile {
        name: "mixed",
        partitions: 8,
        rw: 5,
        ro: 4,
        batch: 12,
        wrong: 40,
        garbage: 10,
        weights: [200, 350, 60, 80, 60, 120, 120, 3, 30, 3],
        rollback: 200,
    },
    Profile {
        name: "few-lots",
        partitions: 2,
        rw: 6,
        ro: 3,
        batch: 30,
        wrong: 20,
        garbage: 5,
        weights: [200, 350, 40, 80, 80, 120, 100, 2, 30, 2],
        rollback: 200,
    },
    Profile {
        name: "full-entries",
        partitions: 2,
        rw: 7,
        ro: 3,
        batch: 2,
        wrong: 15,
        garbage: 5,
        weights: [100, 600, 60, 40, 10, 10, 60, 0, 10, 0],
        rollback: 150,
    },
    Profile {
        name: "many-loads",
        partitions: 4,
        rw: 40,
        ro: 3,
        batch: 4,
        wrong: 15,
        garbage: 5,
        weights: [500, 250, 20, 40, 40, 60, 60, 1, 20, 1],
        rollback: 250,
    },
    Profile {
        name: "long-pages",
        partitions: 4,
        rw: 4,
        ro: 40,
        batch: 8,
        wrong: 15,
        garbage: 5,
        weights: [200, 250, 40, 200, 40, 80, 60, 1, 30, 1],
        rollback: 150,
    },
    Profile {
        name: "clear-heavy",
        partitions: 3,
        rw: 5,
        ro: 4,
        batch: 8,
        wrong: 15,
        garbage: 5,
        weights: [200, 300, 250, 70, 60, 100, 80, 1, 30, 1],
        rollback: 150,
    },
    Profile {
        name: "rollback-heavy",
        partitions: 4,
        rw: 6,
        ro: 3,
        batch: 8,
        wrong: 15,
        garbage: 5,
        weights: [300, 400, 60, 60, 40, 60, 80, 1, 20, 1],
        rollback: 750,
    },
    Profile {
        name: "purge-heavy",
        partitions: 3,
        rw: 4,
        ro: 2,
        batch: 10,
        wrong: 15,
        garbage: 5,
        weights: [250, 250, 80, 60, 180, 250, 60, 1, 30, 1],
        rollback: 150,
    },
    Profile {
        name: "save-heavy",
        partitions: 8,
        rw: 4,
        ro: 3,
        batch: 40,
        wrong: 30,
        garbage: 5,
        weights: [250, 250, 60, 40, 40, 40, 40, 2, 250, 40],
        rollback: 150,
    },
    Profile {
        name: "refused",
        partitions: 8,
        rw: 12,
        ro: 12,
        batch: 60,
        wrong: 450,
        garbage: 30,
        weights: [200, 250, 100, 120, 100, 80, 150, 10, 60, 10],
        rollback: 200,
    },
    Profile {
        name: "garbage",
        partitions: 8,
        rw: 5,
        ro: 4,
        batch: 12,
        wrong: 100,
        garbage: 450,
        weights: [200, 350, 60, 80, 60, 120, 120, 3, 30, 3],
        rollback: 200,
    },
];

/// The profile of that name.
pub fn profile(name: &str) -> Option<Profile> {
    PROFILES.into_iter().find(|profile| profile.name == name)
}

/// How a history leans for a while.
#[derive(Clone, Copy, Debug, PartialEq, Eq)]
enum Phase {
    Usual,
    /// Loads and pages end, so that LSE can move and purges have work.
    Drain,
    /// Loads begin and pages open, up to the last place.
    Burst,
}

/// Makes calls for a store as it stands.
#[derive(Clone, Debug)]
pub struct Calls {
    pub rng: Rng,
    pub profile: Profile,
    phase: Phase,
    /// Calls left in this phase.
    left: u64,
    /// The rounds of the accepted saves, for a later recovery.
    saved: Vec<Round>,
}

impl Calls {
    pub fn new(seed: u64, profile: Profile) -> Calls {
        let mut mixed = Rng::new(seed);
        for byte in profile.name.bytes() {
            mixed = Rng::new(mixed.any() ^ u64::from(byte));
        }
        Calls { rng: mixed, profile, phase: Phase::Usual, left: 0, saved: Vec::new() }
    }

    /// A store that making new or recovery left in areas of any words, and its ledger.
    /// A few start near the last epoch or the last ticket.
    pub fn first_store(&mut self) -> (Store, Ledger) {
        let start = match self.rng.below(10) {
            0..=5 => 1,
            6 | 7 => self.rng.within(1, LAST_EPOCH),
            _ => LAST_EPOCH - self.rng.below(80),
        };
        let mut store = Store::new(start);
        let mut ledger = Ledger::new(start);
        if self.rng.per_mille(500) {
            fill_areas(&mut store, &mut self.rng);
        }
        if self.rng.per_mille(200) {
            let file = any_file(&mut self.rng, &[], 0);
            assert_eq!(store.recover(&file), Ok(()));
            ledger = Ledger::recovered(&file);
        }
        if self.rng.per_mille(200) {
            store.manager.ro.next = TICKET_END - self.rng.below(50);
        }
        // Or so that all places are taken just when the last epoch and the last ticket are given out.
        if self.rng.per_mille(60) {
            let last = LAST_EPOCH + 1 - TXNS as u64;
            store.manager = Manager::starting_at(last);
            store.manager.ro.next = TICKET_END - TXNS as u64;
            (self.phase, self.left) = (Phase::Burst, 200);
            return (store, Ledger::new(last));
        }
        (store, ledger)
    }

    fn wrong(&mut self) -> bool {
        self.rng.per_mille(self.profile.wrong)
    }

    /// The next call. It is shaped by the store, so that many calls are accepted.
    pub fn next_call(&mut self, store: &Store) -> Call {
        if self.left == 0 {
            (self.phase, self.left) = match self.rng.below(8) {
                0..=4 => (Phase::Usual, self.rng.within(20, 120)),
                5 | 6 => (Phase::Drain, self.rng.within(20, 60)),
                _ => (Phase::Burst, self.rng.within(20, 100)),
            };
        }
        self.left -= 1;
        let mut weights = self.profile.weights;
        match self.phase {
            Phase::Usual => {}
            Phase::Drain => {
                weights[0] *= 3;
                weights[1] /= 4;
                weights[3] *= 2;
                weights[4] *= 3;
                weights[5] *= 2;
            }
            Phase::Burst => {
                weights[0] *= 2;
                weights[3] *= 4;
            }
        }
        let mut ball = self.rng.below(weights.iter().sum());
        let mut choice = 0;
        while ball >= weights[choice] {
            ball -= weights[choice];
            choice += 1;
        }
        match choice {
            0 => self.begin_or_end(store),
            1 => self.append(store),
            2 => Call::Clear { epoch: self.epoch(store), partition: self.partition() },
            3 => self.open_or_close(store),
            4 => Call::MoveLse { target: self.page_epoch(store) },
            5 => self.purge(store),
            6 => self.scan(store),
            7 => Call::New { start: self.start() },
            8 => self.save(store),
            _ => self.recover(),
        }
    }

    fn start(&mut self) -> u64 {
        match self.rng.below(8) {
            0 => 0,
            1 => LAST_EPOCH + 1,
            2 => self.rng.word(),
            3 => LAST_EPOCH - self.rng.below(20),
            4 => LAST_EPOCH,
            _ => 1,
        }
    }

    fn begin_or_end(&mut self, store: &Store) -> Call {
        let open = store.manager.rw.open().count() as u64;
        let records = store.manager.rw.count;
        // Leans to begin below the profile's number of loads, and to end above it.
        let begin = match self.phase {
            Phase::Usual => self.rng.below(self.profile.rw * 2) >= records,
            Phase::Drain => self.rng.per_mille(50),
            Phase::Burst => self.rng.per_mille(980),
        };
        if begin || open == 0 {
            return Call::Begin;
        }
        let epoch = self.epoch(store);
        if self.rng.per_mille(self.profile.rollback) {
            Call::Rollback { epoch }
        } else {
            Call::Commit { epoch }
        }
    }

    fn open_or_close(&mut self, store: &Store) -> Call {
        let ro_txns = store.manager.ro.used();
        let open = match self.phase {
            Phase::Usual => self.rng.below(self.profile.ro * 2) >= ro_txns.len() as u64,
            Phase::Drain => self.rng.per_mille(50),
            Phase::Burst => self.rng.per_mille(990),
        };
        if open {
            return Call::Open { epoch: self.page_epoch(store) };
        }
        let ticket = if self.wrong() || ro_txns.is_empty() {
            self.name(store.manager.ro.next)
        } else {
            let at = self.rng.below(ro_txns.len() as u64) as usize;
            ro_txns[at].ticket
        };
        Call::Close { ticket }
    }

    fn append(&mut self, store: &Store) -> Call {
        let partition = self.partition();
        let part = store.manager.partitions.at[partition.min(7) as usize];
        let mut epoch = self.epoch(store);
        // Now and then the load that came last, so that an end moves.
        if self.rng.per_mille(250) && part.entries > 0 {
            let last = store.entries[part.area as usize * AREA_ENTRIES + part.entries as usize - 1];
            if store.manager.rw.find_open(last.epoch).is_some() {
                epoch = last.epoch;
            }
        }
        let room = AREA_ROWS as u64 - part.rows;
        let length = match self.rng.below(100) {
            0..=5 => 0,
            6 if self.profile.batch > 4 => room,
            7 => room + 1,
            8 | 9 if self.profile.batch <= 4 => room + self.rng.within(1, 4),
            8 if self.wrong() => 512 + self.rng.below(3),
            9 if self.wrong() => self.rng.within(513, 2000),
            _ => self.rng.within(1, self.profile.batch),
        };
        let rows = (0..length).map(|_| self.rng.row()).collect();
        Call::Append { epoch, partition, rows }
    }

    /// Any lot, or one that has work for a purge.
    fn purge(&mut self, store: &Store) -> Call {
        let lse = store.manager.clock.lse;
        let parts = store.manager.partitions.at.iter().enumerate();
        let has_old =
            |part: &Partition| entries_of(part, &store.entries).iter().any(|entry| entry.epoch < lse);
        let work: Vec<u64> = parts.filter(|(_, part)| has_old(part)).map(|(p, _)| p as u64).collect();
        if self.rng.per_mille(500) && !work.is_empty() {
            Call::Purge { partition: self.rng.pick(&work) }
        } else {
            Call::Purge { partition: self.partition() }
        }
    }

    fn scan(&mut self, store: &Store) -> Call {
        let partition = self.partition();
        let (rw, ro): (Vec<u64>, Vec<u64>) = (
            store.manager.rw.open().map(|txn| txn.epoch).collect(),
            store.manager.ro.used().iter().map(|txn| txn.ticket).collect(),
        );
        let is_ro = self.rng.per_mille(500);
        let names = if is_ro { &ro } else { &rw };
        let name = if self.wrong() || names.is_empty() {
            self.name(if is_ro { store.manager.ro.next } else { store.manager.clock.ec })
        } else {
            self.rng.pick(names)
        };
        let reader = if is_ro { Reader::Ro(name) } else { Reader::Rw(name) };
        let needed = bytes_needed(store.manager.partitions.at[partition.min(7) as usize].rows);
        let lent = match self.rng.below(10) {
            0 => needed + 1,
            1 => 64,
            2 => 80,
            3 if self.wrong() => 0,
            4 | 5 if self.wrong() => needed.saturating_sub(1),
            _ => needed,
        };
        Call::Scan { reader, partition, lent }
    }

    /// A save at an epoch in range or not, lent as many bytes as it needs or not. An accepted one is kept.
    fn save(&mut self, store: &Store) -> Call {
        let clock = store.manager.clock;
        let epoch = match self.rng.below(8) {
            _ if self.wrong() => self.page_epoch(store),
            0 => 0,
            1 => clock.lse,
            2..=5 => clock.lce,
            _ => self.rng.within(clock.lse, clock.lce),
        };
        let round = store.round_at(epoch);
        let needed = round.length();
        let lent = match self.rng.below(10) {
            0 => needed + 1,
            1 => needed + self.rng.within(2, 100) as usize,
            2 if self.wrong() => 0,
            3 if self.wrong() => CONTENTS,
            4 | 5 if self.wrong() => needed - 1,
            _ => needed,
        };
        if (clock.lse..=clock.lce).contains(&epoch) && needed <= lent {
            self.keep(round);
        }
        Call::Save { epoch, lent }
    }

    /// Puts a round behind those that were saved before, or into a file of its own. In one file epochs never fall, but
    /// now and then they do.
    fn keep(&mut self, round: Round) {
        let falls = self.saved.last().is_some_and(|last| round.epoch < last.epoch);
        if self.rng.per_mille(if falls { 950 } else { 150 }) {
            self.saved.clear();
        }
        self.saved.push(round);
    }

    fn recover(&mut self) -> Call {
        let wrong = if self.wrong() { 1000 } else { 200 };
        Call::Recover { file: any_file(&mut self.rng, &self.saved, wrong) }
    }

    fn partition(&mut self) -> u64 {
        if self.wrong() {
            match self.rng.below(3) {
                0 => 8,
                1 => self.rng.within(8, 300),
                _ => self.rng.word().max(8),
            }
        } else {
            self.rng.below(self.profile.partitions)
        }
    }

    /// The epoch of an open load, or now and then of none.
    fn epoch(&mut self, store: &Store) -> u64 {
        let open: Vec<u64> = store.manager.rw.open().map(|txn| txn.epoch).collect();
        if self.wrong() || open.is_empty() {
            let records = store.manager.rw.used();
            if self.rng.per_mille(400) && !records.is_empty() {
                let at = self.rng.below(records.len() as u64) as usize;
                return records[at].epoch;
            }
            self.name(store.manager.clock.ec)
        } else {
            self.rng.pick(&open)
        }
    }

    /// A number near those given out so far.
    fn name(&mut self, next: u64) -> u64 {
        match self.rng.below(6) {
            0 => 0,
            1 => next,
            2 => self.rng.word(),
            3 => next + (1 << 32),
            _ => next.saturating_sub(self.rng.below(40)),
        }
    }

    /// A page epoch or LSE target.
    fn page_epoch(&mut self, store: &Store) -> u64 {
        let clock = store.manager.clock;
        if self.wrong() {
            return match self.rng.below(4) {
                0 => clock.lce + 1,
                1 => clock.lse.saturating_sub(1),
                2 => clock.lce + (1 << 32),
                _ => self.rng.word(),
            };
        }
        match self.rng.below(8) {
            0..=3 => 0,
            4 => clock.lse,
            5 => clock.lce,
            _ => self.rng.within(clock.lse, clock.lce),
        }
    }
}

/// Puts any words into the lent areas.
pub fn fill_areas(store: &mut Store, rng: &mut Rng) {
    store.rows = (0..AREAS * AREA_ROWS).map(|_| rng.row()).collect();
    store.entries = (0..AREAS * AREA_ENTRIES)
        .map(|_| Entry { epoch: rng.word(), end: rng.word(), mark: rng.below(4) })
        .collect();
}

/// Makes session lines, and keeps a store of its own to shape them.
#[derive(Clone, Debug)]
pub struct Lines {
    calls: Calls,
    store: Store,
}

impl Lines {
    pub fn new(seed: u64, profile: Profile) -> Lines {
        Lines { calls: Calls::new(seed, profile), store: Store::new(1) }
    }

    /// The next line, without its line end.
    pub fn next_line(&mut self) -> Vec<u8> {
        let line = loop {
            let call = self.calls.next_call(&self.store);
            if let Some(line) = line_of(&call) {
                break line.into_bytes();
            }
        };
        let rng = &mut self.calls.rng;
        let line = if rng.per_mille(self.calls.profile.garbage) { garbage(line, rng) } else { line };
        if let Some(call) = parse(&line) {
            let _ = call.run(&mut self.store, &mut call.lent_bytes());
        }
        line
    }
}

/// A line with something wrong, or with something odd that is still right.
fn garbage(mut line: Vec<u8>, rng: &mut Rng) -> Vec<u8> {
    let at = rng.below(line.len() as u64 + 1) as usize;
    match rng.below(18) {
        0 => line.clear(),
        1 => line.push(b' '),
        2 => line.insert(0, b' '),
        3 => line.push(b'\r'),
        4 => line.insert(at, b' '),
        5 => line.insert(at, (rng.below(255) + 11) as u8),
        6 => line.truncate(at),
        7 => line.extend_from_slice(b" 18446744073709551615"),
        8 => line.extend_from_slice(b" 18446744073709551616"),
        9 => line.extend_from_slice(b" 00000000000000000000000000000000000000000001"),
        10 => line = line.to_ascii_lowercase(),
        11 => line.insert(at, b'-'),
        12 => line.insert(at, b'\t'),
        13 => {
            // Near the longest line; short and long by a byte or so.
            let length = LONGEST_LINE - 2 + rng.below(5) as usize;
            line = b"A 1 0".to_vec();
            while line.len() + 2 <= length {
                line.extend_from_slice(b" 7");
            }
            while line.len() < length {
                line.push(b'7');
            }
        }
        14 => {
            let length = rng.within(1, 40_000) as usize;
            line = (0..length).map(|_| rng.pick(b"ABS 0123")).collect();
        }
        15 => line = (0..rng.within(1, 30)).map(|_| rng.pick(b"ABCDELPRSX lp0123456789")).collect(),
        16 => {
            let digits = rng.within(1, 25);
            line = b"C ".to_vec();
            line.extend((0..digits).map(|_| rng.pick(b"0123456789")));
        }
        _ => {
            // A few zeros before a number: the value is the same.
            if let Some(digit) = line.iter().position(u8::is_ascii_digit) {
                line.splice(digit..digit, *b"000");
            }
        }
    }
    line.retain(|&byte| byte != b'\n');
    line
}
