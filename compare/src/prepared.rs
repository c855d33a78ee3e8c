//! Stores and calls that the measuring programs share: an empty store, full ones, and those that ask for the most work.

use crate::numbers;
use model::call::Call;
use model::files::{bytes_of, random_rounds};
use model::partition::{Entry, Partition, CLEARING, ROWS};
use model::random::Rng;
use model::round::{Round, CONTENTS, ROW};
use model::sound::well_formed;
use model::store::Store;
use model::txn::WAITING;
use model::visible::Reader;
use model::{AREAS, AREA_ENTRIES, AREA_ROWS, DEPS, PARTITIONS, TXNS};
use std::collections::BTreeSet;
use std::hint::black_box;

/// An open load and an open page, of the empty store and of the laden ones.
pub const LOAD: u64 = 5;
pub const PAGE: u64 = 1;

include!("names.rs");

/// How many functions the static library has.
pub const KINDS: usize = NAMES.len();

/// The place of the function that runs the call, in `NAMES`.
pub fn kind(one: &Call) -> usize {
    match one {
        Call::New { .. } => 0,
        Call::Begin => 1,
        Call::Append { .. } => 2,
        Call::Clear { .. } => 3,
        Call::Commit { .. } => 4,
        Call::Rollback { .. } => 5,
        Call::Open { .. } => 6,
        Call::Close { .. } => 7,
        Call::Scan { reader: Reader::Rw(_), .. } => 8,
        Call::Scan { reader: Reader::Ro(_), .. } => 9,
        Call::MoveLse { .. } => 10,
        Call::Purge { .. } => 11,
        Call::Save { .. } => 12,
        Call::Recover { .. } => 13,
    }
}

fn run(store: &mut Store, call: Call) {
    assert_eq!(numbers(&call.run(store, &mut [])).0, 0, "{call:?}");
}

/// A scan of lot 0 with a bitmap that is always long enough.
pub fn scan(reader: Reader) -> Call {
    Call::Scan { reader, partition: 0, lent: AREA_ROWS / 8 }
}

/// An append of so many rows to lot 0.
pub fn append(count: u64) -> Call {
    Call::Append { epoch: LOAD, partition: 0, rows: (0..count).collect() }
}

/// A save at an epoch with an output that is always long enough.
pub fn save(epoch: u64) -> Call {
    Call::Save { epoch, lent: CONTENTS + PARTITIONS * AREA_ROWS * ROW }
}

/// A recovery of what a save of the store at an epoch writes.
pub fn recover(store: &Store, epoch: u64) -> Call {
    Call::Recover { file: store.round_at(epoch).bytes() }
}

/// One call of each kind, in the order of `kind`, that the empty store and the laden ones accept. The recovery is of what
/// the save writes.
pub fn each_call(store: &Store) -> [Call; KINDS] {
    [
        Call::New { start: 1 },
        Call::Begin,
        append(8),
        Call::Clear { epoch: LOAD, partition: 0 },
        Call::Commit { epoch: LOAD },
        Call::Rollback { epoch: LOAD },
        Call::Open { epoch: 0 },
        Call::Close { ticket: PAGE },
        scan(Reader::Rw(LOAD)),
        scan(Reader::Ro(PAGE)),
        Call::MoveLse { target: 0 },
        Call::Purge { partition: 0 },
        save(LOAD - 1),
        recover(store, LOAD - 1),
    ]
}

/// An open load, an open page, and nothing else.
pub fn empty() -> Store {
    let mut store = Store::new(LOAD);
    run(&mut store, Call::Begin);
    run(&mut store, Call::Open { epoch: 0 });
    store
}

/// Eight lots of `count` entries of `rows` rows each, by the loads 1, 2 and 5 in turn; 31 open loads and 31 pages, so
/// that one more of each begins; LSE is 2. In lot 0 is room for an entry and eight rows.
pub fn laden(count: u64, rows: usize) -> Store {
    let mut store = Store::new(1);
    for _ in 0..LOAD {
        run(&mut store, Call::Begin);
    }
    for turn in 0..count {
        for partition in 0..8 {
            let epoch = [1, 2, LOAD][turn as usize % 3];
            run(&mut store, Call::Append { epoch, partition, rows: vec![turn; rows] });
        }
    }
    for partition in 1..8 {
        let left = 512 - store.manager.partitions.at[partition as usize].rows as usize;
        let epoch = [1, 2, LOAD][count as usize % 3];
        run(&mut store, Call::Append { epoch, partition, rows: vec![count; left] });
    }
    for epoch in 1..LOAD {
        run(&mut store, Call::Commit { epoch });
    }
    for _ in 0..31 {
        run(&mut store, Call::Open { epoch: 2 });
    }
    for _ in 0..30 {
        run(&mut store, Call::Begin);
    }
    // LSE is held while a load has an epoch at or below it in its deps: load 5 began before 1 to 4 were closed.
    store.manager.clock.lse = 2;
    for load in &mut store.manager.rw.at {
        let kept: Vec<u64> = load.deps[..load.deps_count as usize].iter().copied().filter(|&dep| dep > 4).collect();
        load.deps = [0; 31];
        load.deps[..kept.len()].copy_from_slice(&kept);
        load.deps_count = kept.len() as u64;
    }
    assert!(well_formed(&store));
    store
}

/// The laden store with its load of LOAD landed and lot 0 filled by it: at LCE, which is LOAD, eight lots of 512 rows are
/// shown.
pub fn landed(count: u64, rows: usize) -> Store {
    let mut store = laden(count, rows);
    let left = AREA_ROWS as u64 - store.manager.partitions.at[0].rows;
    run(&mut store, append(left));
    run(&mut store, Call::Commit { epoch: LOAD });
    assert_eq!(store.round_at(LOAD).length(), CONTENTS + PARTITIONS * AREA_ROWS * ROW);
    store
}

/// Copies bytes plainly.
#[inline(never)]
pub fn copy_plainly(from: &[u8], to: &mut [u8]) {
    black_box(to).copy_from_slice(black_box(from));
}

/// The store with one more load begun.
pub fn one_more(store: &Store) -> Store {
    let mut store = store.clone();
    run(&mut store, Call::Begin);
    store
}

/// `count` different numbers from `low` to `high`, rising.
fn rising(rng: &mut Rng, count: usize, low: u64, high: u64) -> Vec<u64> {
    let mut numbers = BTreeSet::new();
    while numbers.len() < count {
        numbers.insert(rng.within(low, high));
    }
    numbers.into_iter().collect()
}

fn choose<T: Copy>(rng: &mut Rng, heaviest: bool, list: &[T]) -> T {
    if heaviest {
        list[list.len() - 1]
    } else {
        rng.pick(list)
    }
}

/// A well-formed store that is full, or all but full, everywhere: 31 or 32 loads with 31 deps each, their epochs side
/// by side or apart, 31 or 32 pages, eight lots of 60 to 64 entries and up to 512 rows, in areas of any order. Of each
/// list below the last choice asks for the most work; `heaviest` takes it.
pub fn dense(rng: &mut Rng, heaviest: bool) -> Store {
    let mut store = Store::new(1);
    let manager = &mut store.manager;
    let (loads, pages) = (rng.pick(&[TXNS - 1, TXNS]), rng.pick(&[TXNS - 1, TXNS]));
    let lse = rng.within(40, 90);
    let lce = lse + rng.within(DEPS as u64, 120);
    let apart = choose(rng, heaviest, &[0, 1, 60]);
    let epochs = rising(rng, loads, lce + 1, lce + loads as u64 + apart);
    manager.clock.lse = lse;
    manager.clock.lce = lce;
    manager.clock.ec = epochs[loads - 1] + 1 + rng.below(2);
    let wait = choose(rng, heaviest, &[200, 0, 0]);
    for (i, &epoch) in epochs.iter().enumerate() {
        let load = &mut manager.rw.at[i];
        load.epoch = epoch;
        if i > 0 && rng.per_mille(wait) {
            load.waiting = WAITING;
        } else {
            let low = rng.pick(&[lse + 1, epoch - DEPS as u64]);
            load.deps.copy_from_slice(&rising(rng, DEPS, low, epoch - 1));
            load.deps_count = DEPS as u64;
        }
    }
    manager.rw.count = loads as u64;
    for (i, ticket) in rising(rng, pages, 1, 400).into_iter().enumerate() {
        manager.ro.at[i].ticket = ticket;
        manager.ro.at[i].epoch = rng.within(lse, lce);
    }
    (manager.ro.count, manager.ro.next) = (pages as u64, 401);
    let mut areas: Vec<u64> = (0..AREAS as u64).collect();
    for i in (1..AREAS).rev() {
        areas.swap(i, rng.below(i as u64 + 1) as usize);
    }
    manager.partitions.spare = areas[AREAS - 1];
    // Whose entries they are: of any load, of the last two or of the first two; of older epochs in every lot, in one of
    // them, or in none.
    let loaded = choose(rng, heaviest, &[&epochs[..], &epochs[..2], &epochs[loads - 2..]]);
    let (everywhere, one_lot) = (choose(rng, heaviest, &[500, 0, 0]), rng.below(2 * PARTITIONS as u64) as usize);
    let (committed, clearings) = (choose(rng, heaviest, &[300, 0]), choose(rng, heaviest, &[300, 30, 0]));
    for (p, &area) in areas[..PARTITIONS].iter().enumerate() {
        let old = if p == one_lot { 1000 } else { everywhere };
        let count = if heaviest && p > 0 { AREA_ENTRIES as u64 } else { rng.within(60, AREA_ENTRIES as u64) };
        let mut ends = rising(rng, count as usize - 1, 1, AREA_ROWS as u64 - 1);
        ends.push(AREA_ROWS as u64 - rng.pick(&[0, 0, 8]).min(AREA_ROWS as u64 - 1 - ends[ends.len() - 1]));
        let first = area as usize * AREA_ENTRIES;
        let mut before = Entry::default();
        for (i, &end) in ends.iter().enumerate() {
            let mark = if rng.per_mille(clearings) { CLEARING } else { ROWS };
            let mut epoch = before.epoch;
            while i > 0 && epoch == before.epoch || epoch == 0 {
                epoch = match rng.below(1000) {
                    ball if ball < old => rng.within(1, lse),
                    ball if ball < old + committed => rng.within(1, lce),
                    _ => rng.pick(loaded),
                };
            }
            before = Entry { epoch, end, mark };
            store.entries[first + i] = before;
        }
        store.manager.partitions.at[p] = Partition { area, rows: before.end, entries: count };
    }
    for (i, row) in store.rows.iter_mut().enumerate() {
        *row = i as u64;
    }
    store.settle_totals();
    assert!(well_formed(&store));
    store
}

/// A call of each kind for the store as it stands: of open loads and pages where there are any, on any lot. The last
/// recovery is of one round with full lots: of more rounds only the tables of contents would be read.
pub fn any_calls(store: &Store, rng: &mut Rng) -> Vec<Call> {
    let manager = &store.manager;
    let loads: Vec<u64> = manager.rw.open().map(|load| load.epoch).collect();
    let pages: Vec<u64> = manager.ro.used().iter().map(|page| page.ticket).collect();
    let (first, last) = (loads.first().copied().unwrap_or(1), loads.last().copied().unwrap_or(1));
    let of = |load: &u64| store.entries.iter().filter(|entry| entry.epoch == *load).count();
    let most = loads.iter().copied().max_by_key(of).unwrap_or(1);
    let old_in = |p: &u64| {
        let first = manager.partitions.at[*p as usize].area as usize % AREAS * AREA_ENTRIES;
        let entries = store.entries.iter().skip(first).take(AREA_ENTRIES);
        entries.filter(|entry| entry.epoch <= manager.clock.lse).count()
    };
    let oldest = (0..PARTITIONS as u64).max_by_key(old_in).unwrap_or(0);
    let mut load = || if loads.is_empty() { 1 } else { rng.pick(&loads) };
    let (a, b, c, d, e) = (load(), load(), load(), load(), load());
    let page = if pages.is_empty() { 1 } else { rng.pick(&pages) };
    let mut lot = || rng.below(PARTITIONS as u64);
    let (p, q, r, s, t) = (lot(), lot(), lot(), lot(), lot());
    let room = (AREA_ROWS as u64).saturating_sub(manager.partitions.at[p as usize].rows);
    let lent = AREA_ROWS / 8;
    let rounds = random_rounds(rng, AREA_ROWS as u64);
    let full = Round { epoch: LOAD, lots: std::array::from_fn(|_| (0..AREA_ROWS as u64).collect()) };
    vec![
        Call::New { start: manager.clock.ec },
        Call::Begin,
        Call::Append { epoch: a, partition: p, rows: (0..room).collect() },
        Call::Clear { epoch: b, partition: q },
        Call::Commit { epoch: c },
        Call::Commit { epoch: first },
        Call::Rollback { epoch: d },
        Call::Rollback { epoch: most },
        Call::Open { epoch: 0 },
        Call::Close { ticket: page },
        Call::Close { ticket: pages.first().copied().unwrap_or(1) },
        Call::Scan { reader: Reader::Rw(e), partition: r, lent },
        Call::Scan { reader: Reader::Rw(last), partition: r, lent },
        Call::Scan { reader: Reader::Ro(page), partition: s, lent },
        Call::MoveLse { target: 0 },
        Call::MoveLse { target: manager.clock.lce },
        Call::Purge { partition: t },
        Call::Purge { partition: oldest },
        save(manager.clock.lse),
        save(manager.clock.lce),
        Call::Recover { file: bytes_of(&rounds) },
        Call::Recover { file: full.bytes() },
    ]
}
