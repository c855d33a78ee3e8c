//! What a well-formed store is, clause by clause (01, "Refusals that come from the state": *Sound*; 02, (iii)).

use crate::partition::{Entry, CLEARING, ROWS};
use crate::store::Store;
use crate::txn::{OPEN, WAITING};
use crate::{AREAS, AREA_ENTRIES, AREA_ROWS, DEPS, EPOCH_END, PARTITIONS, TICKET_END, TXNS};

/// The lent areas have 4,608 rows and 576 entries.
pub fn lengths_right(store: &Store) -> bool {
    store.rows.len() == AREAS * AREA_ROWS && store.entries.len() == AREAS * AREA_ENTRIES
}

/// *Sound*, and the lent lengths right.
pub fn well_formed(store: &Store) -> bool {
    CLAUSES.iter().all(|(_, holds)| holds(store))
}

/// The names of the clauses that do not hold.
pub fn broken_clauses(store: &Store) -> Vec<&'static str> {
    CLAUSES.iter().filter(|(_, holds)| !holds(store)).map(|(name, _)| *name).collect()
}

pub type Clause = (&'static str, fn(&Store) -> bool);

/// Each clause stands by itself: it never fails only because another one does, and never panics.
pub const CLAUSES: [Clause; 22] = [
    ("lengths", lengths_right),
    ("clock", clock),
    ("rw count", rw_count),
    ("rw epochs", rw_epochs),
    ("rw flags", rw_flags),
    ("waiting", waiting),
    ("deps count", deps_count),
    ("deps", deps),
    ("ro count", ro_count),
    ("next ticket", next_ticket),
    ("tickets", tickets),
    ("ro epochs", ro_epochs),
    ("unused rw", unused_rw),
    ("unused deps", unused_deps),
    ("unused ro", unused_ro),
    ("areas", areas),
    ("partition counts", partition_counts),
    ("ends", ends),
    ("last end", last_end),
    ("entries", entry_epochs_and_marks),
    ("neighbours", neighbours),
    ("totals", totals),
];

// 1 <= EC <= 2,147,483,648 and EC > LCE >= LSE.
fn clock(store: &Store) -> bool {
    let clock = &store.manager.clock;
    1 <= clock.ec && clock.ec <= EPOCH_END && clock.ec > clock.lce && clock.lce >= clock.lse
}

// At most 32 load records.
fn rw_count(store: &Store) -> bool {
    store.manager.rw.count <= TXNS as u64
}

// Load epochs rising, above LCE and below EC.
fn rw_epochs(store: &Store) -> bool {
    let clock = &store.manager.clock;
    let txns = store.manager.rw.used();
    txns.windows(2).all(|pair| pair[0].epoch < pair[1].epoch)
        && txns.iter().all(|txn| clock.lce < txn.epoch && txn.epoch < clock.ec)
}

// A load is open or waiting.
fn rw_flags(store: &Store) -> bool {
    store.manager.rw.used().iter().all(|txn| txn.waiting == OPEN || txn.waiting == WAITING)
}

// Each waiting load has an open one below it and no deps.
fn waiting(store: &Store) -> bool {
    let txns = store.manager.rw.used();
    txns.iter().filter(|txn| txn.waiting == WAITING).all(|txn| {
        txn.deps_count == 0 && txns.iter().any(|other| other.waiting == OPEN && other.epoch < txn.epoch)
    })
}

// At most 31 deps.
fn deps_count(store: &Store) -> bool {
    store.manager.rw.used().iter().all(|txn| txn.deps_count <= DEPS as u64)
}

// Deps rising, below their load's epoch and above LSE.
fn deps(store: &Store) -> bool {
    let lse = store.manager.clock.lse;
    store.manager.rw.used().iter().all(|txn| {
        txn.deps().windows(2).all(|pair| pair[0] < pair[1])
            && txn.deps().iter().all(|&dep| lse < dep && dep < txn.epoch)
    })
}

// At most 32 pages.
fn ro_count(store: &Store) -> bool {
    store.manager.ro.count <= TXNS as u64
}

// The next ticket is from 1 to 4,294,967,296.
fn next_ticket(store: &Store) -> bool {
    1 <= store.manager.ro.next && store.manager.ro.next <= TICKET_END
}

// Tickets from 1, rising and below the next.
fn tickets(store: &Store) -> bool {
    let txns = store.manager.ro.used();
    txns.windows(2).all(|pair| pair[0].ticket < pair[1].ticket)
        && txns.iter().all(|txn| 1 <= txn.ticket && txn.ticket < store.manager.ro.next)
}

// Page epochs in LSE to LCE.
fn ro_epochs(store: &Store) -> bool {
    let clock = &store.manager.clock;
    store.manager.ro.used().iter().all(|txn| clock.lse <= txn.epoch && txn.epoch <= clock.lce)
}

// Unused places of loads are 0.
fn unused_rw(store: &Store) -> bool {
    let rw = &store.manager.rw;
    rw.at[rw.used().len()..].iter().all(|txn| {
        txn.epoch == 0 && txn.waiting == 0 && txn.deps_count == 0 && txn.deps.iter().all(|&dep| dep == 0)
    })
}

// Unused places of deps are 0.
fn unused_deps(store: &Store) -> bool {
    store.manager.rw.used().iter().all(|txn| txn.deps[txn.deps().len()..].iter().all(|&dep| dep == 0))
}

// Unused places of pages are 0.
fn unused_ro(store: &Store) -> bool {
    let ro = &store.manager.ro;
    ro.at[ro.used().len()..].iter().all(|txn| txn.ticket == 0 && txn.epoch == 0)
}

// The nine areas are shared out once.
fn areas(store: &Store) -> bool {
    let partitions = &store.manager.partitions;
    let mut users = [0; AREAS];
    for area in partitions.at.iter().map(|partition| partition.area).chain([partitions.spare]) {
        match users.get_mut(area.min(AREAS as u64) as usize) {
            Some(users) => *users += 1,
            None => return false,
        }
    }
    users.iter().all(|&users| users == 1)
}

// At most 512 rows and 64 entries in each lot.
fn partition_counts(store: &Store) -> bool {
    store
        .manager
        .partitions
        .at
        .iter()
        .all(|partition| partition.rows <= AREA_ROWS as u64 && partition.entries <= AREA_ENTRIES as u64)
}

// Ends never fall, and at each rows entry lie above the end before it (0 at first).
fn ends(store: &Store) -> bool {
    (0..PARTITIONS).all(|p| {
        let mut before = 0;
        used_entries(store, p).iter().all(|entry| {
            let rises = if entry.mark == ROWS { entry.end > before } else { entry.end >= before };
            before = entry.end;
            rises
        })
    })
}

// The last end, 0 with no entry, is the row count.
fn last_end(store: &Store) -> bool {
    (0..PARTITIONS).all(|p| {
        let partition = &store.manager.partitions.at[p];
        if partition.entries > AREA_ENTRIES as u64 || partition.area >= AREAS as u64 || !lengths_right(store)
        {
            return true;
        }
        used_entries(store, p).last().map_or(0, |entry| entry.end) == partition.rows
    })
}

// Entry epochs from 1 to EC - 1, one above LCE having a load record; marks are rows or clearing.
fn entry_epochs_and_marks(store: &Store) -> bool {
    let clock = &store.manager.clock;
    let txns = store.manager.rw.used();
    (0..PARTITIONS).all(|p| {
        used_entries(store, p).iter().all(|entry| {
            (1 <= entry.epoch && entry.epoch < clock.ec)
                && (entry.epoch <= clock.lce || txns.iter().any(|txn| txn.epoch == entry.epoch))
                && (entry.mark == ROWS || entry.mark == CLEARING)
        })
    })
}

// No neighbouring rows entries of one epoch.
fn neighbours(store: &Store) -> bool {
    (0..PARTITIONS).all(|p| {
        used_entries(store, p)
            .windows(2)
            .all(|pair| !(pair[0].mark == ROWS && pair[1].mark == ROWS && pair[0].epoch == pair[1].epoch))
    })
}

// Each total is the sum of the low 32 bits of the rows that a page at LCE would show.
fn totals(store: &Store) -> bool {
    (0..PARTITIONS).all(|p| worked_out(store, p).is_none_or(|sum| sum == store.manager.totals[p]))
}

/// The total of a lot worked out afresh; none where its entries do not share out rows that are there.
fn worked_out(store: &Store, p: usize) -> Option<u64> {
    let lce = store.manager.clock.lce;
    let entries = used_entries(store, p);
    let area =
        store.rows.chunks(AREA_ROWS).nth(store.manager.partitions.at[p].area.min(AREAS as u64) as usize)?;
    let clearings = entries.iter().filter(|entry| entry.mark == CLEARING && entry.epoch <= lce);
    // A page at LCE is shown nothing older than the newest clearing, and of its load what stands after it.
    let oldest = clearings.map(|clearing| clearing.epoch).max().unwrap_or(0);
    let mut sum = 0;
    let mut start = 0;
    for (at, entry) in entries.iter().enumerate() {
        let rows = area.get(start..entry.end as usize)?;
        let cleared = entries[at..].iter().any(|e| e.mark == CLEARING && e.epoch == entry.epoch);
        if (oldest..=lce).contains(&entry.epoch) && !cleared {
            sum += rows.iter().map(|&row| u64::from(row as u32)).sum::<u64>();
        }
        start = entry.end as usize;
    }
    Some(sum)
}

/// The used entries of a lot; none where its area or count, or the lent length, is out of range.
fn used_entries(store: &Store, p: usize) -> &[Entry] {
    let partition = &store.manager.partitions.at[p];
    if partition.entries > AREA_ENTRIES as u64 || partition.area >= AREAS as u64 {
        return &[];
    }
    let from = partition.area as usize * AREA_ENTRIES;
    store.entries.get(from..from + partition.entries as usize).unwrap_or(&[])
}
