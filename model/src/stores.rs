//! Random well-formed stores that no history made, and stores spoilt in one field (01, *Sound*; 02, (iii)).

use crate::histories::fill_areas;
use crate::partition::{entries_of, Entry, CLEARING, ROWS};
use crate::random::Rng;
use crate::store::Store;
use crate::txn::{OPEN, WAITING};
use crate::visible::{shown, View};
use crate::{AREAS, AREA_ENTRIES, AREA_ROWS, DEPS, EPOCH_END, PARTITIONS, TICKET_END, TXNS};
use std::collections::BTreeSet;

/// A well-formed store of any shape that *sound* allows: gaps below clearings, deps that name closed epochs,
/// any words and marks beyond the counts, areas in any order.
pub fn random_store(rng: &mut Rng) -> Store {
    let mut store = Store::new(1);
    fill_areas(&mut store, rng);
    random_clock(&mut store, rng);
    random_rw(&mut store, rng);
    random_ro(&mut store, rng);
    random_areas(&mut store, rng);
    for p in 0..PARTITIONS {
        random_partition(&mut store, p, rng);
    }
    store.settle_totals();
    store
}

/// `count` different numbers from `low` to `high`, rising; fewer where there are not so many.
fn rising(rng: &mut Rng, count: u64, low: u64, high: u64) -> Vec<u64> {
    if low > high {
        return Vec::new();
    }
    let count = count.min(high - low + 1);
    let mut numbers = BTreeSet::new();
    while (numbers.len() as u64) < count {
        // In a narrow range the pick is among those still free, so that this ends soon.
        if high - low < 4 * count {
            let free: Vec<u64> = (low..=high).filter(|number| !numbers.contains(number)).collect();
            numbers.insert(rng.pick(&free));
        } else {
            numbers.insert(rng.within(low, high));
        }
    }
    numbers.into_iter().collect()
}

/// A count up to `most`, often 0 or all.
fn some(rng: &mut Rng, most: u64) -> u64 {
    match rng.below(5) {
        0 => 0,
        1 => most,
        2 => rng.below(4).min(most),
        _ => rng.within(0, most),
    }
}

fn random_clock(store: &mut Store, rng: &mut Rng) {
    let clock = &mut store.manager.clock;
    clock.ec = match rng.below(8) {
        0 => 1,
        1 | 2 => rng.within(1, 12),
        3 | 4 => rng.within(20, 300),
        5 => rng.within(1, EPOCH_END),
        6 => EPOCH_END,
        _ => EPOCH_END - rng.below(100),
    };
    let back = match rng.below(4) {
        0 => 1,
        1 => rng.within(1, clock.ec.min(33)),
        2 => rng.within(1, clock.ec.min(80)),
        _ => rng.within(1, clock.ec),
    };
    clock.lce = clock.ec - back;
    clock.lse = match rng.below(4) {
        0 => clock.lce,
        1 => clock.lce - rng.within(0, clock.lce.min(6)),
        2 => clock.lce - rng.within(0, clock.lce.min(60)),
        _ => rng.within(0, clock.lce),
    };
}

fn random_rw(store: &mut Store, rng: &mut Rng) {
    let clock = store.manager.clock;
    let most = if rng.per_mille(100) { TXNS as u64 - 1 } else { some(rng, TXNS as u64) };
    let epochs = rising(rng, most, clock.lce + 1, clock.ec - 1);
    let wait = rng.pick(&[0, 200, 200, 700]);
    let rw = &mut store.manager.rw;
    for (i, &epoch) in epochs.iter().enumerate() {
        let txn = &mut rw.at[i];
        txn.epoch = epoch;
        txn.waiting = if i > 0 && rng.per_mille(wait) { WAITING } else { OPEN };
        if txn.waiting == OPEN {
            let wanted = some(rng, DEPS as u64);
            // Near the load, near LSE, or anywhere between.
            let low = if rng.per_mille(500) {
                (clock.lse + 1).max(epoch.saturating_sub(60))
            } else {
                clock.lse + 1
            };
            let deps = rising(rng, wanted, low, epoch - 1);
            txn.deps[..deps.len()].copy_from_slice(&deps);
            txn.deps_count = deps.len() as u64;
        }
    }
    rw.count = epochs.len() as u64;
}

fn random_ro(store: &mut Store, rng: &mut Rng) {
    let clock = store.manager.clock;
    let ro = &mut store.manager.ro;
    ro.next = match rng.below(6) {
        0 => rng.within(1, 5),
        1 | 2 => rng.within(1, 100),
        3 => TICKET_END,
        4 => TICKET_END - rng.below(5),
        _ => rng.within(1, TICKET_END),
    };
    let most = some(rng, TXNS as u64);
    let tickets = rising(rng, most, 1, ro.next - 1);
    for (i, &ticket) in tickets.iter().enumerate() {
        ro.at[i].ticket = ticket;
        ro.at[i].epoch = match rng.below(3) {
            0 => clock.lce,
            _ => rng.within(clock.lse, clock.lce),
        };
    }
    ro.count = tickets.len() as u64;
}

fn random_areas(store: &mut Store, rng: &mut Rng) {
    let mut order: Vec<u64> = (0..AREAS as u64).collect();
    for i in (1..AREAS).rev() {
        order.swap(i, rng.below(i as u64 + 1) as usize);
    }
    let partitions = &mut store.manager.partitions;
    for (partition, &area) in partitions.at.iter_mut().zip(&order) {
        partition.area = area;
    }
    partitions.spare = order[AREAS - 1];
}

fn random_partition(store: &mut Store, p: usize, rng: &mut Rng) {
    let clock = store.manager.clock;
    // A few epochs that may stand here: around LSE, up to LCE, and those of records.
    let mut epochs: Vec<u64> = store.manager.rw.used().iter().map(|txn| txn.epoch).collect();
    if clock.lce >= 1 {
        for _ in 0..6 {
            epochs.push(rng.within(1, clock.lce));
            epochs.push(rng.within(clock.lse.max(1), clock.lce));
            epochs.push(clock.lce - rng.below(8).min(clock.lce - 1));
        }
        epochs.extend((clock.lse.saturating_sub(2)..=clock.lse + 2).filter(|&e| 1 <= e && e <= clock.lce));
    }
    // Deps are of interest too, as far as they may stand.
    let deps: Vec<u64> = store.manager.rw.used().iter().flat_map(|txn| txn.deps().to_vec()).collect();
    let may_stand =
        |epoch: &u64| *epoch <= clock.lce || store.manager.rw.used().iter().any(|t| t.epoch == *epoch);
    epochs.extend(deps.iter().filter(|epoch| may_stand(epoch)).take(12));

    let wanted = if epochs.is_empty() { 0 } else { some(rng, AREA_ENTRIES as u64) };
    let step = rng.within(1, 16);
    let clearings = rng.pick(&[50, 200, 500]);
    let partition = &mut store.manager.partitions.at[p];
    let first = partition.area as usize * AREA_ENTRIES;
    let mut before: Option<Entry> = None;
    let mut end = 0;
    let mut count = 0;
    for _ in 0..wanted {
        let epoch = rng.pick(&epochs);
        let room = AREA_ROWS as u64 - end;
        let after_own_rows = before.is_some_and(|entry| entry.mark == ROWS && entry.epoch == epoch);
        let clearing = rng.per_mille(clearings) || after_own_rows || room == 0;
        let entry = if clearing {
            // A gap now and then: rows of the clearing's epoch that stand before it.
            end += if rng.per_mille(300) { rng.within(0, room.min(step)) } else { 0 };
            Entry { epoch, end, mark: CLEARING }
        } else {
            end += if rng.per_mille(20) { room } else { rng.within(1, room.min(step)) };
            Entry { epoch, end, mark: ROWS }
        };
        store.entries[first + count] = entry;
        before = Some(entry);
        count += 1;
    }
    partition.entries = count as u64;
    partition.rows = end;
}

/// The ways to spoil a store: the clause that must then be broken, and what is done. Each changes one field
/// (or one length, or swaps two totals) and answers whether the store had the place that it needs.
pub type Spoil = (&'static str, &'static str, fn(&mut Store, &mut Rng) -> bool);

pub const SPOILS: [Spoil; 53] = [
    ("lengths", "one row word less", |s, _| s.rows.pop().is_some()),
    ("lengths", "one row word more", |s, rng| {
        s.rows.push(rng.word());
        true
    }),
    ("lengths", "one entry less", |s, _| s.entries.pop().is_some()),
    ("lengths", "one entry more", |s, _| {
        s.entries.push(Entry::default());
        true
    }),
    ("lengths", "no rows", |s, _| {
        s.rows.clear();
        true
    }),
    ("lengths", "no entries", |s, _| {
        s.entries.clear();
        true
    }),
    ("clock", "EC 0", |s, _| put(&mut s.manager.clock.ec, 0)),
    ("clock", "EC past its end", |s, rng| {
        let high = rng.within(EPOCH_END + 1, u64::MAX);
        let ec = rng.pick(&[EPOCH_END + 1, u64::MAX, high]);
        put(&mut s.manager.clock.ec, ec)
    }),
    ("clock", "EC not above LCE", |s, rng| {
        let lce = s.manager.clock.lce;
        let ec = rng.within(0, lce);
        put(&mut s.manager.clock.ec, ec)
    }),
    ("clock", "LCE not below EC", |s, rng| {
        let low = s.manager.clock.ec;
        let lce = rng.pick(&[low, low + 1, u64::MAX]);
        put(&mut s.manager.clock.lce, lce)
    }),
    ("clock", "LCE below LSE", |s, rng| {
        let lse = s.manager.clock.lse;
        lse > 0 && put(&mut s.manager.clock.lce, rng.below(lse))
    }),
    ("clock", "LSE above LCE", |s, rng| {
        let low = s.manager.clock.lce + 1;
        let lse = rng.pick(&[low, low + 1, u64::MAX]);
        put(&mut s.manager.clock.lse, lse)
    }),
    ("rw count", "too many loads", |s, rng| {
        let count = rng.pick(&[33, 34, 1 << 32, u64::MAX]);
        put(&mut s.manager.rw.count, count)
    }),
    ("rw epochs", "one load more than there is", |s, _| {
        let count = s.manager.rw.count;
        count < TXNS as u64 && put(&mut s.manager.rw.count, count + 1)
    }),
    ("unused rw", "one load fewer than there is", |s, _| {
        let count = s.manager.rw.count;
        count > 0 && put(&mut s.manager.rw.count, count - 1)
    }),
    ("rw epochs", "a load at or below LCE", |s, rng| {
        let lce = s.manager.clock.lce;
        some_rw(s, rng).is_some_and(|i| put(&mut s.manager.rw.at[i].epoch, rng.within(0, lce)))
    }),
    ("rw epochs", "a load at or above EC", |s, rng| {
        let ec = s.manager.clock.ec;
        let epoch = rng.pick(&[ec, ec + 1, u64::MAX]);
        some_rw(s, rng).is_some_and(|i| put(&mut s.manager.rw.at[i].epoch, epoch))
    }),
    ("rw epochs", "a load not above the one before", |s, rng| {
        some_rw(s, rng).is_some_and(|i| {
            i > 0 && {
                let before = s.manager.rw.at[i - 1].epoch;
                let epoch = rng.pick(&[before, before - 1]);
                put(&mut s.manager.rw.at[i].epoch, epoch)
            }
        })
    }),
    ("rw flags", "a flag that is neither open nor waiting", |s, rng| {
        let flag = rng.pick(&[2, 3, 256, 1 << 32, u64::MAX]);
        some_rw(s, rng).is_some_and(|i| put(&mut s.manager.rw.at[i].waiting, flag))
    }),
    ("waiting", "the first load waits", |s, _| {
        s.manager.rw.count > 0 && put(&mut s.manager.rw.at[0].waiting, WAITING)
    }),
    ("waiting", "a load with deps waits", |s, rng| {
        some_rw(s, rng).is_some_and(|i| {
            s.manager.rw.at[i].deps_count > 0 && put(&mut s.manager.rw.at[i].waiting, WAITING)
        })
    }),
    ("waiting", "a waiting load has a dep", |s, rng| {
        some_rw(s, rng).is_some_and(|i| {
            s.manager.rw.at[i].waiting == WAITING && put(&mut s.manager.rw.at[i].deps_count, 1)
        })
    }),
    ("deps count", "too many deps", |s, rng| {
        let count = rng.pick(&[32, 33, 1 << 32, u64::MAX]);
        some_rw(s, rng).is_some_and(|i| put(&mut s.manager.rw.at[i].deps_count, count))
    }),
    ("unused deps", "one dep fewer than there is", |s, rng| {
        some_rw(s, rng).is_some_and(|i| {
            let count = s.manager.rw.at[i].deps_count;
            count > 0 && put(&mut s.manager.rw.at[i].deps_count, count - 1)
        })
    }),
    ("deps", "one dep more than there is", |s, rng| {
        some_rw(s, rng).is_some_and(|i| {
            let count = s.manager.rw.at[i].deps_count;
            count < DEPS as u64 && put(&mut s.manager.rw.at[i].deps_count, count + 1)
        })
    }),
    ("deps", "a dep at or below LSE", |s, rng| {
        let lse = s.manager.clock.lse;
        some_dep(s, rng).is_some_and(|(i, d)| put(&mut s.manager.rw.at[i].deps[d], rng.within(0, lse)))
    }),
    ("deps", "a dep not below its load", |s, rng| {
        some_dep(s, rng).is_some_and(|(i, d)| {
            let epoch = s.manager.rw.at[i].epoch;
            let dep = rng.pick(&[epoch, epoch + 1, u64::MAX]);
            put(&mut s.manager.rw.at[i].deps[d], dep)
        })
    }),
    ("deps", "a dep not above the one before", |s, rng| {
        some_dep(s, rng).is_some_and(|(i, d)| {
            d > 0 && {
                let before = s.manager.rw.at[i].deps[d - 1];
                put(&mut s.manager.rw.at[i].deps[d], before)
            }
        })
    }),
    ("ro count", "too many pages", |s, rng| {
        let count = rng.pick(&[33, 34, 1 << 32, u64::MAX]);
        put(&mut s.manager.ro.count, count)
    }),
    ("tickets", "one page more than there is", |s, _| {
        let count = s.manager.ro.count;
        count < TXNS as u64 && put(&mut s.manager.ro.count, count + 1)
    }),
    ("unused ro", "one page fewer than there is", |s, _| {
        let count = s.manager.ro.count;
        count > 0 && put(&mut s.manager.ro.count, count - 1)
    }),
    ("next ticket", "next ticket 0", |s, _| put(&mut s.manager.ro.next, 0)),
    ("next ticket", "next ticket past its end", |s, rng| {
        let next = rng.pick(&[TICKET_END + 1, 1 << 33, u64::MAX]);
        put(&mut s.manager.ro.next, next)
    }),
    ("tickets", "next ticket not above the last", |s, _| {
        let count = s.manager.ro.count as usize;
        count > 0 && {
            let last = s.manager.ro.at[count - 1].ticket;
            put(&mut s.manager.ro.next, last)
        }
    }),
    ("tickets", "a ticket out of order or range", |s, rng| {
        some_ro(s, rng).is_some_and(|i| {
            let before = if i > 0 { s.manager.ro.at[i - 1].ticket } else { 0 };
            let ticket = rng.pick(&[0, before, s.manager.ro.next, u64::MAX]);
            put(&mut s.manager.ro.at[i].ticket, ticket)
        })
    }),
    ("ro epochs", "a page above LCE", |s, rng| {
        let low = s.manager.clock.lce + 1;
        let epoch = rng.pick(&[low, low + 1, u64::MAX]);
        some_ro(s, rng).is_some_and(|i| put(&mut s.manager.ro.at[i].epoch, epoch))
    }),
    ("ro epochs", "a page below LSE", |s, rng| {
        let lse = s.manager.clock.lse;
        lse > 0 && some_ro(s, rng).is_some_and(|i| put(&mut s.manager.ro.at[i].epoch, rng.below(lse)))
    }),
    ("unused rw", "a word in an unused load", |s, rng| {
        let used = s.manager.rw.count;
        used < TXNS as u64 && {
            let word = rng.word().max(1);
            let txn = &mut s.manager.rw.at[rng.within(used, TXNS as u64 - 1) as usize];
            match rng.below(4) {
                0 => put(&mut txn.epoch, word),
                1 => put(&mut txn.waiting, word),
                2 => put(&mut txn.deps_count, word),
                _ => put(&mut txn.deps[rng.below(DEPS as u64) as usize], word),
            }
        }
    }),
    ("unused deps", "a word in an unused dep", |s, rng| {
        some_rw(s, rng).is_some_and(|i| {
            let used = s.manager.rw.at[i].deps_count;
            used < DEPS as u64 && {
                let at = rng.within(used, DEPS as u64 - 1) as usize;
                put(&mut s.manager.rw.at[i].deps[at], rng.word().max(1))
            }
        })
    }),
    ("unused ro", "a word in an unused page", |s, rng| {
        let used = s.manager.ro.count;
        used < TXNS as u64 && {
            let word = rng.word().max(1);
            let txn = &mut s.manager.ro.at[rng.within(used, TXNS as u64 - 1) as usize];
            if rng.per_mille(500) {
                put(&mut txn.ticket, word)
            } else {
                put(&mut txn.epoch, word)
            }
        }
    }),
    ("areas", "an area used twice or not there", |s, rng| {
        let p = rng.below(8) as usize;
        let other = s.manager.partitions.at[(p + 1) % 8].area;
        let area = rng.pick(&[other, s.manager.partitions.spare, 9, 1 << 32, u64::MAX]);
        put(&mut s.manager.partitions.at[p].area, area)
    }),
    ("areas", "a spare used or not there", |s, rng| {
        let p = rng.below(8) as usize;
        let spare = rng.pick(&[s.manager.partitions.at[p].area, 9, 1 << 32, u64::MAX]);
        put(&mut s.manager.partitions.spare, spare)
    }),
    ("partition counts", "too many rows or entries", |s, rng| {
        let part = &mut s.manager.partitions.at[rng.below(8) as usize];
        if rng.per_mille(500) {
            put(&mut part.rows, rng.pick(&[513, 1 << 32, u64::MAX]))
        } else {
            put(&mut part.entries, rng.pick(&[65, 1 << 32, u64::MAX]))
        }
    }),
    ("last end", "a row count that is not the last end", |s, rng| {
        let part = &mut s.manager.partitions.at[rng.below(8) as usize];
        let rows = if part.rows > 0 && rng.per_mille(500) { part.rows - 1 } else { part.rows + 1 };
        put(&mut part.rows, rows)
    }),
    ("ends", "an end that falls", |s, rng| {
        some_entry(s, rng).is_some_and(|(first, i)| {
            i > 0 && s.entries[first + i - 1].end > 0 && {
                let before = s.entries[first + i - 1].end;
                put(&mut s.entries[first + i].end, rng.below(before))
            }
        })
    }),
    ("ends", "a rows entry without rows", |s, rng| {
        some_entry(s, rng).is_some_and(|(first, i)| {
            let before = if i > 0 { s.entries[first + i - 1].end } else { 0 };
            s.entries[first + i].mark == ROWS && put(&mut s.entries[first + i].end, before)
        })
    }),
    ("entries", "an entry epoch that may not stand", |s, rng| {
        let ec = s.manager.clock.ec;
        let lost: Vec<u64> = (s.manager.clock.lce + 1..ec)
            .take(100)
            .filter(|epoch| s.manager.rw.used().iter().all(|txn| txn.epoch != *epoch))
            .collect();
        let without_record = if lost.is_empty() { 0 } else { rng.pick(&lost) };
        let epoch = rng.pick(&[0, ec, ec + 1, u64::MAX, without_record, without_record]);
        some_entry(s, rng).is_some_and(|(first, i)| put(&mut s.entries[first + i].epoch, epoch))
    }),
    ("entries", "a mark that is none", |s, rng| {
        let mark = rng.pick(&[2, 3, 256, 1 << 32, u64::MAX]);
        some_entry(s, rng).is_some_and(|(first, i)| put(&mut s.entries[first + i].mark, mark))
    }),
    ("neighbours", "neighbouring rows entries of one epoch", |s, rng| {
        some_entry(s, rng).is_some_and(|(first, i)| {
            i > 0 && s.entries[first + i].mark == ROWS && s.entries[first + i - 1].mark == ROWS && {
                let before = s.entries[first + i - 1].epoch;
                put(&mut s.entries[first + i].epoch, before)
            }
        })
    }),
    ("totals", "a total that is off", |s, rng| {
        let total = &mut s.manager.totals[rng.below(PARTITIONS as u64) as usize];
        let off = rng.pick(&[1, u64::MAX, 1 << 31, 1 << 32, 1 << 63]);
        put(total, total.wrapping_add(off))
    }),
    ("totals", "a total of 0 or the greatest word", |s, rng| {
        let total = &mut s.manager.totals[rng.below(PARTITIONS as u64) as usize];
        put(total, rng.pick(&[0, u64::MAX]))
    }),
    ("totals", "two totals swapped", |s, rng| {
        let [one, other] = [(); 2].map(|()| rng.below(PARTITIONS as u64) as usize);
        s.manager.totals.swap(one, other);
        s.manager.totals[one] != s.manager.totals[other]
    }),
    ("totals", LOW_BITS, |s, rng| {
        some_row(s, rng, RowKind::Shown).is_some_and(|at| flip(&mut s.rows[at], rng.below(32)))
    }),
];

/// The way to spoil a store by a row: in its low bits, where a page at LCE would show it.
pub const LOW_BITS: &str = "the low bits of a shown row";

/// Ways to change rows that leave a store well-formed, as no total changes by them.
pub type Change = (&'static str, fn(&mut Store, &mut Rng) -> bool);

pub const CHANGES: [Change; 5] = [
    ("the high bits of a shown row", |s, rng| {
        some_row(s, rng, RowKind::Shown).is_some_and(|at| flip(&mut s.rows[at], rng.within(32, 63)))
    }),
    ("a row of an open or waiting load", |s, rng| {
        some_row(s, rng, RowKind::AboveLce).is_some_and(|at| put(&mut s.rows[at], rng.row()))
    }),
    ("a row that a clearing hides", |s, rng| {
        some_row(s, rng, RowKind::Hidden).is_some_and(|at| put(&mut s.rows[at], rng.row()))
    }),
    ("a word beyond the counts", |s, rng| {
        let part = &s.manager.partitions.at[rng.below(PARTITIONS as u64) as usize];
        part.rows < AREA_ROWS as u64 && {
            let at = part.area * AREA_ROWS as u64 + rng.within(part.rows, AREA_ROWS as u64 - 1);
            put(&mut s.rows[at as usize], rng.row())
        }
    }),
    ("two shown rows of one lot swapped", |s, rng| {
        let places = row_places(s, rng.below(PARTITIONS as u64) as usize, RowKind::Shown);
        !places.is_empty() && {
            let [one, other] = [(); 2].map(|()| rng.pick(&places));
            s.rows.swap(one, other);
            s.rows[one] != s.rows[other]
        }
    }),
];

/// What a page at LCE makes of a row.
#[derive(Clone, Copy, Debug, PartialEq, Eq)]
pub enum RowKind {
    Shown,
    Hidden,
    AboveLce,
}

/// The places, in the lent rows, of a lot's rows of that kind.
pub fn row_places(store: &Store, p: usize, kind: RowKind) -> Vec<usize> {
    let part = &store.manager.partitions.at[p];
    let entries = entries_of(part, &store.entries);
    let lce = store.manager.clock.lce;
    let mut places = Vec::new();
    let mut start = 0;
    for (at, entry) in entries.iter().enumerate() {
        let found = match entry.epoch {
            epoch if epoch > lce => RowKind::AboveLce,
            _ if shown(&View::Ro(lce), entries, at) => RowKind::Shown,
            _ => RowKind::Hidden,
        };
        if found == kind {
            places.extend((start..entry.end).map(|row| part.area as usize * AREA_ROWS + row as usize));
        }
        start = entry.end;
    }
    places
}

fn some_row(store: &Store, rng: &mut Rng, kind: RowKind) -> Option<usize> {
    let places: Vec<usize> = (0..PARTITIONS).flat_map(|p| row_places(store, p, kind)).collect();
    (!places.is_empty()).then(|| rng.pick(&places))
}

fn put(field: &mut u64, word: u64) -> bool {
    let changed = *field != word;
    *field = word;
    changed
}

fn flip(row: &mut u64, bit: u64) -> bool {
    put(row, *row ^ 1 << bit)
}

fn some_rw(store: &Store, rng: &mut Rng) -> Option<usize> {
    let count = store.manager.rw.count;
    (count > 0).then(|| rng.below(count) as usize)
}

fn some_dep(store: &Store, rng: &mut Rng) -> Option<(usize, usize)> {
    let i = some_rw(store, rng)?;
    let count = store.manager.rw.at[i].deps_count;
    (count > 0).then(|| (i, rng.below(count) as usize))
}

fn some_ro(store: &Store, rng: &mut Rng) -> Option<usize> {
    let count = store.manager.ro.count;
    (count > 0).then(|| rng.below(count) as usize)
}

/// The first entry of a lot's area and a used entry in it.
fn some_entry(store: &Store, rng: &mut Rng) -> Option<(usize, usize)> {
    let part = &store.manager.partitions.at[rng.below(PARTITIONS as u64) as usize];
    (part.entries > 0).then(|| (part.area as usize * AREA_ENTRIES, rng.below(part.entries) as usize))
}

/// A well-formed store with one field spoilt, and the place in `SPOILS` of what was done.
pub fn spoilt_store(rng: &mut Rng) -> (Store, usize) {
    loop {
        let at = rng.below(SPOILS.len() as u64) as usize;
        if let Some(store) = spoilt_by(at, rng) {
            return (store, at);
        }
    }
}

/// A well-formed store spoilt in the given way, if the store that came up had the place for it.
pub fn spoilt_by(at: usize, rng: &mut Rng) -> Option<Store> {
    let mut store = random_store(rng);
    (SPOILS[at].2)(&mut store, rng).then_some(store)
}

/// A well-formed store in which rows were changed so that it is still one, and the place in `CHANGES` of what was
/// done.
pub fn changed_store(rng: &mut Rng) -> (Store, usize) {
    loop {
        let at = rng.below(CHANGES.len() as u64) as usize;
        let mut store = random_store(rng);
        if (CHANGES[at].1)(&mut store, rng) {
            return (store, at);
        }
    }
}
