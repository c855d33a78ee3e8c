//! A day at the planner's: two benches load their weighings into lots, an order page stays open through all of it,
//! scrap is cleared, a load with a wrong scale is rolled back, and at night what nobody needs any more is purged.
//! Beside the store the day keeps plain lists of what each reader ought to be shown; the first difference ends it
//! with status 1. 01's words are used here: a lot is a partition, a load a read-write transaction, a page a read-only
//! one.

use nizgulk::{Closed, Epoch, Reader, Refusal, Store};
use std::error::Error;

/// The lots of the day.
const NICKEL: u64 = 0;
const COBALT: u64 = 1;
const SCRAP: u64 = 2;
const LOTS: [(u64, &str); 3] = [(NICKEL, "nickel"), (COBALT, "cobalt"), (SCRAP, "scrap")];

/// What a reader ought to be shown of each lot.
type Shown = [Vec<u64>; LOTS.len()];

/// A weighing as one row: which bench, and in the low 32 bits, which the books add up, how many milligrams.
fn weighed(bench: u64, milligrams: u64) -> u64 {
    bench << 32 | milligrams
}

fn milligrams(row: u64) -> u64 {
    row & 0xffff_ffff
}

fn told(row: u64) -> String {
    format!("{} mg by bench {}", milligrams(row), row >> 32)
}

fn same<T: PartialEq + std::fmt::Debug>(what: &str, is: T, ought: T) -> Result<(), String> {
    if is == ought {
        Ok(())
    } else {
        Err(format!("{what}: {is:?} instead of {ought:?}"))
    }
}

/// Adds rows to a lot, and to what the load's readers ought to be shown.
fn load(store: &mut Store, by: Epoch, lot: u64, rows: &[u64], shown: &mut Shown) -> Result<(), Refusal> {
    store.append(by, lot, rows)?;
    shown[lot as usize].extend(rows);
    Ok(())
}

/// Commits a load, and prints which one holds it back.
fn commit(store: &mut Store, txn: Epoch) -> Result<Closed, Refusal> {
    let closed = store.commit(txn)?;
    match closed.oldest {
        Some(oldest) if closed.lce < txn => println!("load {txn} is committed, and load {oldest} holds it back"),
        _ => println!("load {txn} is committed: LCE is {}", closed.lce),
    }
    Ok(closed)
}

/// Scans every lot, prints what it shows, and holds it to what it ought to show.
fn scan(store: &Store, who: &str, reader: impl Into<Reader>, ought: &Shown) -> Result<(), Box<dyn Error>> {
    let reader = reader.into();
    println!("{who} shows");
    for ((lot, name), rows) in LOTS.into_iter().zip(ought) {
        let is: Vec<u64> = store.scan(reader, lot)?.collect();
        let list: Vec<String> = is.iter().copied().map(told).collect();
        println!("  {name}: {}", if list.is_empty() { "nothing".to_string() } else { list.join(", ") });
        same(&format!("{who}, {name}"), &is, rows)?;
    }
    Ok(())
}

/// Holds the books' totals to what a page opened now ought to be shown.
fn weigh(store: &Store, ought: &Shown) -> Result<(), String> {
    for ((lot, name), rows) in LOTS.into_iter().zip(ought) {
        let total = rows.iter().copied().map(milligrams).sum();
        println!("the books have {total} mg of {name}");
        same(name, store.total(lot), Some(total))?;
    }
    Ok(())
}

fn main() -> Result<(), Box<dyn Error>> {
    let mut store = Store::new(Epoch::FIRST)?;

    // Two benches load at the same time. Neither sees the other's rows.
    let (first, second) = (store.begin()?, store.begin()?);
    println!("bench 1 begins load {first}, bench 2 load {second}");
    let (mut by_first, mut by_second) = (Shown::default(), Shown::default());
    load(&mut store, first, NICKEL, &[weighed(1, 812), weighed(1, 655)], &mut by_first)?;
    load(&mut store, second, COBALT, &[weighed(2, 340)], &mut by_second)?;
    load(&mut store, first, SCRAP, &[weighed(1, 97)], &mut by_first)?;
    load(&mut store, second, SCRAP, &[weighed(2, 58), weighed(2, 41)], &mut by_second)?;
    scan(&store, &format!("load {first}"), first, &by_first)?;
    scan(&store, &format!("load {second}"), second, &by_second)?;

    // The later load is committed first: it lands only when no earlier one is open.
    let lce = store.lce();
    same("what bench 2 is told", commit(&mut store, second)?, Closed { lce, oldest: Some(first) })?;
    same("what bench 1 is told", commit(&mut store, first)?, Closed { lce: second, oldest: None })?;
    let morning: Shown = std::array::from_fn(|lot| [by_first[lot].as_slice(), &by_second[lot]].concat());

    weigh(&store, &morning)?;

    // The order page is opened, and stays open.
    let order = store.begin_ro(None)?;
    scan(&store, "the order page", order, &morning)?;

    // Bench 1 goes on. Scrap is cleared, and what was melted of it is weighed again: the load shows only that as scrap.
    let mut evening = morning.clone();
    let third = store.begin()?;
    load(&mut store, third, NICKEL, &[weighed(1, 770)], &mut evening)?;
    store.commit(third)?;
    let melt = store.begin()?;
    store.clear(melt, SCRAP)?;
    evening[SCRAP as usize].clear();
    load(&mut store, melt, SCRAP, &[weighed(2, 190)], &mut evening)?;
    scan(&store, &format!("load {melt}"), melt, &evening)?;
    store.commit(melt)?;
    println!("load {third} has added nickel, load {melt} has cleared the scrap and weighed its melt");

    // Bench 2 finds that its scale was wrong: nothing of that load remains.
    let held = store.row_count(COBALT);
    let wrong = store.begin()?;
    store.append(wrong, COBALT, &[weighed(2, 9_999), weighed(2, 9_998)])?;
    store.clear(wrong, NICKEL)?;
    store.roll_back(wrong)?;
    same("rows of cobalt", store.row_count(COBALT), held)?;
    println!("load {wrong} is rolled back");

    // The order page shows what it showed in the morning; a page of the evening shows the evening, and so do the books.
    scan(&store, "the order page, still open,", order, &morning)?;
    let late = store.begin_ro(None)?;
    scan(&store, "the evening's page", late, &evening)?;
    weigh(&store, &evening)?;

    // While the order page is open, LSE cannot pass it, and the scrap stays.
    same("LSE", store.advance_lse(store.lce()), Err(Refusal::Blocked))?;
    println!("LSE cannot move to {} while the order page is open", store.lce());
    same("pages still open", store.end_ro(order)?, 1)?;
    same("LSE", store.advance_lse(None)?, store.lce())?;
    println!("the order page is closed: LSE is {}", store.lse());

    // The purge hands out the rows in force, a part of the store's own rows.
    for (lot, name) in LOTS {
        let before = store.row_count(lot).unwrap_or(0);
        let purged = store.purge(lot)?;
        println!("{name} is purged: {} of {before} rows in force", purged.rows.len());
        same(name, purged.rows, &evening[lot as usize])?;
    }
    same("rows of scrap", store.row_count(SCRAP), Some(evening[SCRAP as usize].len()))?;
    scan(&store, "the evening's page, after the purge,", late, &evening)?;
    same("pages still open", store.end_ro(late)?, 0)?;
    println!("the day is as it ought to be");
    Ok(())
}
