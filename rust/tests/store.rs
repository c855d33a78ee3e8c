//! What the crate adds to the calls: the load that a close names, the iterator over rows shown, what a load is shown
//! that clears, purge's part, the totals, saves and recovery, a store's words, and where it may lie.

use nizgulk::calls;
use nizgulk::limits::{CHECKPOINT_MAX, CONTENTS_BYTES, ROWS_MAX, STORE_WORDS};
use nizgulk::{Closed, Epoch, Refusal, Scan, Store};

/// A full partition: rows 0 to 511, by two loads in turn, as many at a time as these lengths say. Only the first
/// commits.
fn striped(lengths: &[usize]) -> (Store, Epoch, Vec<u64>) {
    let mut store = Store::new(Epoch::FIRST).unwrap();
    let loads = [store.begin().unwrap(), store.begin().unwrap()];
    let mut of_first = Vec::new();
    let mut from = 0;
    for (turn, length) in lengths.iter().cycle().take(60).enumerate() {
        let rows: Vec<u64> = (from..(from + *length as u64).min(ROWS_MAX as u64)).collect();
        from += rows.len() as u64;
        store.append(loads[turn % 2], 5, &rows).unwrap();
        if turn % 2 == 0 {
            of_first.extend(rows);
        }
    }
    assert_eq!(from, ROWS_MAX as u64);
    store.commit(loads[0]).unwrap();
    (store, loads[1], of_first)
}

/// The rows shown, one by one, with the length told right at each.
fn one_by_one(mut scan: Scan) -> Vec<u64> {
    let mut rows = Vec::new();
    loop {
        let left = scan.len();
        let Some(row) = scan.next() else {
            assert_eq!((left, scan.next()), (0, None));
            return rows;
        };
        assert_eq!(scan.len() + 1, left);
        rows.push(row);
    }
}

#[test]
fn a_close_names_the_oldest_open_load() {
    let mut store = Store::new(Epoch::new(7)).unwrap();
    let [first, second, third, fourth] = [(); 4].map(|()| store.begin().unwrap());
    let before = store.lce();
    assert_eq!(store.commit(second), Ok(Closed { lce: before, oldest: Some(first) }));
    assert_eq!(store.roll_back(fourth), Ok(Closed { lce: before, oldest: Some(first) }));
    // The second waits and is no longer open: it is not named, and LCE reaches it.
    assert_eq!(store.roll_back(first), Ok(Closed { lce: second, oldest: Some(third) }));
    let fifth = store.begin().unwrap();
    assert_eq!(store.commit(third), Ok(Closed { lce: third, oldest: Some(fifth) }));
    assert_eq!(store.commit(fifth), Ok(Closed { lce: fifth, oldest: None }));
    let sixth = store.begin().unwrap();
    assert_eq!(store.roll_back(sixth), Ok(Closed { lce: fifth, oldest: None }));
}

#[test]
fn a_refused_close_names_no_load() {
    let mut store = Store::new(Epoch::FIRST).unwrap();
    let load = store.begin().unwrap();
    let (books, mut entries, mut rows) = store.into_parts();
    let refused = calls::commit(&books, &entries, &rows, load.get() + 1);
    assert_eq!((refused.number, refused.value, refused.second), (2, 0, 0));
    let refused = calls::roll_back(&books, &mut entries, &mut rows, load.get() + 1);
    assert_eq!((refused.number, refused.value, refused.second), (2, 0, 0));
}

#[test]
fn a_scan_shows_the_rows_in_order() {
    for lengths in [&[1, 17][..], &[64, 64], &[5, 3, 70, 130], &[511, 1], &[0, 200], &[128, 1, 1, 127]] {
        let (mut store, second, of_first) = striped(lengths);
        let of_second: Vec<u64> = (0..ROWS_MAX as u64).filter(|row| !of_first.contains(row)).collect();
        let page = store.begin_ro(None).unwrap();
        for (scan, rows) in [(store.scan(page, 5).unwrap(), &of_first), (store.scan(second, 5).unwrap(), &of_second)] {
            let shown = |row: &u64| scan.bitmap()[*row as usize / 8] >> (row % 8) & 1 == 1;
            assert_eq!(scan.row_count(), ROWS_MAX);
            assert_eq!(&(0..ROWS_MAX as u64).filter(shown).collect::<Vec<_>>(), rows);
            assert_eq!(scan.clone().sum::<u64>(), rows.iter().sum());
            assert_eq!(&scan.clone().collect::<Vec<_>>(), rows);
            assert_eq!(&one_by_one(scan), rows);
        }
    }
}

#[test]
fn a_scan_goes_on_where_it_was_left() {
    let (mut store, _, rows) = striped(&[5, 3, 70, 130]);
    let page = store.begin_ro(None).unwrap();
    for taken in [0, 1, 4, 5, 6, 74, 75, 76, rows.len()] {
        let mut scan = store.scan(page, 5).unwrap();
        assert!(scan.by_ref().take(taken).eq(rows[..taken].iter().copied()));
        assert_eq!(scan.fold(Vec::new(), |all, row| [all, vec![row]].concat()), rows[taken..]);
    }
}

#[test]
fn a_load_that_reloads_is_shown_what_it_loaded_after() {
    let mut store = Store::new(Epoch::FIRST).unwrap();
    let first = store.begin().unwrap();
    store.append(first, 0, &[10, 11]).unwrap();
    store.append(first, 1, &[12]).unwrap();
    store.commit(first).unwrap();
    let [second, third] = [(); 2].map(|()| store.begin().unwrap());
    let page = store.begin_ro(None).unwrap();
    store.append(second, 0, &[20]).unwrap();
    for rows in [[21, 22], [23, 24]] {
        store.clear(second, 0).unwrap();
        assert_eq!(store.scan(second, 0).unwrap().len(), 0);
        store.append(second, 0, &rows).unwrap();
        assert!(store.scan(second, 0).unwrap().eq(rows));
        assert!(store.scan(second, 1).unwrap().eq([12]));
        assert!(store.scan(third, 0).unwrap().eq([10, 11]));
        assert!(store.scan(page, 0).unwrap().eq([10, 11]));
    }
    store.roll_back(second).unwrap();
    assert!(store.scan(third, 0).unwrap().eq([10, 11]));
    assert!(store.scan(page, 0).unwrap().eq([10, 11]));
}

#[test]
fn a_purge_answers_with_the_rows_in_force() {
    let (mut store, second, rows) = striped(&[5, 13]);
    let before = store.row_count(5);
    store.roll_back(second).unwrap();
    assert_eq!((before, store.row_count(5)), (Some(ROWS_MAX), Some(rows.len())));
    store.advance_lse(None).unwrap();
    // All rows are of the epoch that LSE is at: nothing is to do, and the part is where it was.
    let purged = store.purge(5).unwrap();
    assert_eq!((purged.rewritten, purged.rows), (false, rows.as_slice()));
    let load = store.begin().unwrap();
    store.clear(load, 5).unwrap();
    store.append(load, 5, &[7]).unwrap();
    store.commit(load).unwrap();
    store.advance_lse(None).unwrap();
    let purged = store.purge(5).unwrap();
    assert_eq!((purged.rewritten, purged.rows), (true, &[7][..]));
    let purged = store.purge(4).unwrap();
    assert_eq!((purged.rewritten, purged.rows), (false, &[][..]));
}

/// The total of partition 3, and what a page begun now is shown of it, added up.
fn total(store: &mut Store) -> u64 {
    let page = store.begin_ro(None).unwrap();
    let sum = store.scan(page, 3).unwrap().map(|row| row & 0xffff_ffff).sum();
    store.end_ro(page).unwrap();
    assert_eq!((store.total(3), store.total(8)), (Some(sum), None));
    sum
}

#[test]
fn a_total_is_what_a_page_at_lce_would_show() {
    let mut store = Store::new(Epoch::FIRST).unwrap();
    let [first, second] = [(); 2].map(|()| store.begin().unwrap());
    store.append(first, 3, &[1]).unwrap();
    store.append(second, 3, &[4_294_967_301, u64::MAX]).unwrap();
    store.commit(second).unwrap();
    assert_eq!(total(&mut store), 0);
    // The roll back moves LCE to the second, and the total with it.
    store.roll_back(first).unwrap();
    assert_eq!(total(&mut store), 5 + 4_294_967_295);
    let third = store.begin().unwrap();
    store.append(third, 3, &[6]).unwrap();
    store.clear(third, 3).unwrap();
    store.append(third, 3, &[7]).unwrap();
    assert_eq!(total(&mut store), 5 + 4_294_967_295);
    store.commit(third).unwrap();
    assert_eq!(total(&mut store), 7);
    store.advance_lse(None).unwrap();
    assert!(store.purge(3).unwrap().rewritten);
    assert_eq!(total(&mut store), 7);
    let fourth = store.begin().unwrap();
    store.append(fourth, 3, &[u64::MAX; ROWS_MAX - 1]).unwrap();
    store.append(fourth, 4, &[u64::MAX; ROWS_MAX]).unwrap();
    store.commit(fourth).unwrap();
    assert_eq!((total(&mut store), store.total(4)), (2_194_728_287_752, Some(2_199_023_255_040)));
    store.create(Epoch::FIRST).unwrap();
    assert_eq!(store.books().totals, [0; 8]);
}

/// What a page begun now is shown of each partition.
fn shown(store: &mut Store) -> [Vec<u64>; 8] {
    let page = store.begin_ro(None).unwrap();
    let rows = std::array::from_fn(|partition| store.scan(page, partition as u64).unwrap().collect());
    store.end_ro(page).unwrap();
    rows
}

/// A file of five saves, the last two of one epoch; the end of each in it; and what a page was shown when it was saved.
/// Each was saved while a load was open.
fn saved() -> (Vec<u8>, Vec<usize>, Vec<[Vec<u64>; 8]>) {
    let mut store = Store::new(Epoch::FIRST).unwrap();
    let (mut file, mut ends, mut rows) = (vec![0xa5; 5 * CHECKPOINT_MAX], Vec::new(), Vec::new());
    let mut end = 0;
    for (turn, partition) in [0, 7, 0, 3].into_iter().enumerate() {
        let load = store.begin().unwrap();
        let open = store.begin().unwrap();
        if turn == 2 {
            store.clear(load, 0).unwrap();
        }
        store.append(load, partition, &[turn as u64, u64::MAX - turn as u64]).unwrap();
        store.append(open, partition, &[77]).unwrap();
        store.commit(load).unwrap();
        let now = shown(&mut store);
        for _ in 0..1 + turn / 3 {
            end += store.save(store.lce(), &mut file[end..]).unwrap();
            ends.push(end);
            rows.push(now.clone());
        }
        store.roll_back(open).unwrap();
    }
    assert!(file[end..].iter().all(|&byte| byte == 0xa5));
    file.truncate(end);
    (file, ends, rows)
}

#[test]
fn every_cut_gives_the_last_whole_save() {
    let (file, ends, rows) = saved();
    assert_eq!(ends.last(), Some(&file.len()));
    for cut in 0..=file.len() {
        let whole = ends.iter().filter(|&&end| end <= cut).count();
        let mut store = Store::recovered(&file[..cut]).unwrap();
        let ought = if whole == 0 { Default::default() } else { rows[whole - 1].clone() };
        assert_eq!(shown(&mut store), ought, "cut after {cut} bytes");
        let weighed: Vec<u64> = ought.iter().map(|lot| lot.iter().map(|row| row & 0xffff_ffff).sum()).collect();
        assert_eq!(store.books().totals.to_vec(), weighed);
        assert_eq!(whole == 0, store.lce() == Epoch::new(0));
    }
}

#[test]
fn a_recovered_store_goes_on() {
    let (file, ends, rows) = saved();
    let (mut store, _, _) = striped(&[5, 13]);
    let words_behind = store.rows()[ROWS_MAX - 1];
    store.recover(&file[..ends[1]]).unwrap();
    assert_eq!((store.books().writers.count, store.books().readers.count), (0, 0));
    assert_eq!(shown(&mut store), rows[1]);
    assert_eq!(store.rows()[ROWS_MAX - 1], words_behind);
    // What was saved is saved again as it was.
    let mut again = vec![0; ends[1] - ends[0]];
    assert_eq!(store.save(store.lce(), &mut again), Ok(again.len()));
    assert_eq!(again, file[ends[0]..ends[1]]);
    assert_eq!(store.save(Epoch::new(0), &mut [0; CONTENTS_BYTES]), Err(Refusal::OutOfRange));
    let load = store.begin().unwrap();
    assert_eq!(load.get(), store.lce().get() + 1);
    store.append(load, 7, &[5]).unwrap();
    store.clear(load, 0).unwrap();
    store.commit(load).unwrap();
    store.advance_lse(None).unwrap();
    assert!(store.purge(0).unwrap().rows.is_empty());
    let mut now = rows[1].clone();
    now[0].clear();
    now[7].push(5);
    assert_eq!(shown(&mut store), now);
}

#[test]
fn a_full_store_is_saved_and_recovered() {
    let mut store = Store::new(Epoch::LAST).unwrap();
    let load = store.begin().unwrap();
    for partition in 0..8 {
        let rows: Vec<u64> = (0..ROWS_MAX as u64).map(|row| row << 40 | partition << 32 | row).collect();
        store.append(load, partition, &rows).unwrap();
    }
    store.commit(load).unwrap();
    let mut file = vec![0; CHECKPOINT_MAX];
    assert_eq!(store.save(load, &mut file[..CHECKPOINT_MAX - 1]), Err(Refusal::ShortOutput));
    assert_eq!(store.save(load, &mut file), Ok(CHECKPOINT_MAX));
    let mut again = Store::recovered(&file).unwrap();
    assert_eq!(shown(&mut again), shown(&mut store));
    assert_eq!(again.books().totals, store.books().totals);
    assert_eq!(again.begin(), Err(Refusal::Exhausted));
}

#[test]
fn a_kept_store_goes_on() {
    let (mut store, second, rows) = striped(&[5, 13]);
    let mut saved = Box::new(*store.words());
    let again = Store::in_words(&mut saved);
    assert!(*again == store);
    assert_eq!(again.commit(second), store.commit(second));
    assert!(*again == store);
    let first = again.begin_ro(Epoch::FIRST).unwrap();
    assert!(again.scan(first, 5).unwrap().eq(rows));
    let all = again.begin_ro(None).unwrap();
    assert!(again.scan(all, 5).unwrap().eq(0..ROWS_MAX as u64));
    assert!(*again != store);
    let (books, entries, rows) = store.clone().into_parts();
    assert!(Store::from_parts(books, entries, rows) == store);
    assert_eq!((store.books(), store.entries(), store.rows()), (&books, &entries, &rows));
}

/// The words of a store begin with its books, go on with its entries and end with its rows.
#[test]
fn words_lie_in_order() {
    let mut words = Box::new([0; STORE_WORDS]);
    for (at, word) in words.iter_mut().enumerate() {
        *word = at as u64;
    }
    let store = Store::in_words(&mut words);
    assert_eq!([store.ec(), store.lce(), store.lse()].map(Epoch::get), [0, 1, 2]);
    assert_eq!(store.books().partitions.spare, 9_464 / 8 - 1);
    assert_eq!([0, 7, 8].map(|lot| store.total(lot)), [Some(9_464 / 8), Some(9_528 / 8 - 1), None]);
    assert_eq!(store.entries()[0].epoch, 9_528 / 8);
    assert_eq!(store.rows()[ROWS_MAX * 9 - 1], STORE_WORDS as u64 - 1);
    assert!(store.words().iter().copied().eq(0..STORE_WORDS as u64));
}
