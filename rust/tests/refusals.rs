//! Each refusal by its number, and that a refused call leaves every byte of the store as it was.

use nizgulk::books::{Books, Entry};
use nizgulk::calls;
use nizgulk::limits::{
    ENTRIES_LENT, ENTRIES_MAX, LAST_EPOCH, LAST_TICKET, READERS_MAX, ROWS_LENT, ROWS_MAX, WRITERS_MAX,
};
use nizgulk::{Epoch, Refusal, Store, Ticket};

/// A store with an open load that wrote to partition 0, a committed one before it, and a page.
fn used() -> (Store, Epoch, Ticket) {
    let mut store = Store::new(Epoch::FIRST).unwrap();
    let first = store.begin().unwrap();
    store.append(first, 0, &[1, 2, 3, 4, 5]).unwrap();
    store.commit(first).unwrap();
    let page = store.begin_ro(None).unwrap();
    let load = store.begin().unwrap();
    store.append(load, 0, &[6, 7, 8, 9]).unwrap();
    (store, load, page)
}

/// The call is refused by this number, and the store is left as it was.
fn refused<T>(number: u64, store: &mut Store, call: impl FnOnce(&mut Store) -> Result<T, Refusal>) {
    let before = Box::new(*store.words());
    let answer = call(store).map(|_| ()).map_err(Refusal::number);
    assert_eq!(answer, Err(number));
    assert!(*store.words() == *before, "a call refused by {number} changed the store");
}

#[test]
fn numbers_are_those_of_01_and_02() {
    for (refusal, number) in Refusal::ALL.into_iter().zip(1..) {
        assert_eq!((refusal.number(), Refusal::from_number(number)), (number, Some(refusal)));
    }
    assert_eq!([0, 12].map(Refusal::from_number), [None; 2]);
    assert_eq!(Refusal::Blocked.to_string(), "refused, 10: an open transaction needs what is older");
}

#[test]
fn no_such_partition_is_1() {
    let (mut store, load, page) = used();
    refused(1, &mut store, |store| store.append(load, 8, &[1]));
    refused(1, &mut store, |store| store.clear(load, 8));
    refused(1, &mut store, |store| store.scan(page, 8).map(|scan| scan.len()));
    refused(1, &mut store, |store| store.purge(u64::MAX).map(|purged| purged.rewritten));
}

#[test]
fn not_open_is_2() {
    let (mut store, load, page) = used();
    let none = [0, 1, load.get() + 1, u64::MAX];
    for txn in none.map(Epoch::new) {
        refused(2, &mut store, |store| store.append(txn, 0, &[1]));
        refused(2, &mut store, |store| store.clear(txn, 0));
        refused(2, &mut store, |store| store.commit(txn));
        refused(2, &mut store, |store| store.roll_back(txn));
        refused(2, &mut store, |store| store.scan(txn, 0).map(|scan| scan.len()));
    }
    for ticket in [0, page.get() + 1, u64::MAX].map(Ticket::new) {
        refused(2, &mut store, |store| store.end_ro(ticket));
        refused(2, &mut store, |store| store.scan(ticket, 0).map(|scan| scan.len()));
    }
}

#[test]
fn a_short_output_is_3() {
    let (store, load, page) = used();
    let (books, entries, rows) = store.into_parts();
    let mut bitmap = [0xa5; 1];
    assert_eq!(calls::scan_rw(&books, &entries, &rows, &mut bitmap, load.get(), 0).number, 3);
    assert_eq!(calls::scan_ro(&books, &entries, &rows, &mut bitmap, page.get(), 0).number, 3);
    assert_eq!(bitmap, [0xa5]);
    let mut bitmap = [0xa5; 3];
    assert_eq!(calls::scan_ro(&books, &entries, &rows, &mut bitmap, page.get(), 0).number, 0);
    assert_eq!(bitmap, [0b11111, 0, 0xa5]);

    // Five rows are shown at epoch 1, and none at 0.
    let mut store = Store::from_parts(books, entries, rows);
    let mut out = [0xa5; 70];
    for (epoch, needed) in [(0, 24), (1, 64)] {
        for lent in [0, 23, needed - 1] {
            refused(3, &mut store, |store| store.save(Epoch::new(epoch), &mut out[..lent]));
            assert_eq!(out, [0xa5; 70]);
        }
    }
    assert_eq!(store.save(Epoch::new(1), &mut out[..64]), Ok(64));
    assert_eq!(out[64..], [0xa5; 6]);
}

#[test]
fn out_of_range_is_4() {
    let (mut store, _, _) = used();
    for start in [0, LAST_EPOCH + 1].map(Epoch::new) {
        refused(4, &mut store, |store| store.create(start));
    }
    let above = Epoch::new(store.lce().get() + 1);
    refused(4, &mut store, |store| store.begin_ro(above));
    refused(4, &mut store, |store| store.advance_lse(above));
    // Out of range comes before an output that is too short.
    refused(4, &mut store, |store| store.save(above, &mut [0xa5; 0]));
    refused(4, &mut store, |store| store.save(Epoch::new(u64::MAX), &mut [0xa5; 99]));
    let (mut books, entries, rows) = store.into_parts();
    books.clock.lse = 1;
    books.readers.at[0].epoch = 1;
    let mut store = Store::from_parts(books, entries, rows);
    assert!(store.save(Epoch::new(1), &mut [0xa5; 99]).is_ok());
    refused(4, &mut store, |store| store.save(Epoch::new(0), &mut [0xa5; 99]));
}

#[test]
fn unsound_is_5() {
    refused(5, &mut Store::blank(), Store::begin);
    let (store, load, page) = used();
    let (books, entries, rows) = store.into_parts();
    let spoilt: [fn(&mut Books); 8] = [
        |books| books.clock.lce = books.clock.ec,
        |books| books.writers.at[0].waiting = 2,
        |books| books.deps[1] = u64::MAX,
        |books| books.readers.count = usize::MAX,
        |books| books.partitions.spare = 0,
        |books| books.totals[0] += 1,
        |books| books.totals[7] = u64::MAX,
        |books| books.totals.swap(0, 1),
    ];
    for spoil in spoilt {
        let mut books = books;
        spoil(&mut books);
        let mut store = Store::from_parts(books, entries, rows);
        refused(5, &mut store, Store::begin);
        refused(5, &mut store, |store| store.append(load, 0, &[1]));
        refused(5, &mut store, |store| store.clear(load, 0));
        refused(5, &mut store, |store| store.commit(load));
        refused(5, &mut store, |store| store.roll_back(load));
        refused(5, &mut store, |store| store.begin_ro(None));
        refused(5, &mut store, |store| store.end_ro(page));
        refused(5, &mut store, |store| store.scan(page, 0).map(|scan| scan.len()));
        refused(5, &mut store, |store| store.advance_lse(None));
        refused(5, &mut store, |store| store.purge(0).map(|purged| purged.rewritten));
        refused(5, &mut store, |store| store.save(Epoch::new(1), &mut [0xa5; 99]));
        refused(5, &mut store, |store| store.save(Epoch::new(u64::MAX), &mut []));
        // A recovery does not look at them.
        assert_eq!(store.recover(&[]), Ok(()));
        assert_eq!(store.begin(), Ok(Epoch::FIRST));
    }
    let mut long = [Entry::BLANK; ENTRIES_LENT + 1];
    let mut few = [7; 3];
    // The lengths come before the file.
    assert_eq!(calls::recover(&books, &mut long, &mut rows.clone(), &[0xff; 24]).number, 5);
    assert_eq!(calls::recover(&books, &mut entries.clone(), &mut few, &[]).number, 5);
    assert_eq!((long[0], few), (Entry::BLANK, [7; 3]));
    assert_eq!(calls::create(&books, &long, &rows, 1).number, 5);
    assert_eq!(calls::create(&books, &entries, &[], 1).number, 5);
    assert_eq!(calls::create(&books, &entries, &rows, 1).number, 0);
    assert_eq!(rows.len(), ROWS_LENT);
}

#[test]
fn a_row_that_a_total_counts_is_read() {
    let (store, _, _) = used();
    let (books, entries, rows) = store.into_parts();
    for bit in 0..64 {
        // Rows 0 to 4 are shown, 5 to 8 are of an open load, and the word after them is of none.
        for (at, number) in [(0, 5), (4, 5), (5, 0), (8, 0), (9, 0)] {
            let mut rows = rows;
            rows[at] ^= 1 << bit;
            let begun = calls::begin(&books, &entries, &rows).number;
            assert_eq!(begun, if bit < 32 { number } else { 0 }, "bit {bit} of row {at}");
        }
    }
    let mut swapped = rows;
    swapped.swap(0, 4);
    assert_eq!(calls::begin(&books, &entries, &swapped).number, 0);
}

#[test]
fn exhausted_is_6() {
    let mut store = Store::new(Epoch::LAST).unwrap();
    assert_eq!(store.begin(), Ok(Epoch::LAST));
    refused(6, &mut store, Store::begin);

    let (mut books, entries, rows) = store.into_parts();
    books.readers.next = LAST_TICKET;
    let mut store = Store::from_parts(books, entries, rows);
    assert_eq!(store.begin_ro(None), Ok(Ticket::new(LAST_TICKET)));
    refused(6, &mut store, |store| store.begin_ro(None));
}

#[test]
fn transactions_full_is_7() {
    let mut store = Store::new(Epoch::FIRST).unwrap();
    for _ in 0..WRITERS_MAX {
        store.begin().unwrap();
    }
    refused(7, &mut store, Store::begin);
    for _ in 0..READERS_MAX {
        store.begin_ro(None).unwrap();
    }
    refused(7, &mut store, |store| store.begin_ro(None));
}

#[test]
fn rows_full_is_8() {
    let (mut store, load, _) = used();
    let left = ROWS_MAX - store.row_count(0).unwrap();
    refused(8, &mut store, |store| store.append(load, 0, &vec![1; left + 1]));
    assert_eq!(store.append(load, 0, &vec![1; left]), Ok(ROWS_MAX));
    refused(8, &mut store, |store| store.append(load, 0, &[1]));
}

#[test]
fn entries_full_is_9() {
    let (mut store, load, _) = used();
    for count in 1..=ENTRIES_MAX {
        assert_eq!(store.clear(load, 1), Ok(count));
    }
    refused(9, &mut store, |store| store.clear(load, 1));
    refused(9, &mut store, |store| store.append(load, 1, &[1]));
}

#[test]
fn blocked_is_10() {
    let (mut store, load, page) = used();
    let lce = store.commit(load).unwrap().lce;
    refused(10, &mut store, |store| store.advance_lse(lce));
    assert_eq!(store.end_ro(page), Ok(0));
    assert_eq!(store.advance_lse(lce), Ok(lce));
}

/// A checkpoint of an epoch: so many rows of each partition, each row 7.
fn checkpoint(epoch: u64, counts: [u16; 8]) -> Vec<u8> {
    let mut bytes = epoch.to_le_bytes().to_vec();
    bytes.extend(counts.iter().flat_map(|count| count.to_le_bytes()));
    bytes.extend(7_u64.to_le_bytes().repeat(counts.iter().map(|&count| usize::from(count)).sum()));
    bytes
}

#[test]
fn corrupt_is_11() {
    let one = [0, 0, 0, 1, 0, 0, 0, 0];
    let good = checkpoint(9, one);
    let nothing = checkpoint(0, [0; 8]);
    for (epoch, counts) in [
        (9, [513, 0, 0, 0, 0, 0, 0, 0]),
        (9, [0, 0, 0, 0, 0, 0, 0, u16::MAX]),
        (LAST_EPOCH + 1, [0; 8]),
        (u64::MAX, one),
        (0, one),
    ] {
        let bad = checkpoint(epoch, counts);
        // In the first place and in a later one, with its rows, without them, and with another behind it.
        for before in [vec![], nothing.clone(), [good.clone(), good.clone()].concat()] {
            for file in [&bad[..], &bad[..24], &[&bad[..], &good].concat()] {
                let (mut store, _, _) = used();
                refused(11, &mut store, |store| store.recover(&[&before, file].concat()));
                assert_eq!(Store::recovered(&[&before, file].concat()), Err(Refusal::Corrupt));
            }
            // A table of contents that is cut is not judged.
            assert!(Store::recovered(&[&before, &bad[..23]].concat()).is_ok());
        }
    }
    let (mut store, _, _) = used();
    refused(11, &mut store, |store| store.recover(&[good.clone(), checkpoint(8, [0; 8])].concat()));
    // These are at the edge, and accepted.
    for (epoch, counts) in [(0, [0; 8]), (9, [512; 8]), (LAST_EPOCH, one), (9, one)] {
        assert_eq!(store.recover(&[&checkpoint(epoch, [0; 8])[..], &checkpoint(epoch, counts)].concat()), Ok(()));
        assert_eq!([store.ec(), store.lce(), store.lse()].map(Epoch::get), [epoch + 1, epoch, epoch]);
        assert_eq!(store.row_count(3), Some(usize::from(counts[3])));
    }
}
