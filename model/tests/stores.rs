//! Well-formed stores that no history made, and stores spoilt in one field (01, the refusals: *Sound*; 02, (iii), (v)).

use model::call::{Call, CALL_NAMES};
use model::check::{Checked, Coverage};
use model::files::any_file;
use model::histories::{Calls, PROFILES};
use model::partition::{Entry, CLEARING};
use model::random::Rng;
use model::round::Round;
use model::sound::{broken_clauses, well_formed};
use model::store::{Manager, Store};
use model::stores::{changed_store, random_store, row_places, spoilt_by, RowKind, CHANGES, SPOILS};
use model::visible::Reader;

/// One call of each kind, with arguments that suit the store as far as it has any.
fn one_of_each(store: &Store) -> Vec<Call> {
    let epoch = store.manager.rw.at[0].epoch;
    let reader = Reader::Rw(epoch);
    vec![
        Call::Begin,
        Call::Append { epoch, partition: 0, rows: vec![1] },
        Call::Append { epoch, partition: 9, rows: vec![1; 600] },
        Call::Clear { epoch, partition: 0 },
        Call::Commit { epoch },
        Call::Rollback { epoch },
        Call::Open { epoch: 0 },
        Call::Open { epoch: u64::MAX },
        Call::Close { ticket: store.manager.ro.at[0].ticket },
        Call::MoveLse { target: 0 },
        Call::MoveLse { target: u64::MAX },
        Call::Purge { partition: 0 },
        Call::Purge { partition: 8 },
        Call::Scan { reader, partition: 0, lent: 64 },
        Call::Scan { reader: Reader::Ro(store.manager.ro.at[0].ticket), partition: 8, lent: 0 },
        Call::Save { epoch: store.manager.clock.lce, lent: 33_000 },
        Call::Save { epoch: store.manager.clock.lse, lent: 33_000 },
        Call::Save { epoch: 0, lent: 24 },
        Call::Save { epoch: u64::MAX, lent: 0 },
    ]
}

#[test]
fn calls_keep_random_stores_well_formed() {
    let mut rng = Rng::new(2024);
    let mut coverage = Coverage::default();
    let (mut gaps, mut closed_deps) = (0, 0);
    for round in 0..1500 {
        let store = random_store(&mut rng);
        assert!(well_formed(&store), "round {round}: {:?}", broken_clauses(&store));
        for p in 0..8 {
            let part = store.manager.partitions.at[p];
            let first = part.area as usize * 64;
            let entries = &store.entries[first..first + part.entries as usize];
            let mut before = 0;
            for entry in entries {
                gaps += u64::from(entry.mark == CLEARING && entry.end > before);
                before = entry.end;
            }
        }
        let records = store.manager.rw.used();
        for dep in records.iter().flat_map(|txn| txn.deps()) {
            closed_deps += u64::from(records.iter().all(|txn| txn.epoch != *dep));
        }
        // Each kind of call on the store itself, then a few calls one after the other.
        let mut files = vec![any_file(&mut rng, &[], 0), any_file(&mut rng, &[], 1000)];
        files.push(store.round_at(store.manager.clock.lce).bytes());
        let recoveries = files.into_iter().map(|file| Call::Recover { file });
        for call in one_of_each(&store).into_iter().chain(recoveries) {
            let mut checked = Checked::without_ledger(store.clone());
            checked.call(&call).unwrap_or_else(|what| panic!("round {round}: {what}"));
            coverage.add(&checked.coverage);
        }
        let mut profile = PROFILES[round % PROFILES.len()];
        profile.partitions = 8;
        let mut calls = Calls::new(round as u64, profile);
        let mut checked = Checked::without_ledger(store);
        for _ in 0..40 {
            let call = calls.next_call(&checked.store);
            checked.call(&call).unwrap_or_else(|what| panic!("round {round}: {what}"));
        }
        coverage.add(&checked.coverage);
    }
    assert!(gaps > 1000 && closed_deps > 1000, "{gaps} gaps, {closed_deps} deps of closed loads");
    let missing = coverage.missing(&[5]);
    assert!(missing.is_empty(), "never met: {missing:#?}");
}

#[test]
fn spoilt_stores_are_refused_by_5() {
    let mut rng = Rng::new(77);
    let mut refused = [0; CALL_NAMES.len()];
    for (at, (clause, what, _)) in SPOILS.iter().enumerate() {
        let mut done = 0;
        let mut tries = 0;
        while done < 60 {
            tries += 1;
            assert!(tries < 5000, "{what} came up {done} times only");
            let Some(store) = spoilt_by(at, &mut rng) else { continue };
            done += 1;
            let broken = broken_clauses(&store);
            assert!(broken.contains(clause), "{what} breaks {broken:?}, not {clause}");
            for call in one_of_each(&store) {
                let mut after = store.clone();
                let mut bitmap = call.lent_bytes();
                let answer = call.run(&mut after, &mut bitmap);
                assert_eq!(model::call::number_of(&answer), 5, "{what}: {call:?}");
                assert!(after == store && bitmap == call.lent_bytes(), "{what}: {call:?} wrote");
                refused[call.kind()] += 1;
            }
            // Making new reads no state: only the lengths count, and they come before the start.
            for start in [0, 1, 1 << 31] {
                let mut after = store.clone();
                let number = model::call::number_of(&after.make_new(start));
                let expected = match (*clause, start) {
                    ("lengths", _) => 5,
                    (_, 1) => 0,
                    _ => 4,
                };
                assert_eq!(number, expected, "{what}: made new at {start}");
                assert_eq!(well_formed(&after), number == 0);
                assert!(after.rows == store.rows && after.entries == store.entries);
                refused[0] += u64::from(number == 5);
            }
            // And so does recovery: the lengths come before what the file has.
            let saved = Round { epoch: 9, lots: std::array::from_fn(|p| vec![p as u64; p]) }.bytes();
            for (file, number) in [(&[][..], 0), (&saved, 0), (&saved[..100], 0), (&[0xff; 24], 11)] {
                let mut after = store.clone();
                let found = model::call::number_of(&after.recover(file));
                assert_eq!(found, if *clause == "lengths" { 5 } else { number }, "{what}: recovered");
                assert_eq!(well_formed(&after), found == 0);
                assert!(found == 0 || after == store);
                refused[12] += u64::from(found == 5);
            }
        }
    }
    assert!(refused.iter().all(|&count| count > 0), "{refused:?}");
}

#[test]
fn rows_that_no_total_counts_may_be_any() {
    let mut rng = Rng::new(88);
    let mut done = [0; CHANGES.len()];
    while done.iter().any(|&count| count < 100) {
        let (store, at) = changed_store(&mut rng);
        done[at] += 1;
        assert!(sound_again(&store), "{}: {:?}", CHANGES[at].0, broken_clauses(&store));
        for call in one_of_each(&store) {
            let outcome = Checked::without_ledger(store.clone()).call(&call);
            assert_ne!(model::call::number_of(&outcome.unwrap().answer), 5, "{}: {call:?}", CHANGES[at].0);
        }
    }
}

#[test]
fn each_total_and_each_row_counts_by_itself() {
    let mut rng = Rng::new(99);
    let mut met = [0; 3];
    for round in 0..300 {
        let mut store = random_store(&mut rng);
        let all = store.manager.totals;
        for p in 0..8 {
            for total in
                [all[p].wrapping_add(1), all[p].wrapping_sub(1), all[p] ^ 1 << 32, u64::MAX, all[(p + 1) % 8]]
            {
                store.manager.totals[p] = total;
                let broken: &[&str] = if total == all[p] { &[] } else { &["totals"] };
                assert_eq!(broken_clauses(&store), broken, "round {round}, lot {p}");
                store.manager.totals[p] = all[p];
            }
            for (kind, met) in [RowKind::Shown, RowKind::Hidden, RowKind::AboveLce].into_iter().zip(&mut met)
            {
                for at in row_places(&store, p, kind) {
                    *met += 1;
                    let bit = rng.below(64);
                    let counts = kind == RowKind::Shown && bit < 32;
                    store.rows[at] ^= 1 << bit;
                    let broken: &[&str] = if counts { &["totals"] } else { &[] };
                    assert_eq!(broken_clauses(&store), broken, "round {round}, row {at}, bit {bit}");
                    store.rows[at] ^= 1 << bit;
                }
            }
        }
    }
    assert!(met.iter().all(|&count| count > 5_000), "{met:?} rows shown, hidden, above LCE");
}

#[test]
fn books_to_words_and_back() {
    let count = 3 + (32 * 34 + 1) + (32 * 2 + 2) + (8 * 3 + 1) + 8;
    let words: Vec<u64> = (1..=count).collect();
    let books = Manager::from_words(&words).expect("as many as there are");
    assert_eq!(books.words(), words);
    assert_eq!(size_of::<Manager>(), 8 * words.len());
    assert_eq!(
        (books.clock.lse, books.rw.at[0].deps_count, books.rw.count, books.ro.next),
        (3, 37, 1092, 1158)
    );
    assert_eq!((books.partitions.at[0].area, books.partitions.spare), (1159, 1183));
    assert_eq!((books.totals[0], books.totals[7]), (1184, 1191));
    assert!(Manager::from_words(&words[1..]).is_none());
}

#[test]
fn any_words_in_the_books_never_panic() {
    let mut rng = Rng::new(5);
    for _ in 0..20_000 {
        let mut store = random_store(&mut rng);
        for _ in 0..rng.within(1, 3) {
            let word = rng.word();
            let at = rng.below(32) as usize;
            let part = rng.below(8) as usize;
            let books = &mut store.manager;
            match rng.below(17) {
                0 => books.clock.ec = word,
                1 => books.clock.lce = word,
                2 => books.clock.lse = word,
                3 => books.rw.count = word,
                4 => books.rw.at[at].epoch = word,
                5 => books.rw.at[at].waiting = word,
                6 => books.rw.at[at].deps_count = word,
                7 => books.rw.at[at].deps[at.min(30)] = word,
                8 => books.ro.count = word,
                9 => books.ro.next = word,
                10 => books.ro.at[at].ticket = word,
                11 => books.ro.at[at].epoch = word,
                12 => books.partitions.at[part].area = word,
                13 => books.partitions.at[part].rows = word,
                14 => books.partitions.at[part].entries = word,
                15 => books.totals[part] = word,
                _ => books.partitions.spare = word,
            }
        }
        let sound = well_formed(&store);
        for call in one_of_each(&store) {
            let mut after = store.clone();
            let number = model::call::number_of(&call.run(&mut after, &mut call.lent_bytes()));
            assert_eq!(number == 5, !sound);
            assert!(number == 0 || after == store);
            assert_eq!(well_formed(&after), sound);
        }
    }
}

/// *Sound* read a second time, straight down the paper's sentence.
fn sound_again(store: &Store) -> bool {
    let books = &store.manager;
    let (ec, lce, lse) = (books.clock.ec, books.clock.lce, books.clock.lse);
    if store.rows.len() != 4_608 || store.entries.len() != 576 {
        return false;
    }
    if ec == 0 || ec > 2_147_483_648 || lce >= ec || lse > lce || books.rw.count > 32 || books.ro.count > 32 {
        return false;
    }
    let mut last = lce;
    let mut open_below = false;
    for (i, rw_txn) in books.rw.at.iter().enumerate() {
        if i as u64 >= books.rw.count {
            if rw_txn.epoch | rw_txn.waiting | rw_txn.deps_count != 0 || rw_txn.deps != [0; 31] {
                return false;
            }
            continue;
        }
        if rw_txn.epoch <= last || rw_txn.epoch >= ec || rw_txn.waiting > 1 || rw_txn.deps_count > 31 {
            return false;
        }
        last = rw_txn.epoch;
        if rw_txn.waiting == 1 && (!open_below || rw_txn.deps_count != 0) {
            return false;
        }
        open_below |= rw_txn.waiting == 0;
        let mut last_dep = lse;
        for (d, &dep) in rw_txn.deps.iter().enumerate() {
            if d as u64 >= rw_txn.deps_count {
                if dep != 0 {
                    return false;
                }
            } else if dep <= last_dep || dep >= rw_txn.epoch {
                return false;
            } else {
                last_dep = dep;
            }
        }
    }
    if books.ro.next == 0 || books.ro.next > 4_294_967_296 {
        return false;
    }
    let mut last = 0;
    for (i, ro_txn) in books.ro.at.iter().enumerate() {
        if i as u64 >= books.ro.count {
            if ro_txn.ticket | ro_txn.epoch != 0 {
                return false;
            }
        } else if ro_txn.ticket <= last
            || ro_txn.ticket >= books.ro.next
            || ro_txn.epoch < lse
            || ro_txn.epoch > lce
        {
            return false;
        } else {
            last = ro_txn.ticket;
        }
    }
    let mut areas: Vec<u64> = books.partitions.at.iter().map(|part| part.area).collect();
    areas.push(books.partitions.spare);
    areas.sort();
    if areas != [0, 1, 2, 3, 4, 5, 6, 7, 8] {
        return false;
    }
    for part in &books.partitions.at {
        if part.rows > 512 || part.entries > 64 {
            return false;
        }
        let mut end = 0;
        let mut rows_of = 0;
        for i in 0..part.entries {
            let entry = store.entries[(part.area * 64 + i) as usize];
            let has_record = (0..books.rw.count as usize).any(|i| books.rw.at[i].epoch == entry.epoch);
            if entry.epoch == 0 || entry.epoch >= ec || entry.epoch > lce && !has_record || entry.end < end {
                return false;
            }
            match entry.mark {
                0 if entry.end == end || entry.epoch == rows_of => return false,
                0 => rows_of = entry.epoch,
                1 => rows_of = 0,
                _ => return false,
            }
            end = entry.end;
        }
        if end != part.rows {
            return false;
        }
    }
    (0..8).all(|p| books.totals[p] == total_again(store, p))
}

/// A lot's total read a second time: the low 32 bits of each row, with each clearing that a page at LCE applies.
fn total_again(store: &Store, p: usize) -> u64 {
    let (part, lce) = (&store.manager.partitions.at[p], store.manager.clock.lce);
    let entries = &store.entries[part.area as usize * 64..][..part.entries as usize];
    let mut total = 0;
    for row in 0..part.rows {
        let at = entries.iter().position(|entry| row < entry.end).expect("the last end is the row count");
        let j = entries[at].epoch;
        let hides = |(place, clearing): (usize, &Entry)| {
            let k = clearing.epoch;
            clearing.mark == CLEARING && k <= lce && (j < k || j == k && at <= place)
        };
        if j <= lce && !entries.iter().enumerate().any(hides) {
            total += store.rows[(part.area * 512 + row) as usize] & 0xffff_ffff;
        }
    }
    total
}

#[test]
fn two_readings_of_sound_agree() {
    let mut rng = Rng::new(31);
    let mut sound = 0;
    let rounds = 60_000;
    let mut base = random_store(&mut rng);
    for round in 0..rounds {
        if round % 20 == 0 {
            base = random_store(&mut rng);
        }
        let mut store = base.clone();
        // One or two words are moved a little, or become another word of the books, or any word.
        for _ in 0..rng.within(1, 2) {
            let mut words = store.manager.words();
            let other = words[rng.below(words.len() as u64) as usize];
            let change = |rng: &mut Rng, word: u64| match rng.below(6) {
                0 => word.wrapping_add(1),
                1 => word.wrapping_sub(1),
                2 => 0,
                3 => other,
                4 => rng.below(3),
                _ => rng.word(),
            };
            if rng.per_mille(100) {
                let at = rng.below(4608) as usize;
                store.rows[at] ^= 1 << rng.below(64);
            } else if rng.per_mille(400) {
                let part = store.manager.partitions.at[rng.below(8) as usize];
                let used = part.entries.clamp(1, 64);
                let at = part.area.min(8) * 64 + rng.below(used);
                let entry = &mut store.entries[at as usize];
                match rng.below(3) {
                    0 => entry.epoch = change(&mut rng, entry.epoch),
                    1 => entry.end = change(&mut rng, entry.end),
                    _ => entry.mark = change(&mut rng, entry.mark),
                }
            } else {
                // Half of the words of the books are places of deps, so the others are taken more often.
                let at = match rng.below(4) {
                    0 => rng.below(3),
                    1 => rng.within(1092, 1190),
                    2 => 3 + 34 * rng.below(32) + rng.pick(&[0, 1, 33]),
                    _ => rng.below(words.len() as u64),
                };
                words[at as usize] = change(&mut rng, words[at as usize]);
                store.manager = Manager::from_words(&words).expect("as many as before");
            }
        }
        assert_eq!(well_formed(&store), sound_again(&store), "round {round}: {:?}", broken_clauses(&store));
        sound += u64::from(well_formed(&store));
    }
    assert!(sound > rounds / 20 && sound < rounds * 19 / 20, "{sound} of {rounds} are sound");
}
