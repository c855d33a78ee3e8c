//! Random files of rounds, cut after every byte, corrupt, and of any bytes; saves and recoveries of stores (02, (v)).

use model::call::{number_of, Call, LENT_FILL};
use model::check::{difference, Checked, Coverage};
use model::files::{bytes_of, corrupt_file, random_rounds, FLAWS};
use model::histories::{fill_areas, Calls, PROFILES};
use model::partition::{rows_of, Entry, ROWS};
use model::random::Rng;
use model::refusal::Refusal;
use model::round::Round;
use model::sound::{lengths_right, well_formed};
use model::store::{Manager, Store};
use model::stores::{random_store, spoilt_store};
use model::txn::RoTable;
use model::visible::Reader;

/// What each lot shows.
type Shown = [Vec<u64>; 8];

/// What a recovery makes of a store where the round is the last whole one, written down plainly.
fn recovered(before: &Store, round: Option<&Round>) -> Store {
    let mut store = before.clone();
    let Some(round) = round else {
        store.manager = Manager::starting_at(1);
        return store;
    };
    let books = &mut store.manager;
    *books = Manager::starting_at(1);
    (books.clock.ec, books.clock.lce, books.clock.lse) = (round.epoch + 1, round.epoch, round.epoch);
    for (p, lot) in round.lots.iter().enumerate() {
        for (i, &row) in lot.iter().enumerate() {
            store.rows[512 * p + i] = row;
            books.totals[p] += row % (1 << 32);
        }
        if !lot.is_empty() {
            let end = lot.len() as u64;
            store.entries[64 * p] = Entry { epoch: round.epoch, end, mark: ROWS };
            books.partitions.at[p].rows = end;
            books.partitions.at[p].entries = 1;
        }
    }
    store
}

/// A store with any words that may stand where a recovery is asked for: sound or not, but of the right lengths.
fn any_store(rng: &mut Rng) -> Store {
    loop {
        let store = match rng.below(3) {
            0 => random_store(rng),
            1 => spoilt_store(rng).0,
            _ => {
                let mut store = Store::new(1);
                fill_areas(&mut store, rng);
                let words: Vec<u64> = store.manager.words().iter().map(|_| rng.word()).collect();
                store.manager = Manager::from_words(&words).expect("as many as before");
                store
            }
        };
        if lengths_right(&store) {
            return store;
        }
    }
}

/// Puts a store back to what it was, without new memory.
fn put_back(store: &mut Store, before: &Store) {
    store.manager = before.manager;
    store.rows.copy_from_slice(&before.rows);
    store.entries.copy_from_slice(&before.entries);
}

/// The rows that a page at this epoch is shown, by scans. The pages that are open make room for it.
fn page_at(store: &Store, epoch: u64) -> Shown {
    let mut store = store.clone();
    store.manager.ro = RoTable { next: 1, ..RoTable::default() };
    // The value 0 means LCE, so that a page at epoch 0 cannot be asked for where LCE is another.
    if epoch == 0 && store.manager.clock.lce > 0 {
        return Shown::default();
    }
    let ticket = store.open(epoch).expect("a page");
    std::array::from_fn(|p| {
        let mut bitmap = [0; 64];
        let scanned = store.scan(Reader::Ro(ticket), p as u64, &mut bitmap).expect("a scan");
        let rows = rows_of(&store.manager.partitions.at[p], &store.rows);
        let ones = (0..scanned.rows as usize).filter(|row| bitmap[row / 8] >> (row % 8) & 1 == 1);
        ones.map(|row| rows[row]).collect()
    })
}

#[test]
fn every_cut_is_the_last_whole_round() {
    let mut rng = Rng::new(505);
    let (mut files, mut cuts, mut without, mut inside) = (0, 0, 0, 0);
    while cuts < 400_000 {
        files += 1;
        let rounds = random_rounds(&mut rng, 5);
        let file = bytes_of(&rounds);
        let before = any_store(&mut rng);
        let mut store = before.clone();
        let mut from = 0;
        for whole in 0..=rounds.len() {
            let ought = recovered(&before, rounds[..whole].last());
            assert!(well_formed(&ought));
            let to = rounds.get(whole).map_or(file.len() + 1, |next| from + next.length());
            for cut in from..to {
                put_back(&mut store, &before);
                assert_eq!(store.recover(&file[..cut]), Ok(()), "{cut} of {} bytes", file.len());
                assert!(store == ought, "{cut} of {} bytes: {}", file.len(), difference(&store, &ought));
                cuts += 1;
                without += u64::from(whole == 0);
                inside += u64::from(whole > 0 && cut > from);
            }
            // At the seams the second reading and the ledger are asked, too.
            for cut in [from, from + 23, from + 24, to - 1] {
                if cut < to {
                    let call = Call::Recover { file: file[..cut].to_vec() };
                    let mut checked = Checked::without_ledger(before.clone());
                    checked.call(&call).unwrap();
                    assert!(checked.store == ought);
                }
            }
            from = to;
        }
    }
    println!(
        "{files} files, {cuts} cuts, {without} before the first round ends, {inside} inside a later one"
    );
    assert!(files > 50 && without > 50_000 && inside > 50_000);
}

#[test]
fn a_corrupt_file_is_refused_whole() {
    let mut rng = Rng::new(606);
    for (name, flaw) in FLAWS {
        // By first or later round, and by a body that is cut or not.
        let mut refused = [[0; 2]; 2];
        let (mut files, mut accepted) = (0, 0);
        while files < 120 {
            let rounds = random_rounds(&mut rng, 5);
            let at = rng.below(rounds.len() as u64) as usize;
            let Some((file, from)) = corrupt_file(&rounds, at, &(name, flaw), &mut rng) else { continue };
            files += 1;
            let before = any_store(&mut rng);
            let ought = recovered(&before, rounds[..at].last());
            let counts = file[from + 8..from + 24].chunks(2);
            let rows: usize = counts.map(|two| usize::from(two[0]) + 256 * usize::from(two[1])).sum();
            let mut store = before.clone();
            // From its 24th byte on the table of contents is judged; before that it is a cut.
            for cut in from..=file.len() {
                let answer = store.recover(&file[..cut]);
                if cut < from + 24 {
                    assert_eq!(answer, Ok(()), "{name}, {cut} of {} bytes", file.len());
                    assert!(store == ought);
                    put_back(&mut store, &before);
                    accepted += 1;
                } else {
                    assert_eq!(answer, Err(Refusal::Corrupt), "{name}, {cut} of {} bytes", file.len());
                    // Comparing all of it each time would be most of the work.
                    assert!(store.manager == before.manager);
                    refused[usize::from(at > 0)][usize::from(cut < from + 24 + 8 * rows)] += 1;
                }
            }
            assert!(store == before, "{name} wrote");
            let call = Call::Recover { file };
            let answer = Checked::without_ledger(before).call(&call).unwrap().answer;
            assert_eq!(number_of(&answer), 11);
        }
        println!("{name}: {files} files, {refused:?} refused, {accepted} cut before it is judged");
        // There is no round before the first one.
        let first = if name == "an epoch below the round before" { 0 } else { 1_000 };
        assert!(refused[0].iter().all(|&count| count >= first), "{name}: {refused:?}");
        assert!(refused[1].iter().all(|&count| count >= 1_000), "{name}: {refused:?}");
    }
}

#[test]
fn any_bytes() {
    let mut rng = Rng::new(707);
    let mut coverage = Coverage::default();
    let before = random_store(&mut rng);
    for _ in 0..30_000 {
        // Bytes of which most are 0, so that epochs and counts are small now and then.
        let rare = rng.pick(&[10, 60, 300, 1000]);
        let length = rng.within(0, 160);
        let file = (0..length).map(|_| if rng.per_mille(rare) { rng.any() as u8 } else { 0 }).collect();
        let mut checked = Checked::without_ledger(before.clone());
        checked.call(&Call::Recover { file }).unwrap();
        coverage.add(&checked.coverage);
    }
    let [accepted, corrupt] = [0, 11].map(|number| coverage.numbers[12][number]);
    println!("{accepted} accepted, {corrupt} corrupt");
    assert!(accepted > 5_000 && corrupt > 5_000);
}

#[test]
fn one_byte_changed() {
    // Every byte of a table of contents, changed in each bit: what comes is what the second reading says.
    let mut rng = Rng::new(808);
    let mut coverage = Coverage::default();
    let before = random_store(&mut rng);
    for _ in 0..25 {
        let rounds = random_rounds(&mut rng, 3);
        let file = bytes_of(&rounds);
        let mut from = 0;
        for round in &rounds {
            for at in from..from + 24 {
                for bit in 0..8 {
                    let mut file = file.clone();
                    file[at] ^= 1 << bit;
                    let mut checked = Checked::without_ledger(before.clone());
                    checked.call(&Call::Recover { file }).unwrap();
                    coverage.add(&checked.coverage);
                }
            }
            from += round.length();
        }
    }
    let [accepted, corrupt] = [0, 11].map(|number| coverage.numbers[12][number]);
    println!("{accepted} accepted, {corrupt} corrupt");
    assert!(accepted > 1_000 && corrupt > 1_000);
}

#[test]
fn a_recovered_page_shows_what_the_page_showed() {
    let mut rng = Rng::new(909);
    let (mut rounds, mut below_lce, mut rows, mut unsound) = (0, 0, 0, 0);
    for round in 0..900 {
        // A store that a history left, or any that is sound.
        let store = if round % 3 == 0 {
            random_store(&mut rng)
        } else {
            let mut calls = Calls::new(round, PROFILES[round as usize % PROFILES.len()]);
            let mut store = calls.first_store().0;
            for _ in 0..rng.within(20, 250) {
                let call = calls.next_call(&store);
                let _ = call.run(&mut store, &mut call.lent_bytes());
            }
            store
        };
        let clock = store.manager.clock;
        let any = rng.within(clock.lse, clock.lce);
        for epoch in [clock.lse, any, clock.lce] {
            let shown = page_at(&store, epoch);
            let length = 24 + 8 * shown.iter().map(Vec::len).sum::<usize>();
            let mut output = vec![LENT_FILL; length + 5];
            assert_eq!(store.save(epoch, &mut output), Ok(length as u64));
            assert_eq!(output[length..], [LENT_FILL; 5]);
            let file = &output[..length];
            let mut again = any_store(&mut rng);
            unsound += u64::from(!well_formed(&again));
            assert_eq!(again.recover(file), Ok(()));
            assert!(well_formed(&again));
            assert_eq!(page_at(&again, again.manager.clock.lce), shown);
            let mut second = vec![0; length];
            assert_eq!(again.save(epoch, &mut second), Ok(length as u64));
            assert_eq!(second, file);
            if epoch == clock.lce {
                assert_eq!(again.manager.totals, store.manager.totals);
            }
            rounds += 1;
            below_lce += u64::from(epoch < clock.lce);
            rows += shown.iter().map(Vec::len).sum::<usize>();
        }
    }
    println!(
        "{rounds} rounds, {below_lce} below LCE, {rows} rows, {unsound} recovered over an unsound store"
    );
    assert!(below_lce > 200 && rows > 100_000 && unsound > 500);
}

/// A history whose saves go to one file, one behind the other; what each lot showed then stands beside each.
fn a_saved_history(seed: u64) -> (Vec<u8>, Vec<(u64, Shown)>) {
    let mut calls = Calls::new(seed, PROFILES[seed as usize % PROFILES.len()]);
    let mut store = Store::new(1 + seed % 3);
    let (mut file, mut saved) = (Vec::new(), Vec::new());
    let mut last = 0;
    for at in 1..=400 {
        let call = calls.next_call(&store);
        // A new history would begin a file of its own.
        if matches!(call, Call::New { .. } | Call::Recover { .. } | Call::Save { .. }) {
            continue;
        }
        let _ = call.run(&mut store, &mut call.lent_bytes());
        let clock = store.manager.clock;
        if at % 40 == 0 && last <= clock.lce {
            let epoch = calls.rng.within(clock.lse.max(last), clock.lce);
            let shown = page_at(&store, epoch);
            let from = file.len();
            file.resize(from + 40_000, LENT_FILL);
            let written = store.save(epoch, &mut file[from..]).expect("an epoch in range") as usize;
            assert!(file[from + written..].iter().all(|&byte| byte == LENT_FILL));
            file.truncate(from + written);
            saved.push((epoch, shown));
            last = epoch;
        }
    }
    (file, saved)
}

#[test]
fn a_history_loses_its_current() {
    let mut rng = Rng::new(111);
    let (mut cuts, mut rounds) = (0, 0);
    for seed in 0..66 {
        let (file, saved) = a_saved_history(seed);
        let ends: Vec<usize> = saved
            .iter()
            .scan(0, |end, (_, shown)| {
                *end += 24 + 8 * shown.iter().map(Vec::len).sum::<usize>();
                Some(*end)
            })
            .collect();
        assert_eq!(ends.last(), Some(&file.len()));
        rounds += ends.len();
        let mut lost: Vec<usize> =
            ends.iter().flat_map(|end| [end - 1, *end, (end + 24).min(file.len())]).collect();
        lost.extend((0..60).map(|_| rng.within(0, file.len() as u64) as usize));
        for cut in lost {
            let mut store = any_store(&mut rng);
            assert_eq!(store.recover(&file[..cut]), Ok(()));
            let whole = ends.iter().filter(|&&end| end <= cut).count();
            let (epoch, shown) = whole.checked_sub(1).map_or((0, Shown::default()), |at| saved[at].clone());
            assert_eq!((store.manager.clock.ec, store.manager.clock.lce), (epoch + 1, epoch));
            assert_eq!(page_at(&store, epoch), shown, "seed {seed}, cut after {cut}");
            cuts += 1;
        }
    }
    println!("{rounds} rounds saved, {cuts} cuts");
    assert!(rounds > 500 && cuts > 5_000);
}
