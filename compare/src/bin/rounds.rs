//! Runs saving and recovery by the static library beside the model. Saves: of stores that histories made, of random ones,
//! of such stores with rows changed that no total counts, of spoilt ones and of areas of wrong lengths, at epochs in
//! range and out of it, with outputs that are just enough, too short and longer. Recoveries, over such stores: of what the
//! library saved, of random files cut after every byte, of files with a corrupt table of contents cut after every byte
//! from there on, and of any bytes. Compared are the number, the values, and every byte of the output, the books and the
//! areas at the end of each call.

use compare::{books_of, by_library, numbers, told, Areas};
use model::call::Call;
use model::check::difference;
use model::files::{any_file, bytes_of, corrupt_file, random_rounds, FLAWS};
use model::histories::{fill_areas, Calls, PROFILES};
use model::random::Rng;
use model::round::CONTENTS;
use model::sound::well_formed;
use model::store::{Manager, Store};
use model::stores::{changed_store, random_store, spoilt_store};
use nizgulk::books::Books;
use nizgulk::calls;
use std::process::ExitCode;

/// Rounds, if no other number is given.
const ROUNDS: u64 = 1_000;
/// Calls of the history that makes a store.
const STEPS: u64 = 60;

/// How often each number was answered by a save and by a recovery, and what was met.
#[derive(Default)]
struct Tally {
    saves: [u64; 12],
    recoveries: [u64; 12],
    bytes_saved: u64,
    /// Recoveries that brought rows.
    with_rows: u64,
    files: u64,
    cuts: u64,
    corrupt_files: u64,
    corrupt_cuts: u64,
    unsound: u64,
}

type Told = Result<(), String>;

/// A store, sound or not, for a save or to recover over.
fn any_store(round: u64, rng: &mut Rng) -> Store {
    match rng.below(8) {
        0 | 1 => {
            let mut calls = Calls::new(round, PROFILES[round as usize % PROFILES.len()]);
            let mut store = calls.first_store().0;
            for _ in 0..STEPS {
                let next = calls.next_call(&store);
                let _ = next.run(&mut store, &mut next.lent_bytes());
            }
            store
        }
        2 | 3 => random_store(rng),
        4 => changed_store(rng).0,
        5 | 6 => spoilt_store(rng).0,
        _ => {
            let mut store = Store::new(1);
            fill_areas(&mut store, rng);
            let words: Vec<u64> = store.manager.words().iter().map(|_| rng.word()).collect();
            store.manager = Manager::from_words(&words).unwrap_or(store.manager);
            store
        }
    }
}

/// Saves by both, and puts what was saved into `saved` where the save was accepted.
fn save(epoch: u64, lent: usize, store: &Store, tally: &mut Tally, saved: &mut Vec<u8>) -> Told {
    let one = Call::Save { epoch, lent };
    let (mut proved, mut plain) = (store.clone(), store.clone());
    let (mut bytes, mut ought) = (one.lent_bytes(), one.lent_bytes());
    let reply = by_library(&one, &mut proved, &mut bytes);
    let expected = numbers(&one.run(&mut plain, &mut ought));
    tally.saves[reply.number.min(11) as usize] += 1;
    tally.bytes_saved += reply.value;
    if told(&reply) != expected {
        return Err(format!("{one:?} answers {:?}, and the model {expected:?}", told(&reply)));
    }
    if let Some(at) = (0..lent).find(|&at| bytes[at] != ought[at]) {
        return Err(format!("{one:?} leaves byte {at} of the output {}, and the model {}", bytes[at], ought[at]));
    }
    if proved != *store || plain != *store {
        return Err(format!("{one:?} changes the store: {}", difference(&proved, &plain)));
    }
    if reply.number == 0 {
        *saved = bytes;
        saved.truncate(reply.value as usize);
    }
    Ok(())
}

/// Saves of a store at some epochs, each with outputs of some lengths. Answers what was saved last.
fn saves(store: &Store, rng: &mut Rng, tally: &mut Tally) -> Result<Vec<u8>, String> {
    let clock = store.manager.clock;
    let sound = well_formed(store);
    let any = if sound { rng.within(clock.lse, clock.lce) } else { rng.word() };
    let mut saved = Vec::new();
    for epoch in [
        0,
        clock.lse,
        any,
        clock.lse.wrapping_sub(1),
        clock.lce.wrapping_add(1),
        clock.lce.wrapping_add(1 << 32),
        clock.lce,
    ] {
        let needed = if sound { store.round_at(epoch).length() } else { CONTENTS };
        let longer = needed + rng.within(1, 50) as usize;
        for lent in [0, CONTENTS - 1, CONTENTS, needed - 1, longer, needed] {
            save(epoch, lent, store, tally, &mut saved)?;
        }
    }
    Ok(saved)
}

/// What a recovery is run over, for many files: a store of the model's and of the library's, and what they were.
struct Over {
    before: Store,
    plain: Store,
    books: Books,
    areas: Areas,
    lent: Areas,
    /// What the model left the last time, in both layouts.
    left: (Store, Books, Areas),
}

impl Over {
    fn new(before: Store) -> Over {
        let (books, areas) = (books_of(&before.manager), Areas::of(&before));
        let left = (before.clone(), books, areas.clone());
        Over { plain: before.clone(), books, lent: areas.clone(), areas, left, before }
    }

    /// Recovers by both. Answers the number.
    fn recover(&mut self, file: &[u8], tally: &mut Tally) -> Result<u64, String> {
        let Over { before, plain, books, areas, lent, left } = self;
        plain.manager = before.manager;
        plain.rows.copy_from_slice(&before.rows);
        plain.entries.copy_from_slice(&before.entries);
        lent.rows.copy_from_slice(&areas.rows);
        lent.entries.copy_from_slice(&areas.entries);
        let expected = plain.recover(file).map_or_else(|refusal| refusal.number(), |()| 0);
        let reply = calls::recover(books, &mut lent.entries, &mut lent.rows, file);
        let answer = (reply.number, reply.value, reply.second, reply.from, reply.count);
        if answer != (expected, 0, 0, 0, 0) {
            return Err(format!("a file of {} bytes is answered {answer:?}, and by the model {expected}", file.len()));
        }
        if *plain != left.0 {
            *left = (plain.clone(), books_of(&plain.manager), Areas::of(plain));
        }
        if reply.books != left.1 || lent.rows != left.2.rows || lent.entries != left.2.entries {
            let mut proved = plain.clone();
            lent.clone().put_back(&reply.books, &mut proved);
            return Err(format!("a file of {} bytes is recovered to {}", file.len(), difference(&proved, plain)));
        }
        tally.recoveries[expected as usize] += 1;
        tally.with_rows += u64::from(expected == 0 && plain.manager.partitions.at.iter().any(|part| part.rows > 0));
        tally.unsound += u64::from(expected == 0 && !well_formed(before));
        Ok(expected)
    }
}

/// A random file, whole and cut after every byte of it.
fn every_cut(over: &mut Over, rng: &mut Rng, tally: &mut Tally) -> Told {
    let file = bytes_of(&random_rounds(rng, 4));
    tally.files += 1;
    for cut in 0..=file.len() {
        let number = over.recover(&file[..cut], tally)?;
        if number == 11 {
            return Err(format!("a cut after {cut} of {} bytes is refused by 11", file.len()));
        }
        tally.cuts += 1;
    }
    Ok(())
}

/// A file with one corrupt table of contents, whole and cut after every byte from there on.
fn every_corrupt_cut(over: &mut Over, rng: &mut Rng, tally: &mut Tally) -> Told {
    let rounds = random_rounds(rng, 4);
    for flaw in &FLAWS {
        let at = rng.below(rounds.len() as u64) as usize;
        let Some((file, from)) = corrupt_file(&rounds, at, flaw, rng) else { continue };
        tally.corrupt_files += 1;
        for cut in from..=file.len() {
            let number = over.recover(&file[..cut], tally)?;
            // Areas of a wrong length are refused before the file is looked at.
            let due = if cut < from + CONTENTS { 0 } else { 11 };
            if number != due && number != 5 {
                return Err(format!("{}, cut after {cut} of {} bytes: {number}", flaw.0, file.len()));
            }
            tally.corrupt_cuts += 1;
        }
    }
    Ok(())
}

fn one_round(round: u64, tally: &mut Tally) -> Told {
    let mut rng = Rng::new(round);
    let saved = saves(&any_store(round, &mut rng), &mut rng, tally)?;
    let mut over = Over::new(any_store(round + 1, &mut rng));
    // What was saved, once and twice, whole and cut.
    let twice = [&saved[..], &saved].concat();
    for file in [&saved, &twice] {
        let any = rng.within(0, file.len() as u64) as usize;
        for cut in [file.len(), file.len().saturating_sub(1), any] {
            over.recover(&file[..cut], tally)?;
        }
    }
    for _ in 0..20 {
        over.recover(&any_file(&mut rng, &[], 500), tally)?;
    }
    // Bytes of which most are 0, so that epochs and counts are small now and then.
    for _ in 0..20 {
        let rare = rng.pick(&[10, 60, 300, 1000]);
        let file: Vec<u8> =
            (0..rng.within(0, 160)).map(|_| if rng.per_mille(rare) { rng.any() as u8 } else { 0 }).collect();
        over.recover(&file, tally)?;
    }
    if round % 16 == 0 {
        every_cut(&mut over, &mut rng, tally)?;
    }
    if round % 32 == 8 {
        every_corrupt_cut(&mut over, &mut rng, tally)?;
    }
    Ok(())
}

fn main() -> ExitCode {
    let rounds = std::env::args().nth(1).and_then(|word| word.parse().ok()).unwrap_or(ROUNDS);
    let mut tally = Tally::default();
    for round in 0..rounds {
        if let Err(what) = one_round(round, &mut tally) {
            println!("round {round}: {what}");
            return ExitCode::FAILURE;
        }
    }
    let Tally { saves, recoveries, bytes_saved, with_rows, files, cuts, corrupt_files, corrupt_cuts, unsound } = tally;
    let (saved, recovered): (u64, u64) = (saves.iter().sum(), recoveries.iter().sum());
    let met = format!(
        "{bytes_saved} bytes saved; {with_rows} recoveries with rows, {unsound} over an unsound store; {cuts} cuts of \
         {files} files, {corrupt_cuts} of {corrupt_files} corrupt ones"
    );
    let strong = [bytes_saved, with_rows, unsound, files, cuts, corrupt_files, corrupt_cuts].iter().all(|&met| met > 0)
        && [0, 3, 4, 5].iter().all(|&number| saves[number] > 0)
        && [0, 5, 11].iter().all(|&number| recoveries[number] > 0);
    println!("rounds: {saved} saves and {recovered} recoveries agree; by number {saves:?} and {recoveries:?}; {met}");
    if !strong {
        println!("the comparison is too weak");
        return ExitCode::FAILURE;
    }
    ExitCode::SUCCESS
}
