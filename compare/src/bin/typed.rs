//! Runs the calls of `nizgulk::Store` beside the model, on stores that histories made and on random and spoilt ones.
//! Compared are the number, the values, the rows that a scan hands out, the part that a purge does, every byte of the
//! output of a save, and every word of the store at the end of each call.

use compare::{books_of, live_part, numbers, obeys_own_clearing, Areas, Rounds, Totals};
use model::call::{Answer, Call};
use model::check::NUMBERS;
use model::histories::{Calls, PROFILES};
use model::partition::rows_of;
use model::sound::well_formed;
use model::store::Store;
use model::stores::random_store;
use model::visible::Reader;
use nizgulk::limits::BITMAP_MAX;
use nizgulk::{Closed, Epoch, Refusal, Ticket};
use std::process::ExitCode;

/// Rounds, if no other number is given.
const ROUNDS: u64 = 3_000;
/// Calls on one store.
const CALLS: u64 = 24;

/// The values that a call answers, and the rows that it hands out.
type Told = ((u64, u64), Vec<u64>);

/// What a commit or rollback answers.
fn closed(closed: Closed) -> Told {
    ((closed.lce.get(), closed.oldest.map_or(0, Epoch::get)), Vec::new())
}

/// What `nizgulk::Store` answers. `output` is what a save is lent.
fn typed(one: &Call, store: &mut nizgulk::Store, output: &mut [u8]) -> Result<Told, Refusal> {
    let value = match one {
        Call::New { start } => store.create(Epoch::new(*start)).map(|()| 0)?,
        Call::Begin => store.begin()?.get(),
        Call::Append { epoch, partition, rows } => store.append(Epoch::new(*epoch), *partition, rows)? as u64,
        Call::Clear { epoch, partition } => store.clear(Epoch::new(*epoch), *partition)? as u64,
        Call::Commit { epoch } => return store.commit(Epoch::new(*epoch)).map(closed),
        Call::Rollback { epoch } => return store.roll_back(Epoch::new(*epoch)).map(closed),
        Call::Open { epoch: 0 } => store.begin_ro(None)?.get(),
        Call::Open { epoch } => store.begin_ro(Epoch::new(*epoch))?.get(),
        Call::Close { ticket } => store.end_ro(Ticket::new(*ticket))? as u64,
        Call::MoveLse { target: 0 } => store.advance_lse(None)?.get(),
        Call::MoveLse { target } => store.advance_lse(Epoch::new(*target))?.get(),
        Call::Purge { partition } => {
            let purged = store.purge(*partition)?;
            return Ok(((u64::from(purged.rewritten), 0), purged.rows.to_vec()));
        }
        Call::Scan { reader, partition, .. } => {
            let scan = match reader {
                Reader::Rw(epoch) => store.scan(Epoch::new(*epoch), *partition)?,
                Reader::Ro(ticket) => store.scan(Ticket::new(*ticket), *partition)?,
            };
            return Ok(((scan.row_count() as u64, scan.len() as u64), scan.collect()));
        }
        Call::Save { epoch, .. } => store.save(Epoch::new(*epoch), output)? as u64,
        Call::Recover { file } => store.recover(file).map(|()| 0)?,
    };
    Ok(((value, 0), Vec::new()))
}

/// What is lent for the call. A scan of the crate's has a bitmap for every row.
fn lent_to(one: &Call) -> Vec<u8> {
    match one {
        Call::Scan { .. } => vec![0; BITMAP_MAX],
        _ => one.lent_bytes(),
    }
}

/// What the model answers.
fn expected(one: &Call, store: &mut Store, lent: &mut [u8]) -> Result<Told, u64> {
    let answer = one.run(store, lent);
    let rows = match (one, &answer) {
        (Call::Scan { partition, .. }, Ok(Answer::Scanned(_))) => {
            let rows = rows_of(&store.manager.partitions.at[*partition as usize], &store.rows);
            let shown = |at: usize| lent[at / 8] >> (at % 8) & 1 == 1;
            rows.iter().enumerate().filter(|(at, _)| shown(*at)).map(|(_, row)| *row).collect()
        }
        _ => live_part(&answer, store).to_vec(),
    };
    match numbers(&answer) {
        (0, value, second) => Ok(((value, second), rows)),
        (number, ..) => Err(number),
    }
}

/// The model's store as the crate has it, if its areas have the right lengths.
fn typed_of(store: &Store) -> Option<nizgulk::Store> {
    let Areas { rows, entries } = Areas::of(store);
    Some(nizgulk::Store::from_parts(books_of(&store.manager), entries.try_into().ok()?, rows.try_into().ok()?))
}

/// How often each number was answered, how many rows scans and purges handed out, how many commits and rollbacks named
/// a load, from how many scans by a load its own clearing hid rows, and what was met of totals and of rounds.
#[derive(Default)]
struct Tally {
    numbers: [u64; NUMBERS],
    scanned: usize,
    purged: usize,
    named: u64,
    own_clearings: u64,
    totals: Totals,
    rounds: Rounds,
}

/// Runs one call on both, and says where they differ.
fn differs(one: &Call, proved: &mut nizgulk::Store, store: &mut Store, tally: &mut Tally) -> Result<(), String> {
    let (mut output, mut ought_output) = (lent_to(one), lent_to(one));
    let told = typed(one, proved, &mut output).map_err(Refusal::number);
    let before = store.manager;
    let ought = expected(one, store, &mut ought_output);
    tally.totals.note(one, &before, &store.manager);
    if told != ought {
        return Err(format!("answers {told:?}, and the model {ought:?}"));
    }
    if matches!(one, Call::Save { .. }) && output != ought_output {
        return Err("leaves another output than the model".to_string());
    }
    if typed_of(store).as_ref() != Some(&*proved) {
        return Err("leaves another store than the model".to_string());
    }
    match (one, told) {
        (_, Err(number)) => tally.numbers[number as usize] += 1,
        (one, Ok(((value, second), rows))) => {
            tally.numbers[0] += 1;
            tally.rounds.note(one, value, &store.manager);
            tally.own_clearings += u64::from(obeys_own_clearing(one, store));
            match one {
                Call::Scan { .. } => tally.scanned += rows.len(),
                Call::Commit { .. } | Call::Rollback { .. } => tally.named += u64::from(second > 0),
                _ => tally.purged += rows.len(),
            }
        }
    }
    Ok(())
}

fn main() -> ExitCode {
    let rounds = std::env::args().nth(1).and_then(|word| word.parse().ok()).unwrap_or(ROUNDS);
    let mut tally = Tally::default();
    for round in 0..rounds {
        let profile = PROFILES[(round / 3) as usize % PROFILES.len()];
        let mut calls = Calls::new(round, profile);
        let mut store = match round % 3 {
            0 => calls.first_store().0,
            1 if round % 6 == 1 => random_store(&mut calls.rng),
            1 => tally.totals.changed_store(&mut calls.rng),
            _ => tally.totals.spoilt_store(&mut calls.rng),
        };
        let other = random_store(&mut calls.rng);
        let Some(mut proved) = typed_of(&store) else { continue };
        for _ in 0..CALLS {
            let next = calls.next_call(if well_formed(&store) { &store } else { &other });
            if let Err(what) = differs(&next, &mut proved, &mut store, &mut tally) {
                println!("round {round}, {}: {next:?}: {what}", profile.name);
                return ExitCode::FAILURE;
            }
        }
    }
    // 3 is met by saves alone: the crate's own bitmap is always long enough.
    if tally.numbers.contains(&0) {
        println!("by number {:?}: the comparison is too weak", tally.numbers);
        return ExitCode::FAILURE;
    }
    let Tally { numbers, scanned, purged, named, own_clearings, totals, rounds: saved } = tally;
    let rows = format!("{scanned} rows scanned, {purged} in parts");
    let met = format!("{rows}, {named} loads named, {own_clearings} scans with own clearings; {totals}; {saved}");
    if scanned == 0 || purged == 0 || named == 0 || own_clearings == 0 || totals.is_weak() || saved.is_weak() {
        println!("{met}: the comparison is too weak");
        return ExitCode::FAILURE;
    }
    println!("typed: {} calls agree; by number {numbers:?}; {met}", numbers.iter().sum::<u64>());
    ExitCode::SUCCESS
}
