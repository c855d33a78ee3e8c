//! Runs the proved store's calls, by its static library, beside the model: on stores that histories made, on random
//! well-formed stores that no history made, on such stores with rows changed that no total counts, on stores spoilt in
//! one field, and on areas of wrong lengths. Compared are the number, the values, the part that a purge answers with,
//! and every word of the books, the areas and the bitmap or output at the end of each call.

use compare::{by_library, live_part, numbers, obeys_own_clearing, told, Rounds, Totals};
use model::call::Call;
use model::check::{difference, NUMBERS};
use model::histories::{Calls, PROFILES};
use model::partition::Entry;
use model::random::Rng;
use model::sound::well_formed;
use model::store::Store;
use model::stores::random_store;
use std::process::ExitCode;

/// Rounds, if no other number is given.
const ROUNDS: u64 = 20_000;
/// Calls on one store.
const CALLS: u64 = 12;

/// How often each number was answered, how many rows the parts had that purges answered with, how many commits and
/// rollbacks named a load, from how many scans by a load its own clearing hid rows, and what was met of totals and of
/// rounds.
#[derive(Default)]
struct Tally {
    numbers: [u64; NUMBERS],
    part_rows: usize,
    named: u64,
    own_clearings: u64,
    totals: Totals,
    rounds: Rounds,
}

/// Runs one call on both, and says where they differ.
fn differs(one: &Call, store: &mut Store, tally: &mut Tally) -> Result<(), String> {
    let mut proved = store.clone();
    let mut bytes = one.lent_bytes();
    let mut expected_bytes = bytes.clone();
    let before = store.manager;
    let reply = by_library(one, &mut proved, &mut bytes);
    let answer = one.run(store, &mut expected_bytes);
    let expected = numbers(&answer);
    tally.numbers[reply.number.min(NUMBERS as u64 - 1) as usize] += 1;
    tally.part_rows += reply.count;
    if let Call::Commit { .. } | Call::Rollback { .. } = one {
        tally.named += u64::from(reply.second > 0);
    }
    tally.own_clearings += u64::from(reply.number == 0 && obeys_own_clearing(one, store));
    tally.totals.note(one, &before, &store.manager);
    if expected.0 == 0 {
        tally.rounds.note(one, expected.1, &store.manager);
    }
    if told(&reply) != expected {
        return Err(format!("answers {:?}, and the model {expected:?}", told(&reply)));
    }
    if proved != *store {
        return Err(difference(&proved, store));
    }
    if bytes != expected_bytes {
        return Err("the bitmaps or outputs differ".to_string());
    }
    let part = proved.rows.get(reply.from..reply.from + reply.count);
    if part != Some(live_part(&answer, store)) {
        return Err(format!("answers {} rows from {} on, and the model another part", reply.count, reply.from));
    }
    Ok(())
}

/// A store for this round: what a history made, or any well-formed one, or one that is spoilt or of a wrong length.
fn store_for(round: u64, calls: &mut Calls, totals: &mut Totals) -> Store {
    let rng = &mut calls.rng;
    match round % 4 {
        0 => calls.first_store().0,
        1 if round % 8 == 1 => random_store(rng),
        1 => totals.changed_store(rng),
        2 => totals.spoilt_store(rng),
        _ => wrong_length(rng),
    }
}

fn wrong_length(rng: &mut Rng) -> Store {
    let mut store = random_store(rng);
    match rng.below(4) {
        0 => drop(store.rows.pop()),
        1 => store.rows.push(0),
        2 => drop(store.entries.pop()),
        _ => store.entries.push(Entry::default()),
    }
    if rng.per_mille(100) {
        store.rows.clear();
    }
    if rng.per_mille(100) {
        store.entries.clear();
    }
    store
}

fn main() -> ExitCode {
    let rounds = std::env::args().nth(1).and_then(|word| word.parse().ok()).unwrap_or(ROUNDS);
    let mut tally = Tally::default();
    for round in 0..rounds {
        let profile = PROFILES[(round / 4) as usize % PROFILES.len()];
        let mut calls = Calls::new(round, profile);
        let mut store = store_for(round, &mut calls, &mut tally.totals);
        // Calls are drawn for a well-formed store.
        let other = random_store(&mut calls.rng);
        for _ in 0..CALLS {
            let next = calls.next_call(if well_formed(&store) { &store } else { &other });
            if let Err(what) = differs(&next, &mut store, &mut tally) {
                println!("round {round}, {}: {next:?}: {what}", profile.name);
                return ExitCode::FAILURE;
            }
        }
    }
    if let Some(number) = tally.numbers.iter().position(|&count| count == 0) {
        println!("no call was answered {number}: the comparison is too weak");
        return ExitCode::FAILURE;
    }
    let Tally { numbers, part_rows, named, own_clearings, totals, rounds: saved } = tally;
    let met = format!("{part_rows} rows in parts, {named} loads named, {own_clearings} scans with own clearings");
    let met = format!("{met}; {totals}; {saved}");
    if part_rows == 0 || named == 0 || own_clearings == 0 || totals.is_weak() || saved.is_weak() {
        println!("{met}: the comparison is too weak");
        return ExitCode::FAILURE;
    }
    println!("library: {} calls on {rounds} stores agree; by number {numbers:?}; {met}", rounds * CALLS);
    ExitCode::SUCCESS
}
