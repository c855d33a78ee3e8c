//! Runs single calls of the static library, for valgrind to count their instructions (tools/instructions), and prints a
//! line for each in the order they are run: on which store, the function, 01's number, the bytes that it copied and
//! cleared, and the seed. On an empty store, on full ones with short and with long entries, and on the stores of a
//! search: histories, any well-formed stores, and full ones. Nothing else here calls the library.

#[path = "../counted.rs"]
mod counted;

use compare::prepared::{any_calls, dense, each_call, empty, kind, laden, NAMES};
use compare::{books_of, measured, Areas};
use counted::counted;
use model::call::Call;
use model::histories::{Calls, PROFILES};
use model::store::Store;
use model::stores::random_store;

/// Stores of the search, if no other number is given.
const ROUNDS: u64 = 240;
/// Calls of the history that makes a store.
const STEPS: u64 = 400;

fn one_call(place: &str, one: &Call, store: &Store, seed: u64) {
    let (mut areas, mut bitmap) = (Areas::of(store), one.lent_bytes());
    let books = books_of(&store.manager);
    let (number, bytes, _) = counted(|| measured(one, &books, areas.lend(&mut bitmap)));
    println!("{place} {} {number} {bytes} {seed}", NAMES[kind(one)]);
}

/// What a history left.
fn after_a_history(calls: &mut Calls) -> Store {
    let mut store = calls.first_store().0;
    for _ in 0..STEPS {
        let next = calls.next_call(&store);
        let _ = next.run(&mut store, &mut next.lent_bytes());
    }
    store
}

fn main() {
    let rounds = std::env::args().nth(1).and_then(|word| word.parse().ok()).unwrap_or(ROUNDS);
    for (place, store) in [("empty", empty()), ("short", laden(63, 8)), ("long", laden(3, 168))] {
        for one in &each_call(&store) {
            one_call(place, one, &store, 0);
        }
    }
    for seed in 0..rounds {
        let mut calls = Calls::new(seed, PROFILES[seed as usize % PROFILES.len()]);
        let store = match seed % 4 {
            0 => after_a_history(&mut calls),
            1 => random_store(&mut calls.rng),
            other => dense(&mut calls.rng, other == 3),
        };
        for one in any_calls(&store, &mut calls.rng) {
            one_call("search", &one, &store, seed);
        }
    }
}
