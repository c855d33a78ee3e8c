//! Prints calls a second with and without the test of *sound*, and session lines a second (01, the calls).

use model::call::Call;
use model::histories::{profile, Calls, Lines, Profile, PROFILES};
use model::session::Session;
use model::store::Store;
use std::time::Instant;

const RUNS: u64 = 9;
const HISTORIES: u64 = 20;
const CALLS: u64 = 2_000;
/// Bytes that are enough for every bitmap and every output that a call is lent.
const LENT: usize = 40_000;

fn main() {
    println!("{:<16} {:>14} {:>14}   (calls a second)", "profile", "with test", "without test");
    let mut all = Vec::new();
    for profile in PROFILES {
        let calls = prepared(profile);
        println!("{:<16} {:>14.0} {:>14.0}", profile.name, rate(&calls, false), rate(&calls, true));
        all.extend(calls);
    }
    println!("{:<16} {:>14.0} {:>14.0}", "all", rate(&all, false), rate(&all, true));
    let mixed = profile("mixed").expect("the first profile");
    println!("{:<16} {:>14.0}", "session lines", line_rate(mixed));
}

/// Histories that each start with making new, as one list of calls.
fn prepared(profile: Profile) -> Vec<Call> {
    let mut list = Vec::new();
    for seed in 0..HISTORIES {
        let mut calls = Calls::new(seed, profile);
        let mut store = Store::new(1);
        list.push(Call::New { start: 1 });
        for _ in 0..CALLS {
            let call = calls.next_call(&store);
            let _ = call.run(&mut store, &mut call.lent_bytes());
            list.push(call);
        }
    }
    list
}

/// The best of a few runs, in calls a second.
fn rate(calls: &[Call], trusted: bool) -> f64 {
    let mut best: f64 = 0.0;
    for _ in 0..RUNS {
        let mut store = Store::new(1);
        store.trusted = trusted;
        let mut bytes = vec![0; LENT];
        let mut accepted = 0u64;
        let begun = Instant::now();
        for call in calls {
            let lent = match call {
                Call::Scan { lent, .. } | Call::Save { lent, .. } => *lent,
                _ => 0,
            };
            accepted += u64::from(call.run(&mut store, &mut bytes[..lent]).is_ok());
        }
        let seconds = begun.elapsed().as_secs_f64();
        assert!(accepted > 0);
        best = best.max(calls.len() as f64 / seconds);
    }
    best
}

/// The best of a few runs of the line program on lines in memory, in lines a second.
fn line_rate(profile: Profile) -> f64 {
    let mut lines = Lines::new(1, profile);
    let list: Vec<Vec<u8>> = (0..HISTORIES * CALLS).map(|_| lines.next_line()).collect();
    let mut best: f64 = 0.0;
    for _ in 0..RUNS {
        let mut session = Session::default();
        let begun = Instant::now();
        let printed: usize = list.iter().map(|line| session.answer(line).len()).sum();
        let seconds = begun.elapsed().as_secs_f64();
        assert!(printed > 0);
        best = best.max(list.len() as f64 / seconds);
    }
    best
}
