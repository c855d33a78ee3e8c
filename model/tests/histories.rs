//! Random histories with every check after every call, and what they must have met (01, the calls; 02, (v)).

use model::call::CALL_NAMES;
use model::check::{run_history, run_lines, Checks, Coverage, Edge};
use model::histories::PROFILES;

/// Runs histories of `length` calls, all profiles in turn, until each of two threads has done its half.
fn histories(total: u64, length: u64, first_seed: u64) -> Coverage {
    let threads: Vec<_> = (0..2)
        .map(|half| {
            std::thread::spawn(move || {
                let mut coverage = Coverage::default();
                let mut seed = first_seed + half;
                while coverage.calls < total / 2 {
                    for profile in PROFILES {
                        coverage.add(&run_history(seed, profile, length, Checks::ALL).unwrap());
                    }
                    seed += 2;
                }
                coverage
            })
        })
        .collect();
    let mut coverage = Coverage::default();
    for thread in threads {
        coverage.add(&thread.join().expect("a history failed"));
    }
    coverage
}

fn told(coverage: &Coverage) {
    let Coverage { calls, shown, saved, .. } = coverage;
    println!("{calls} calls, {shown} scans and {saved} saves compared with the ledger");
    for (name, numbers) in CALL_NAMES.iter().zip(&coverage.numbers) {
        println!("{name}: {numbers:?} by number");
    }
    for edge in Edge::ALL {
        println!("{edge:?} {}", coverage.met(edge));
    }
}

#[test]
fn three_hundred_thousand_calls() {
    let coverage = histories(300_000, 500, 1);
    told(&coverage);
    assert!(coverage.calls >= 300_000);
    // Number 5 has no place in a history; the spoilt stores meet it.
    let missing = coverage.missing(&[5]);
    assert!(missing.is_empty(), "never met: {missing:#?}");
}

#[test]
#[ignore = "takes long: run with --ignored"]
fn ten_million_calls() {
    let coverage = histories(10_000_000, 1000, 1_000_000);
    told(&coverage);
    assert!(coverage.calls >= 10_000_000);
    assert!(coverage.missing(&[5]).is_empty());
}

#[test]
fn random_lines() {
    for profile in PROFILES {
        run_lines(7, profile, 1500).unwrap();
    }
}
