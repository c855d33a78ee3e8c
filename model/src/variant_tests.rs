//! Each wrong reading must be told from the right one (01, "Where hands go wrong" and "Agreed"; 02, (i) to (iii), (v)).

use crate::cases::CASES;
use crate::check::{run_history, Checks};
use crate::histories::PROFILES;
use crate::variant::{choose, Variant};
use std::panic::catch_unwind;

/// The first fixed case that fails, if any. A panic is a failure too.
fn told_by_cases() -> Option<String> {
    for (name, case) in CASES {
        match catch_unwind(case) {
            Ok(Ok(())) => {}
            Ok(Err(_)) => return Some(name.to_string()),
            Err(_) => return Some(format!("{name}, by a panic")),
        }
    }
    None
}

/// The first random history that fails, if any.
fn told_by_histories(checks: Checks, seeds: u64) -> Option<String> {
    for seed in 0..seeds {
        for profile in PROFILES {
            match catch_unwind(|| run_history(seed, profile, 400, checks)) {
                Ok(Ok(_)) => {}
                Ok(Err(what)) => return Some(what.chars().take(150).collect()),
                Err(_) => return Some(format!("{} seed {seed}, by a panic", profile.name)),
            }
        }
    }
    None
}

/// Histories of all profiles for so many seeds are tried for each wrong reading.
const SEEDS: u64 = 15;

/// Wrong readings that keep every promise of the ledger and of *sound*: in a history only the second reading
/// of each call tells them.
const ONLY_BY_SECOND_READING: [Variant; 7] = [
    Variant::TicketReused,
    Variant::PurgeKeepsOwnEpoch,
    Variant::PurgeSkipsTooMuch,
    Variant::RewriteInPlace,
    Variant::RecoverLseZero,
    Variant::RecoverKeepsTicket,
    Variant::RecoverKeepsAreas,
];

#[test]
fn the_right_reading_passes() {
    choose(None);
    assert_eq!(told_by_cases(), None);
    assert_eq!(told_by_histories(Checks::ALL, SEEDS), None);
}

#[test]
fn each_wrong_reading_is_told() {
    let mut untold = Vec::new();
    for variant in Variant::ALL {
        choose(Some(variant));
        let cases = told_by_cases();
        let quiet = ONLY_BY_SECOND_READING.contains(&variant);
        let ledger = told_by_histories(Checks { expect: false, ledger: true }, if quiet { 2 } else { SEEDS });
        let all = told_by_histories(Checks::ALL, SEEDS);
        choose(None);
        println!("{variant:?}\n  cases: {cases:?}\n  ledger: {ledger:?}\n  all: {all:?}");
        if cases.is_none() {
            untold.push(format!("{variant:?} by the fixed cases"));
        }
        if ledger.is_none() != quiet {
            untold.push(format!("{variant:?} by ledger and sound: {ledger:?}"));
        }
        if all.is_none() {
            untold.push(format!("{variant:?} by the histories"));
        }
    }
    assert!(untold.is_empty(), "{untold:#?}");
}

#[test]
fn each_named_hand_is_told_by_its_own_case() {
    for (variant, named) in [
        (Variant::LseByOpenEpochs, "wrong: LSE by open epochs"),
        (Variant::ClearHidesBeforeOnly, "wrong: clearing hides before only"),
        (Variant::LcePastOpen, "wrong: LCE past an open load"),
        (Variant::OldEndsKept, "wrong: old ends after rollback"),
        (Variant::OldestBeforeClose, "oldest open load"),
        (Variant::OldestOnlyIfLceStays, "oldest open load"),
        (Variant::OldestOnlyByCommit, "oldest open load"),
        (Variant::OldestMayWait, "oldest open load"),
        (Variant::NewestNamed, "oldest open load"),
        (Variant::LoadSkipsOwnClear, "own clearing"),
        (Variant::OwnClearHidesRowsAfter, "own clearing"),
        (Variant::OwnClearHidesOwnOnly, "own clearing"),
        (Variant::LoadAppliesUnseenClear, "own clearing: others"),
        (Variant::TotalOfWholeWords, "total: low bits"),
        (Variant::TotalAtLse, "total: low bits"),
        (Variant::CommitKeepsTotal, "total: low bits"),
        (Variant::TotalCountsOpen, "total: open loads"),
        (Variant::RollbackKeepsTotal, "total: by a rollback"),
        (Variant::TotalCountsHidden, "total: clearings"),
        (Variant::PurgeDropsTotal, "total: purge"),
        (Variant::SaveZeroMeansLce, "saved: every byte"),
        (Variant::SaveAtLce, "saved: every byte"),
        (Variant::SaveKeepsHidden, "saved: every byte"),
        (Variant::SaveCountsOpen, "saved: beside loads"),
        (Variant::SaveNeedsOneMore, "saved: every byte"),
        (Variant::SaveShortWrites, "saved: every byte"),
        (Variant::SaveClearsRest, "saved: every byte"),
        (Variant::HighByteFirst, "saved: every byte"),
        (Variant::HighByteFirst, "recovered: every word"),
        (Variant::RecoverFirstRound, "recovered: every word"),
        (Variant::RecoverCutRound, "recovered: every cut"),
        (Variant::RecoverRefusesCut, "recovered: every cut"),
        (Variant::RecoverCutUnjudged, "recovered: corrupt"),
        (Variant::RecoverStopsAtCorrupt, "recovered: corrupt"),
        (Variant::RecoverRefusesSame, "recovered: at the edges"),
        (Variant::RecoverRefusesLast, "recovered: at the edges"),
        (Variant::RecoverRefusesZero, "recovered: at the edges"),
        (Variant::RecoverRefuses512, "recovered: at the edges"),
        (Variant::RecoverKeepsWithoutRound, "recovered: every cut"),
        (Variant::RecoverLseZero, "recovered: every word"),
        (Variant::RecoverKeepsTicket, "recovered: every word"),
        (Variant::RecoverKeepsAreas, "recovered: every word"),
        (Variant::RecoverEntryForEmpty, "recovered: every word"),
        (Variant::RecoverDropsTotals, "recovered: every word"),
    ] {
        let (_, case) = CASES.into_iter().find(|(name, _)| *name == named).expect("a case of that name");
        choose(Some(variant));
        let told = catch_unwind(case);
        choose(None);
        assert!(!matches!(told, Ok(Ok(()))), "{variant:?} is not told by its case");
        assert_eq!(case(), Ok(()));
    }
}
