//! Histories run with every check after every call, and what they covered (01, "The ledger of demand 3"; 02).

use crate::call::{number_of, Answer, Call, CALL_NAMES, LENT_FILL};
use crate::expect::{due, purged_items, read_file, step, End, FileRead, Item};
use crate::histories::{Calls, Lines, Profile};
use crate::ledger::Ledger;
use crate::partition::{entries_of, rows_of, Entry, CLEARING, ROWS};
use crate::refusal::Refusal;
use crate::round::{CONTENTS, ROW};
use crate::session::{parse, print, Session};
use crate::sound::{broken_clauses, well_formed};
use crate::store::{Closed, Store};
use crate::visible::{bytes_needed, shown, Reader, View};
use crate::{AREA_ENTRIES, AREA_ROWS, DEPS, LAST_EPOCH, PARTITIONS, TICKET_END, TXNS};
use std::collections::BTreeSet;

/// Events that a long enough run must have met.
#[derive(Clone, Copy, Debug, PartialEq, Eq)]
pub enum Edge {
    PurgeSkipped,
    PurgeRewritten,
    PurgeJoined,
    PurgeRelabelled,
    PurgeEmptiedEntry,
    PurgeEmptiedPartition,
    PurgeKeptClearing,
    RollbackTouchedNone,
    RollbackTouchedMany,
    RollbackJoined,
    RollbackLoweredEnd,
    RollbackMovedLce,
    CommitWaits,
    LcePassedWaiting,
    CommitNamesEarlier,
    CommitNamesLater,
    CommitNamesNone,
    RollbackNamesOne,
    RollbackNamesNone,
    RowsAll512,
    Row513,
    EntriesAll64ByAppend,
    EntriesAll64ByClear,
    EndMovedAt64Entries,
    EmptyBatchAt64Entries,
    EmptyBatchAt512Rows,
    Rw32,
    Rw33WithWaiting,
    Deps31,
    Ro32,
    LastEpoch,
    LastTicket,
    BitmapExact,
    BitmapOneShort,
    BitmapNone,
    BitmapLonger,
    Scan512Rows,
    OwnClearHidesOwnRow,
    OwnClearHidesEarlierRow,
    OwnClearShowsRowAfter,
    CommitMovedTotal,
    RollbackMovedTotal,
    ClearingLoweredTotal,
    PurgeKeptTotal,
    PageAtLse,
    PageBelowLce,
    LseStays,
    LseAsFarAsHeld,
    LseToLce,
    SaveAtZero,
    SaveZeroRefused,
    SaveBelowLce,
    SaveOfNothing,
    SaveExact,
    SaveOneShort,
    SaveLonger,
    SaveBesideOpenLoad,
    SaveLeavesHidden,
    SaveLeavesLater,
    Save512Rows,
    RecoverNothing,
    RecoverWholeFile,
    RecoverCutContents,
    RecoverCutBody,
    RecoverManyRounds,
    RecoverSameEpoch,
    RecoverAtZero,
    RecoverLastEpoch,
    Recover512Rows,
    RecoverEmptyLot,
    RecoverOverOpen,
    CorruptCount,
    CorruptAbove,
    CorruptFalls,
    CorruptZero,
    CorruptFirst,
    CorruptLater,
    CorruptCutBody,
    AppendAfterRecovery,
    ClearAfterRecovery,
    PurgeAfterRecovery,
    SaveAfterRecovery,
}

impl Edge {
    pub const ALL: [Edge; 82] = [
        Edge::PurgeSkipped,
        Edge::PurgeRewritten,
        Edge::PurgeJoined,
        Edge::PurgeRelabelled,
        Edge::PurgeEmptiedEntry,
        Edge::PurgeEmptiedPartition,
        Edge::PurgeKeptClearing,
        Edge::RollbackTouchedNone,
        Edge::RollbackTouchedMany,
        Edge::RollbackJoined,
        Edge::RollbackLoweredEnd,
        Edge::RollbackMovedLce,
        Edge::CommitWaits,
        Edge::LcePassedWaiting,
        Edge::CommitNamesEarlier,
        Edge::CommitNamesLater,
        Edge::CommitNamesNone,
        Edge::RollbackNamesOne,
        Edge::RollbackNamesNone,
        Edge::RowsAll512,
        Edge::Row513,
        Edge::EntriesAll64ByAppend,
        Edge::EntriesAll64ByClear,
        Edge::EndMovedAt64Entries,
        Edge::EmptyBatchAt64Entries,
        Edge::EmptyBatchAt512Rows,
        Edge::Rw32,
        Edge::Rw33WithWaiting,
        Edge::Deps31,
        Edge::Ro32,
        Edge::LastEpoch,
        Edge::LastTicket,
        Edge::BitmapExact,
        Edge::BitmapOneShort,
        Edge::BitmapNone,
        Edge::BitmapLonger,
        Edge::Scan512Rows,
        Edge::OwnClearHidesOwnRow,
        Edge::OwnClearHidesEarlierRow,
        Edge::OwnClearShowsRowAfter,
        Edge::CommitMovedTotal,
        Edge::RollbackMovedTotal,
        Edge::ClearingLoweredTotal,
        Edge::PurgeKeptTotal,
        Edge::PageAtLse,
        Edge::PageBelowLce,
        Edge::LseStays,
        Edge::LseAsFarAsHeld,
        Edge::LseToLce,
        Edge::SaveAtZero,
        Edge::SaveZeroRefused,
        Edge::SaveBelowLce,
        Edge::SaveOfNothing,
        Edge::SaveExact,
        Edge::SaveOneShort,
        Edge::SaveLonger,
        Edge::SaveBesideOpenLoad,
        Edge::SaveLeavesHidden,
        Edge::SaveLeavesLater,
        Edge::Save512Rows,
        Edge::RecoverNothing,
        Edge::RecoverWholeFile,
        Edge::RecoverCutContents,
        Edge::RecoverCutBody,
        Edge::RecoverManyRounds,
        Edge::RecoverSameEpoch,
        Edge::RecoverAtZero,
        Edge::RecoverLastEpoch,
        Edge::Recover512Rows,
        Edge::RecoverEmptyLot,
        Edge::RecoverOverOpen,
        Edge::CorruptCount,
        Edge::CorruptAbove,
        Edge::CorruptFalls,
        Edge::CorruptZero,
        Edge::CorruptFirst,
        Edge::CorruptLater,
        Edge::CorruptCutBody,
        Edge::AppendAfterRecovery,
        Edge::ClearAfterRecovery,
        Edge::PurgeAfterRecovery,
        Edge::SaveAfterRecovery,
    ];
}

/// The numbers that a call may answer: 0 is accepted.
pub const NUMBERS: usize = 12;

/// Counts of what was met.
#[derive(Clone, Debug)]
pub struct Coverage {
    pub calls: u64,
    /// By call and number.
    pub numbers: [[u64; NUMBERS]; CALL_NAMES.len()],
    /// By call: two refusals due at once, the first answered.
    pub pairs: BTreeSet<(usize, u64, u64)>,
    pub edges: [u64; Edge::ALL.len()],
    /// Scans compared with the ledger.
    pub shown: u64,
    /// Saves compared with the ledger.
    pub saved: u64,
}

impl Default for Coverage {
    fn default() -> Coverage {
        Coverage {
            calls: 0,
            numbers: [[0; NUMBERS]; CALL_NAMES.len()],
            pairs: BTreeSet::new(),
            edges: [0; Edge::ALL.len()],
            shown: 0,
            saved: 0,
        }
    }
}

/// The numbers that each call can answer, beside 0, in the order of `CALL_NAMES`.
pub const POSSIBLE: [&[u64]; CALL_NAMES.len()] = [
    &[5, 4],
    &[5, 6, 7],
    &[5, 1, 2, 8, 9],
    &[5, 1, 2, 9],
    &[5, 2],
    &[5, 2],
    &[5, 4, 6, 7],
    &[5, 2],
    &[5, 4, 10],
    &[5, 1],
    &[5, 1, 2, 3],
    &[5, 4, 3],
    &[5, 11],
];

/// The pairs of refusals that can be due at once, 5 left out. With a lot above 7 there is no room to judge.
pub const POSSIBLE_PAIRS: [(usize, u64, u64); 16] = [
    (1, 6, 7),
    (2, 1, 2),
    (2, 2, 8),
    (2, 2, 9),
    (2, 8, 9),
    (3, 1, 2),
    (3, 2, 9),
    (6, 4, 6),
    (6, 4, 7),
    (6, 6, 7),
    (8, 4, 10),
    (10, 1, 2),
    (10, 2, 3),
    (11, 4, 3),
    (0, 5, 4),
    (12, 5, 11),
];

impl Coverage {
    pub fn add(&mut self, other: &Coverage) {
        self.calls += other.calls;
        self.shown += other.shown;
        self.saved += other.saved;
        for (kind, numbers) in other.numbers.iter().enumerate() {
            for (number, count) in numbers.iter().enumerate() {
                self.numbers[kind][number] += count;
            }
        }
        for (edge, count) in other.edges.iter().enumerate() {
            self.edges[edge] += count;
        }
        self.pairs.extend(&other.pairs);
    }

    pub fn met(&self, edge: Edge) -> u64 {
        self.edges[edge as usize]
    }

    fn meet(&mut self, edge: Edge, met: bool) {
        self.edges[edge as usize] += u64::from(met);
    }

    /// A save of the store, lent so many bytes, that answered the number.
    fn meet_save(&mut self, store: &Store, epoch: u64, lent: usize, number: u64, recovered: bool) {
        let clock = &store.manager.clock;
        let (mut needed, mut full, mut hidden, mut later, mut open) = (CONTENTS, false, false, false, false);
        for part in &store.manager.partitions.at {
            let entries = entries_of(part, &store.entries);
            let (mut start, mut rows) = (0, 0);
            for (at, entry) in entries.iter().enumerate() {
                let is_shown = shown(&View::Ro(epoch), entries, at);
                rows += if is_shown { (entry.end - start) as usize } else { 0 };
                hidden |= entry.mark == ROWS && entry.epoch <= epoch && !is_shown;
                later |= epoch < entry.epoch && entry.epoch <= clock.lce;
                open |= entry.epoch > clock.lce;
                start = entry.end;
            }
            needed += ROW * rows;
            full |= rows == AREA_ROWS;
        }
        let (accepted, has_rows) = (number == 0, needed > CONTENTS);
        self.meet(Edge::SaveZeroRefused, number == 4 && epoch == 0);
        self.meet(Edge::SaveOneShort, number == 3 && lent + 1 == needed);
        self.meet(Edge::SaveAtZero, accepted && epoch == 0 && clock.lce > 0);
        self.meet(Edge::SaveBelowLce, accepted && clock.lse < epoch && epoch < clock.lce);
        self.meet(Edge::SaveOfNothing, accepted && !has_rows);
        self.meet(Edge::SaveExact, accepted && has_rows && lent == needed);
        self.meet(Edge::SaveLonger, accepted && lent > needed);
        self.meet(Edge::SaveBesideOpenLoad, accepted && open);
        self.meet(Edge::SaveLeavesHidden, accepted && hidden);
        self.meet(Edge::SaveLeavesLater, accepted && has_rows && later);
        self.meet(Edge::Save512Rows, accepted && full);
        self.meet(Edge::SaveAfterRecovery, accepted && has_rows && recovered);
    }

    /// A recovery of a file over the store, whose lengths are right.
    fn meet_recovery(&mut self, store: &Store, file: &[u8]) {
        let FileRead { whole, end } = read_file(file);
        if let End::Corrupt(flaws) = end {
            self.meet(Edge::CorruptCount, flaws.count);
            self.meet(Edge::CorruptAbove, flaws.above);
            self.meet(Edge::CorruptFalls, flaws.falls);
            self.meet(Edge::CorruptZero, flaws.zero);
            self.meet(Edge::CorruptFirst, whole.is_empty());
            self.meet(Edge::CorruptLater, !whole.is_empty());
            self.meet(Edge::CorruptCutBody, !flaws.whole);
            return;
        }
        self.meet(Edge::RecoverOverOpen, store.manager.rw.count > 0 && store.manager.ro.count > 0);
        self.meet(Edge::RecoverManyRounds, whole.len() > 1);
        self.meet(Edge::RecoverSameEpoch, whole.windows(2).any(|pair| pair[0].0 == pair[1].0));
        let Some((epoch, lots)) = whole.last() else {
            self.meet(Edge::RecoverNothing, !file.is_empty());
            return;
        };
        self.meet(Edge::RecoverWholeFile, end == End::Nothing);
        self.meet(Edge::RecoverCutContents, end == End::CutContents);
        self.meet(Edge::RecoverCutBody, end == End::CutBody);
        self.meet(Edge::RecoverAtZero, *epoch == 0);
        self.meet(Edge::RecoverLastEpoch, *epoch == LAST_EPOCH);
        self.meet(Edge::Recover512Rows, lots.iter().any(|lot| lot.len() == AREA_ROWS));
        let has_rows = lots.iter().any(|lot| !lot.is_empty());
        self.meet(Edge::RecoverEmptyLot, has_rows && lots.iter().any(Vec::is_empty));
    }

    /// What was never met, in words; `but` are numbers to leave out.
    pub fn missing(&self, but: &[u64]) -> Vec<String> {
        let mut missing = Vec::new();
        for (kind, possible) in POSSIBLE.iter().enumerate() {
            for &number in [0].iter().chain(possible.iter()).filter(|number| !but.contains(number)) {
                if self.numbers[kind][number as usize] == 0 {
                    missing.push(format!("{} answering {number}", CALL_NAMES[kind]));
                }
            }
            for number in 1..NUMBERS as u64 {
                if !possible.contains(&number) && self.numbers[kind][number as usize] > 0 {
                    missing.push(format!("{} must not answer {number}", CALL_NAMES[kind]));
                }
            }
        }
        for pair in POSSIBLE_PAIRS.iter().filter(|pair| !but.contains(&pair.1) && !but.contains(&pair.2)) {
            if !self.pairs.contains(pair) {
                missing.push(format!("{} with both {} and {} due", CALL_NAMES[pair.0], pair.1, pair.2));
            }
        }
        for edge in Edge::ALL {
            if self.met(edge) == 0 {
                missing.push(format!("{edge:?}"));
            }
        }
        missing
    }
}

/// Which checks a history is put to.
#[derive(Clone, Copy, Debug, PartialEq, Eq)]
pub struct Checks {
    /// The second reading, word for word.
    pub expect: bool,
    /// The scans of every reader against the ledger.
    pub ledger: bool,
}

impl Checks {
    pub const ALL: Checks = Checks { expect: true, ledger: true };
}

/// What a checked call answered, and the bytes that it was lent.
#[derive(Clone, Debug, PartialEq, Eq)]
pub struct Outcome {
    pub answer: Result<Answer, Refusal>,
    pub lent: Vec<u8>,
}

/// A store, its ledger and the state before the last call.
pub struct Checked {
    pub store: Store,
    pub coverage: Coverage,
    ledger: Ledger,
    before: Store,
    checks: Checks,
    /// Whether the last new history was opened by a recovery that brought rows.
    recovered: bool,
    bits: Vec<u8>,
    shown: Vec<u64>,
    found: Vec<u64>,
}

impl Checked {
    /// Starts from a store that an accepted making new or recovery left, and from its ledger.
    pub fn new(store: Store, ledger: Ledger, checks: Checks) -> Checked {
        Checked {
            before: store.clone(),
            store,
            coverage: Coverage::default(),
            ledger,
            checks,
            recovered: false,
            bits: Vec::new(),
            shown: Vec::new(),
            found: Vec::new(),
        }
    }

    /// Starts from any store; the ledger knows nothing of it, so only the other checks are made.
    pub fn without_ledger(store: Store) -> Checked {
        Checked::new(store, Ledger::new(1), Checks { expect: true, ledger: false })
    }

    /// Runs one call with all checks. What fails is told in words.
    pub fn call(&mut self, call: &Call) -> Result<Outcome, String> {
        let told = |what: String| Err(format!("{call:?}: {what}"));
        self.before.clone_from(&self.store);
        let mut lent = call.lent_bytes();
        let answer = call.run(&mut self.store, &mut lent);
        let number = number_of(&answer);
        let changed = self.store != self.before;
        self.cover(call, &answer);

        if number != 0 && (changed || lent.iter().any(|&byte| byte != LENT_FILL)) {
            return told(format!("refused by {number}, but something was written"));
        }
        let due = due(&self.before, call);
        if number != due.first().copied().unwrap_or(0) {
            return told(format!("answered {number} where {due:?} were due"));
        }
        if number == 0 && !well_formed(&self.store) {
            return told(format!("left a store with broken clauses {:?}", broken_clauses(&self.store)));
        }
        if self.checks.expect {
            let mut expected_lent = call.lent_bytes();
            let (expected, values) = step(&mut self.before, call, &mut expected_lent);
            if expected != number || answer.as_ref().is_ok_and(|answer| *answer != values) {
                return told(format!("answered {answer:?}, expected {expected} {values:?}"));
            }
            if expected_lent != lent {
                return told(format!("wrote {lent:?}, expected {expected_lent:?}"));
            }
            if self.store != self.before {
                return told(format!("left {}", difference(&self.store, &self.before)));
            }
        }
        if self.checks.ledger {
            self.feed(call, number, &answer);
            // A refusal left the store and the ledger as they were: the last comparison still stands.
            if number == 0 {
                self.compare_oldest(call, &answer).map_err(|what| format!("{call:?}: {what}"))?;
                self.compare_saved(call, &answer, &lent).map_err(|what| format!("{call:?}: {what}"))?;
                if self.store.manager.totals != self.ledger.totals() {
                    let (totals, ought) = (self.store.manager.totals, self.ledger.totals());
                    return told(format!("totals {totals:?}, the ledger {ought:?}"));
                }
                self.compare_with_ledger().map_err(|what| format!("{call:?}: {what}"))?;
            }
        }
        Ok(Outcome { answer, lent })
    }

    fn feed(&mut self, call: &Call, number: u64, answer: &Result<Answer, Refusal>) {
        let value = match answer {
            Ok(Answer::Value(value)) => *value,
            _ => 0,
        };
        match call {
            Call::New { start } => self.ledger.make_new(*start, number),
            Call::Begin => self.ledger.begin(number, value),
            Call::Append { epoch, partition, rows } => self.ledger.append(*epoch, *partition, rows, number),
            Call::Clear { epoch, partition } => self.ledger.clear(*epoch, *partition, number),
            Call::Commit { epoch } => self.ledger.commit(*epoch, number),
            Call::Rollback { epoch } => self.ledger.rollback(*epoch, number),
            Call::Open { epoch } => self.ledger.open(*epoch, number, value),
            Call::Close { ticket } => self.ledger.close(*ticket, number),
            Call::Recover { file } => self.ledger.recover(file, number),
            Call::MoveLse { .. } | Call::Purge { .. } | Call::Scan { .. } | Call::Save { .. } => {}
        }
    }

    /// A commit or rollback names the oldest load open in the ledger, or none; and where a commit leaves LCE below
    /// its load, the one named is open and stands between the two (02, (i)).
    fn compare_oldest(&self, call: &Call, answer: &Result<Answer, Refusal>) -> Result<(), String> {
        let Ok(Answer::Closed(Closed { lce, oldest })) = *answer else {
            return Ok(());
        };
        if let Call::Commit { epoch } = *call {
            let holds_back = self.ledger.rw_is_open(oldest) && lce < oldest && oldest < epoch;
            if lce < epoch && !holds_back {
                return Err(format!("LCE is {lce}, and {oldest} does not hold it back"));
            }
        }
        if oldest != self.ledger.oldest_open() {
            return Err(format!("names {oldest}, the ledger {}", self.ledger.oldest_open()));
        }
        Ok(())
    }

    /// A save writes what the ledger would show a page at its epoch: how many rows of each lot, and these rows. Behind
    /// the bytes that it answers nothing is written (02, (v)).
    fn compare_saved(
        &mut self,
        call: &Call,
        answer: &Result<Answer, Refusal>,
        lent: &[u8],
    ) -> Result<(), String> {
        let (Call::Save { epoch, .. }, Ok(Answer::Value(length))) = (call, answer) else {
            return Ok(());
        };
        let (round, behind) = lent.split_at(*length as usize);
        let (contents, mut bodies) = round.split_at(CONTENTS);
        let mut ought = epoch.to_le_bytes().to_vec();
        for p in 0..PARTITIONS {
            self.ledger.show_at(*epoch, p, &mut self.shown);
            ought.extend([self.shown.len() as u8, (self.shown.len() >> 8) as u8]);
            for row in &self.shown {
                let Some((word, more)) = bodies.split_at_checked(ROW) else {
                    return Err(format!("wrote fewer rows of {p} than the ledger shows"));
                };
                if word != row.to_le_bytes() {
                    return Err(format!("wrote the row {word:?} of {p}, the ledger shows {row}"));
                }
                bodies = more;
            }
        }
        if contents != ought || !bodies.is_empty() || behind.iter().any(|&byte| byte != LENT_FILL) {
            return Err(format!("wrote {contents:?}, the ledger has {ought:?}, or bytes behind the round"));
        }
        self.coverage.saved += 1;
        Ok(())
    }

    /// On every lot, the scan shows each open reader what the ledger shows it, and no other reader anything.
    fn compare_with_ledger(&mut self) -> Result<(), String> {
        // The store was tested just now, and scans write nothing in it.
        self.store.trusted = true;
        let told = self.compare_readers();
        self.store.trusted = false;
        told
    }

    fn compare_readers(&mut self) -> Result<(), String> {
        let ec = self.store.manager.clock.ec;
        let next = self.store.manager.ro.next;
        let mut closed: Vec<Reader> =
            [0, ec, ec + 1, u64::MAX, 1 << 32].into_iter().map(Reader::Rw).collect();
        closed.extend([0, next, next + 1, u64::MAX].into_iter().map(Reader::Ro));
        let recent = next.saturating_sub(500).max(1)..next;
        closed.extend(recent.filter(|&ticket| !self.ledger.ro_is_open(ticket)).map(Reader::Ro));
        let mut open: Vec<Reader> = self.ledger.ro_open().map(Reader::Ro).collect();
        for (epoch, is_open) in self.ledger.rw_txns() {
            if is_open { &mut open } else { &mut closed }.push(Reader::Rw(epoch));
        }
        for p in 0..PARTITIONS {
            let part = self.store.manager.partitions.at[p];
            let needed = bytes_needed(part.rows);
            self.bits.clear();
            self.bits.resize(needed, LENT_FILL);
            for &reader in &closed {
                if self.store.scan(reader, p as u64, &mut self.bits) != Err(Refusal::NotOpen) {
                    return Err(format!("a scan of {p} for {reader:?}, not open, is not refused by 2"));
                }
            }
            for &reader in &open {
                match reader {
                    Reader::Rw(epoch) => self.ledger.show_rw(epoch, p, &mut self.shown),
                    Reader::Ro(ticket) => self.ledger.show_ro(ticket, p, &mut self.shown),
                }
                let Ok(scanned) = self.store.scan(reader, p as u64, &mut self.bits) else {
                    return Err(format!("a scan of {p} for {reader:?}, open, is refused"));
                };
                self.coverage.shown += 1;
                let rows = rows_of(&part, &self.store.rows);
                self.found.clear();
                for (at, &byte) in self.bits.iter().enumerate() {
                    let mut left = byte;
                    while left != 0 {
                        let row = at * 8 + left.trailing_zeros() as usize;
                        let Some(word) = rows.get(row) else {
                            return Err(format!("a scan of {p} for {reader:?} set the unused bit {row}"));
                        };
                        self.found.push(*word);
                        left &= left - 1;
                    }
                }
                if self.found != self.shown || scanned.ones != self.shown.len() as u64 {
                    return Err(format!(
                        "a scan of {p} for {reader:?} shows {:?}, the ledger {:?}, ones {}",
                        self.found, self.shown, scanned.ones
                    ));
                }
            }
        }
        Ok(())
    }

    /// Counts what the call met. `before` is still the state before it.
    fn cover(&mut self, call: &Call, answer: &Result<Answer, Refusal>) {
        let number = number_of(answer);
        let Checked { store, before, coverage, recovered, .. } = self;
        coverage.calls += 1;
        coverage.numbers[call.kind()][number as usize] += 1;
        if number != 0 {
            let due = due(before, call);
            for pair in due.iter().skip(1) {
                coverage.pairs.insert((call.kind(), due[0], *pair));
            }
        }
        if number == 5 {
            return;
        }
        let accepted = number == 0;
        let oldest = match answer {
            Ok(Answer::Closed(closed)) => closed.oldest,
            _ => 0,
        };
        let (old, new) = (&before.manager, &store.manager);
        let lowered = old.totals.iter().zip(&new.totals).any(|(was, is)| is < was);
        let starts = matches!(call, Call::New { .. } | Call::Recover { .. });
        coverage.meet(Edge::ClearingLoweredTotal, lowered && !starts);
        match call {
            Call::Append { partition, rows, .. } if *partition < 8 => {
                let (was, is) =
                    (&old.partitions.at[*partition as usize], &new.partitions.at[*partition as usize]);
                let full = AREA_ROWS as u64;
                let all = AREA_ENTRIES as u64;
                coverage.meet(Edge::RowsAll512, accepted && is.rows == full && was.rows < full);
                coverage.meet(Edge::Row513, number == 8 && was.rows + rows.len() as u64 == full + 1);
                coverage.meet(Edge::EntriesAll64ByAppend, accepted && is.entries == all && was.entries < all);
                let at_all = accepted && was.entries == all;
                coverage.meet(Edge::EndMovedAt64Entries, at_all && !rows.is_empty());
                coverage.meet(Edge::EmptyBatchAt64Entries, at_all && rows.is_empty());
                coverage.meet(Edge::EmptyBatchAt512Rows, accepted && was.rows == full && rows.is_empty());
                coverage.meet(Edge::AppendAfterRecovery, accepted && *recovered && !rows.is_empty());
            }
            Call::Clear { partition, .. } if accepted => {
                let is = &new.partitions.at[*partition as usize];
                coverage.meet(Edge::EntriesAll64ByClear, is.entries == AREA_ENTRIES as u64);
                coverage.meet(Edge::ClearAfterRecovery, *recovered);
            }
            Call::Begin => {
                let count = new.rw.count as usize;
                coverage.meet(Edge::Rw32, accepted && count == TXNS);
                let waiting = new.rw.used().iter().any(|txn| txn.waiting == 1);
                coverage.meet(Edge::Rw33WithWaiting, number == 7 && waiting);
                let deps = new.rw.used().last().map_or(0, |txn| txn.deps_count);
                coverage.meet(Edge::Deps31, accepted && deps == DEPS as u64);
                coverage.meet(Edge::LastEpoch, accepted && old.clock.ec == LAST_EPOCH);
            }
            Call::Commit { epoch } if accepted => {
                coverage.meet(Edge::CommitMovedTotal, new.totals != old.totals);
                coverage.meet(Edge::CommitWaits, new.rw.count == old.rw.count);
                coverage.meet(Edge::LcePassedWaiting, new.rw.count + 1 < old.rw.count);
                coverage.meet(Edge::CommitNamesEarlier, 0 < oldest && oldest < *epoch);
                coverage.meet(Edge::CommitNamesLater, *epoch < oldest);
                coverage.meet(Edge::CommitNamesNone, oldest == 0);
            }
            Call::Rollback { epoch } if accepted => {
                let mut touched = 0;
                for (was, is) in old.partitions.at.iter().zip(&new.partitions.at) {
                    if was.area == is.area {
                        continue;
                    }
                    touched += 1;
                    let old_entries = entries_of(was, &before.entries);
                    let dropped = old_entries.iter().filter(|entry| entry.epoch == *epoch).count() as u64;
                    coverage.meet(Edge::RollbackJoined, is.entries < was.entries - dropped);
                    let later = old_entries.last().is_some_and(|entry| entry.epoch != *epoch);
                    coverage.meet(Edge::RollbackLoweredEnd, later && is.rows < was.rows);
                }
                coverage.meet(Edge::RollbackTouchedNone, touched == 0);
                coverage.meet(Edge::RollbackTouchedMany, touched > 1);
                coverage.meet(Edge::RollbackMovedTotal, new.totals != old.totals);
                coverage.meet(Edge::RollbackMovedLce, new.clock.lce > old.clock.lce);
                coverage.meet(Edge::RollbackNamesOne, oldest > 0);
                coverage.meet(Edge::RollbackNamesNone, oldest == 0);
            }
            Call::Open { .. } if accepted => {
                let ro_txn = new.ro.used().last().copied().unwrap_or_default();
                coverage.meet(Edge::Ro32, new.ro.count == TXNS as u64);
                coverage.meet(Edge::LastTicket, new.ro.next == TICKET_END);
                coverage.meet(Edge::PageAtLse, ro_txn.epoch == new.clock.lse && ro_txn.epoch < new.clock.lce);
                coverage.meet(Edge::PageBelowLce, ro_txn.epoch < new.clock.lce);
            }
            Call::MoveLse { target } if accepted => {
                coverage.meet(Edge::LseStays, *target != 0 && new.clock.lse == old.clock.lse);
                coverage.meet(Edge::LseAsFarAsHeld, *target == 0 && new.clock.lse < new.clock.lce);
                coverage
                    .meet(Edge::LseToLce, new.clock.lse == new.clock.lce && new.clock.lse > old.clock.lse);
            }
            Call::Purge { partition } if accepted => {
                let p = *partition as usize;
                let (was, is) = (&old.partitions.at[p], &new.partitions.at[p]);
                let lse = old.clock.lse;
                let old_items = crate::expect::items(before, p);
                let Some(left) = purged_items(&old_items, lse) else {
                    coverage.meet(Edge::PurgeSkipped, true);
                    return;
                };
                coverage.meet(Edge::PurgeRewritten, true);
                coverage.meet(Edge::PurgeAfterRecovery, *recovered);
                coverage.meet(Edge::PurgeKeptTotal, old.totals[p] > 0 && new.totals[p] == old.totals[p]);
                let old_entries = entries_of(was, &before.entries);
                let is_row = |item: &&Item| matches!(item, Item::Row { .. });
                let went = old_items.iter().filter(is_row).count() - left.iter().filter(is_row).count();
                let applied = |entry: &&Entry| entry.mark == CLEARING && entry.epoch <= lse;
                let clearings = old_entries.iter().filter(applied).count() as u64;
                coverage.meet(Edge::PurgeEmptiedEntry, went > 0);
                coverage.meet(Edge::PurgeEmptiedPartition, is.entries == 0 && was.rows > 0);
                coverage.meet(Edge::PurgeJoined, went == 0 && is.entries < was.entries - clearings);
                let relabelled =
                    entries_of(is, &store.entries).iter().any(|e| e.mark == ROWS && e.epoch == lse);
                coverage.meet(Edge::PurgeRelabelled, relabelled);
                let kept = entries_of(is, &store.entries).iter().any(|entry| entry.mark == CLEARING);
                coverage.meet(Edge::PurgeKeptClearing, kept);
            }
            Call::Scan { reader, partition, lent } if *partition < 8 => {
                let rows = old.partitions.at[*partition as usize].rows;
                let needed = bytes_needed(rows);
                coverage.meet(Edge::BitmapExact, accepted && *lent == needed && needed > 0);
                coverage.meet(Edge::BitmapOneShort, number == 3 && *lent + 1 == needed);
                coverage.meet(Edge::BitmapNone, accepted && *lent == 0);
                coverage.meet(Edge::BitmapLonger, accepted && *lent > needed);
                coverage.meet(Edge::Scan512Rows, accepted && rows == AREA_ROWS as u64);
                let own = if accepted { own_clearing(before, *reader, *partition) } else { None };
                coverage.meet(Edge::OwnClearHidesOwnRow, own.is_some_and(|own| own.hides_own));
                coverage.meet(Edge::OwnClearHidesEarlierRow, own.is_some_and(|own| own.hides_earlier));
                coverage.meet(Edge::OwnClearShowsRowAfter, own.is_some_and(|own| own.shows_after));
            }
            Call::Save { epoch, lent } => coverage.meet_save(before, *epoch, *lent, number, *recovered),
            Call::Recover { file } => {
                coverage.meet_recovery(before, file);
                if accepted {
                    *recovered = new.partitions.at.iter().any(|part| part.rows > 0);
                }
            }
            Call::New { .. } if accepted => *recovered = false,
            _ => {}
        }
    }
}

/// What the clearings that an open load made in a lot do to its scan of that lot.
#[derive(Clone, Copy, Debug, PartialEq, Eq)]
pub struct OwnClearing {
    /// They hide rows of the load.
    pub hides_own: bool,
    /// They hide rows of earlier epochs that the load would be shown but for them.
    pub hides_earlier: bool,
    /// They leave rows of the load that stand after them.
    pub shows_after: bool,
}

/// Nothing for a page, and for a load that made no clearing there.
pub fn own_clearing(store: &Store, reader: Reader, partition: u64) -> Option<OwnClearing> {
    let Reader::Rw(own) = reader else {
        return None;
    };
    let txn = store.manager.rw.find_open(own)?;
    let entries = entries_of(store.manager.partitions.at.get(partition as usize)?, &store.entries);
    let is_own_clearing = |entry: &Entry| entry.mark == CLEARING && entry.epoch == own;
    let last = entries.iter().rposition(is_own_clearing)?;
    let is_own_rows = |entry: &Entry| entry.mark == ROWS && entry.epoch == own;
    let others: Vec<Entry> = entries.iter().filter(|entry| !is_own_clearing(entry)).copied().collect();
    let is_earlier_shown =
        |at: usize| others[at].mark == ROWS && others[at].epoch < own && shown(&View::Rw(txn), &others, at);
    Some(OwnClearing {
        hides_own: entries[..last].iter().any(is_own_rows),
        hides_earlier: (0..others.len()).any(is_earlier_shown),
        shows_after: entries[last..].iter().any(is_own_rows),
    })
}

/// Runs a random history of so many calls with the checks. What fails is told with its place.
pub fn run_history(seed: u64, profile: Profile, calls: u64, checks: Checks) -> Result<Coverage, String> {
    let mut random = Calls::new(seed, profile);
    let (store, ledger) = random.first_store();
    let mut checked = Checked::new(store, ledger, checks);
    for at in 0..calls {
        let call = random.next_call(&checked.store);
        checked.call(&call).map_err(|what| format!("{} seed {seed} call {at}: {what}", profile.name))?;
    }
    Ok(checked.coverage)
}

/// Runs random session lines as calls with the checks, and compares what the session prints.
pub fn run_lines(seed: u64, profile: Profile, count: u64) -> Result<Coverage, String> {
    let mut lines = Lines::new(seed, profile);
    let mut session = Session::default();
    let mut checked = Checked::new(Store::new(1), Ledger::new(1), Checks::ALL);
    for at in 0..count {
        let line = lines.next_line();
        let printed = session.answer(&line);
        let expected = match parse(&line) {
            None => "?".to_string(),
            Some(call) => {
                let told = |what| format!("{} seed {seed} line {at}: {what}", profile.name);
                let outcome = checked.call(&call).map_err(told)?;
                print(&call, &outcome.answer, &checked.store, &outcome.lent)
            }
        };
        if printed != expected || session.store != checked.store {
            return Err(format!("{} seed {seed} line {at}: {printed} for {expected}", profile.name));
        }
    }
    Ok(checked.coverage)
}

/// Where two stores first differ.
pub fn difference(one: &Store, other: &Store) -> String {
    let words = one.manager.words().into_iter().zip(other.manager.words()).position(|(a, b)| a != b);
    if let Some(at) = words {
        return format!(
            "word {at} of the books {} for {}",
            one.manager.words()[at],
            other.manager.words()[at]
        );
    }
    if let Some(at) = one.rows.iter().zip(&other.rows).position(|(a, b)| a != b) {
        return format!("row word {at} {} for {}", one.rows[at], other.rows[at]);
    }
    if let Some(at) = one.entries.iter().zip(&other.entries).position(|(a, b)| a != b) {
        return format!("entry {at} {:?} for {:?}", one.entries[at], other.entries[at]);
    }
    "no difference".to_string()
}
