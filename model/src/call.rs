//! Calls and answers as values, so that histories can be kept, made at random and run (01, "A session"; 02, (v)).

use crate::refusal::Refusal;
use crate::store::{Closed, Purged, Scanned, Store};
use crate::visible::Reader;

#[derive(Clone, Debug, PartialEq, Eq)]
pub enum Call {
    New {
        start: u64,
    },
    Begin,
    Append {
        epoch: u64,
        partition: u64,
        rows: Vec<u64>,
    },
    Clear {
        epoch: u64,
        partition: u64,
    },
    Commit {
        epoch: u64,
    },
    Rollback {
        epoch: u64,
    },
    Open {
        epoch: u64,
    },
    Close {
        ticket: u64,
    },
    MoveLse {
        target: u64,
    },
    Purge {
        partition: u64,
    },
    /// `lent` is the length of the bitmap in bytes.
    Scan {
        reader: Reader,
        partition: u64,
        lent: usize,
    },
    /// `lent` is the length of the output in bytes.
    Save {
        epoch: u64,
        lent: usize,
    },
    Recover {
        file: Vec<u8>,
    },
}

/// What a call answers beside its number.
#[derive(Clone, Debug, PartialEq, Eq)]
pub enum Answer {
    Nothing,
    Value(u64),
    Closed(Closed),
    Purged(Purged),
    Scanned(Scanned),
}

/// The names of the calls, in the order of `Call`.
pub const CALL_NAMES: [&str; 13] = [
    "new", "begin", "append", "clear", "commit", "rollback", "open", "close", "move lse", "purge", "scan",
    "save", "recover",
];

/// The byte that the checks put into all that a call is lent to write bytes into.
pub const LENT_FILL: u8 = 0xa5;

impl Call {
    /// The place of the call in `CALL_NAMES`.
    pub fn kind(&self) -> usize {
        match self {
            Call::New { .. } => 0,
            Call::Begin => 1,
            Call::Append { .. } => 2,
            Call::Clear { .. } => 3,
            Call::Commit { .. } => 4,
            Call::Rollback { .. } => 5,
            Call::Open { .. } => 6,
            Call::Close { .. } => 7,
            Call::MoveLse { .. } => 8,
            Call::Purge { .. } => 9,
            Call::Scan { .. } => 10,
            Call::Save { .. } => 11,
            Call::Recover { .. } => 12,
        }
    }

    /// Runs the call. `lent` is what a scan writes its bits into, and a save its round.
    pub fn run(&self, store: &mut Store, lent: &mut [u8]) -> Result<Answer, Refusal> {
        match self {
            Call::New { start } => store.make_new(*start).map(|()| Answer::Nothing),
            Call::Begin => store.begin().map(Answer::Value),
            Call::Append { epoch, partition, rows } => {
                store.append(*epoch, *partition, rows).map(Answer::Value)
            }
            Call::Clear { epoch, partition } => store.clear(*epoch, *partition).map(Answer::Value),
            Call::Commit { epoch } => store.commit(*epoch).map(Answer::Closed),
            Call::Rollback { epoch } => store.rollback(*epoch).map(Answer::Closed),
            Call::Open { epoch } => store.open(*epoch).map(Answer::Value),
            Call::Close { ticket } => store.close(*ticket).map(Answer::Value),
            Call::MoveLse { target } => store.move_lse(*target).map(Answer::Value),
            Call::Purge { partition } => store.purge(*partition).map(Answer::Purged),
            Call::Scan { reader, partition, .. } => {
                store.scan(*reader, *partition, lent).map(Answer::Scanned)
            }
            Call::Save { epoch, .. } => store.save(*epoch, lent).map(Answer::Value),
            Call::Recover { file } => store.recover(file).map(|()| Answer::Nothing),
        }
    }

    /// The bytes that the call is lent, filled for the checks.
    pub fn lent_bytes(&self) -> Vec<u8> {
        match self {
            Call::Scan { lent, .. } | Call::Save { lent, .. } => vec![LENT_FILL; *lent],
            _ => Vec::new(),
        }
    }
}

/// The number of an answer: 0 is accepted.
pub fn number_of<T>(answer: &Result<T, Refusal>) -> u64 {
    match answer {
        Ok(_) => 0,
        Err(refusal) => refusal.number(),
    }
}
