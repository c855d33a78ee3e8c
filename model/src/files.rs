//! Random rounds, files of them, and files with a corrupt table of contents (02, (v)).

use crate::random::Rng;
use crate::round::{Round, CONTENTS};
use crate::{AREA_ROWS, LAST_EPOCH, PARTITIONS};

/// Rounds of a file that was made at random, at most.
const ROUNDS: u64 = 5;

/// The bytes of rounds that follow one another.
pub fn bytes_of(rounds: &[Round]) -> Vec<u8> {
    rounds.iter().flat_map(Round::bytes).collect()
}

/// Rounds as saves may leave them: epochs that never fall, 0 only without rows. `batch` is the greatest usual row
/// count; now and then a lot is full.
pub fn random_rounds(rng: &mut Rng, batch: u64) -> Vec<Round> {
    let mut rounds = Vec::new();
    let mut epoch = match rng.below(5) {
        0 | 1 => 0,
        2 => rng.within(1, 100),
        3 => rng.within(1, LAST_EPOCH),
        _ => LAST_EPOCH - rng.below(4),
    };
    for _ in 0..rng.within(1, ROUNDS) {
        rounds.push(random_round(rng, epoch, batch));
        epoch += match rng.below(4) {
            0 => 0,
            1 | 2 => rng.below(5).min(LAST_EPOCH - epoch),
            _ => rng.within(0, LAST_EPOCH - epoch),
        };
    }
    rounds
}

fn random_round(rng: &mut Rng, epoch: u64, batch: u64) -> Round {
    let mut round = Round { epoch, ..Round::default() };
    let empty = rng.pick(&[0, 300, 1000]);
    for lot in &mut round.lots {
        let count = match rng.below(40) {
            _ if epoch == 0 || rng.per_mille(empty) => 0,
            0 => AREA_ROWS as u64,
            1 => AREA_ROWS as u64 - 1,
            2 => rng.within(0, AREA_ROWS as u64),
            _ => rng.within(1, batch),
        };
        lot.extend((0..count).map(|_| rng.row()));
    }
    round
}

/// The ways to make a table of contents corrupt: the bytes of a file from it on, and the epoch of the round before.
/// Each answers whether it could be done.
pub type Flaw = (&'static str, fn(&mut [u8], u64, &mut Rng) -> bool);

pub const FLAWS: [Flaw; 4] = [
    ("a count above 512", |contents, _, rng| {
        let at = 8 + 2 * rng.below(PARTITIONS as u64) as usize;
        let any = rng.within(513, 65_535);
        let count = rng.pick(&[513, 514, 768, 1 << 15, 65_535, any]);
        contents[at..at + 2].copy_from_slice(&(count as u16).to_le_bytes());
        true
    }),
    ("an epoch above the last", |contents, _, rng| {
        let any = rng.within(LAST_EPOCH + 1, u64::MAX);
        let epoch = rng.pick(&[LAST_EPOCH + 1, LAST_EPOCH + 2, 1 << 32, 1 << 63, u64::MAX, any]);
        contents[..8].copy_from_slice(&epoch.to_le_bytes());
        true
    }),
    ("an epoch below the round before", |contents, before, rng| {
        if before == 0 {
            return false;
        }
        let any = rng.below(before);
        let epoch = rng.pick(&[before - 1, 0, any]);
        contents[..8].copy_from_slice(&epoch.to_le_bytes());
        true
    }),
    ("epoch 0 with rows", |contents, before, _| {
        contents[..8].fill(0);
        if contents[8..CONTENTS] == [0; CONTENTS - 8] {
            contents[8] = 1;
        }
        before == 0
    }),
];

/// A file of these rounds with the table of contents of one of them made corrupt in the given way, and where that table
/// stands; none where it could not be done.
pub fn corrupt_file(rounds: &[Round], at: usize, flaw: &Flaw, rng: &mut Rng) -> Option<(Vec<u8>, usize)> {
    let mut file = bytes_of(rounds);
    let from = rounds[..at].iter().map(Round::length).sum();
    let before = at.checked_sub(1).map_or(0, |before| rounds[before].epoch);
    (flaw.1)(&mut file[from..], before, rng).then_some((file, from))
}

/// A file for a recovery: rounds as they were saved, or cut after whichever byte. `kept` are rounds that were saved;
/// without them they are made at random. Of 1,000 files `wrong` have a corrupt table of contents, one byte that is
/// another, or any bytes.
pub fn any_file(rng: &mut Rng, kept: &[Round], wrong: u64) -> Vec<u8> {
    let made = if kept.is_empty() || rng.per_mille(100) { random_rounds(rng, 6) } else { kept.to_vec() };
    let mut file = bytes_of(&made);
    if rng.per_mille(wrong) {
        file = match rng.below(8) {
            0 => (0..rng.within(0, 80)).map(|_| rng.any() as u8).collect(),
            1 => {
                // One byte is another.
                let at = rng.below(file.len() as u64) as usize;
                file[at] ^= 1 << rng.below(8);
                file
            }
            _ => {
                let at = rng.below(made.len() as u64) as usize;
                let flaw = rng.pick(&FLAWS);
                corrupt_file(&made, at, &flaw, rng).map_or(file, |(corrupt, _)| corrupt)
            }
        };
    }
    if rng.per_mille(400) {
        // Near the end, where a save was under way, or anywhere.
        let last = made.last().map_or(0, Round::length).min(file.len());
        let span = if rng.per_mille(700) { last } else { file.len() };
        let cut = rng.within(0, span as u64) as usize;
        file.truncate(file.len() - cut);
    }
    file
}
