//! Saved rounds as bytes: a table of contents, then the bodies (02, (v)).

use crate::refusal::Refusal;
use crate::variant::{wrong, Variant};
use crate::{AREA_ROWS, LAST_EPOCH, PARTITIONS};

/// Bytes of L.
const EPOCH: usize = 8;
/// Bytes of a row count.
const COUNT: usize = 2;
/// Bytes of a row.
pub const ROW: usize = 8;
/// Bytes of a table of contents.
pub const CONTENTS: usize = EPOCH + COUNT * PARTITIONS;

/// A round: the epoch L, and the rows of each lot.
#[derive(Clone, Debug, Default, PartialEq, Eq)]
pub struct Round {
    pub epoch: u64,
    pub lots: [Vec<u64>; PARTITIONS],
}

/// A table of contents: L and the row count of each lot.
struct Contents {
    epoch: u64,
    counts: [usize; PARTITIONS],
}

/// The bytes of a number as they stand in a round: low byte first.
fn low_first<const N: usize>(mut bytes: [u8; N]) -> [u8; N] {
    if wrong(Variant::HighByteFirst) {
        bytes.reverse();
    }
    bytes
}

/// The number of eight bytes.
fn number(bytes: &[u8]) -> u64 {
    u64::from_le_bytes(low_first(bytes.try_into().expect("eight bytes")))
}

impl Round {
    /// How many bytes it has.
    pub fn length(&self) -> usize {
        CONTENTS + ROW * self.lots.iter().map(Vec::len).sum::<usize>()
    }

    /// Writes it at the front of the output, which has room for it. Later bytes stay.
    pub fn write(&self, output: &mut [u8]) {
        let (contents, mut rest) = output.split_at_mut(CONTENTS);
        let (epoch, counts) = contents.split_at_mut(EPOCH);
        epoch.copy_from_slice(&low_first(self.epoch.to_le_bytes()));
        for (place, lot) in counts.chunks_exact_mut(COUNT).zip(&self.lots) {
            place.copy_from_slice(&low_first((lot.len() as u16).to_le_bytes()));
        }
        for lot in &self.lots {
            let (body, more) = rest.split_at_mut(ROW * lot.len());
            for (place, row) in body.chunks_exact_mut(ROW).zip(lot) {
                place.copy_from_slice(&low_first(row.to_le_bytes()));
            }
            rest = more;
        }
    }

    /// Its bytes.
    pub fn bytes(&self) -> Vec<u8> {
        let mut bytes = vec![0; self.length()];
        self.write(&mut bytes);
        bytes
    }
}

impl Contents {
    fn read(bytes: &[u8; CONTENTS]) -> Contents {
        let (epoch, counts) = bytes.split_at(EPOCH);
        let count = |p: usize| u16::from_le_bytes(low_first([counts[COUNT * p], counts[COUNT * p + 1]]));
        Contents { epoch: number(epoch), counts: std::array::from_fn(|p| count(p).into()) }
    }

    /// How many bytes the bodies have.
    fn body(&self) -> usize {
        ROW * self.counts.iter().sum::<usize>()
    }

    /// Whether no save can have written it, where the round before has the epoch `before`.
    fn is_corrupt(&self, before: u64) -> bool {
        let most = AREA_ROWS - usize::from(wrong(Variant::RecoverRefuses512));
        let last = LAST_EPOCH - u64::from(wrong(Variant::RecoverRefusesLast));
        let has_rows = self.counts.iter().any(|&count| count > 0);
        self.counts.iter().any(|&count| count > most)
            || self.epoch > last
            || self.epoch < before
            || self.epoch == before && before > 0 && wrong(Variant::RecoverRefusesSame)
            || self.epoch == 0 && (has_rows || wrong(Variant::RecoverRefusesZero))
    }

    /// The round of this table of contents and of its bodies.
    fn with(&self, mut body: &[u8]) -> Round {
        let lots = self.counts.map(|count| {
            let (lot, rest) = body.split_at(ROW * count);
            body = rest;
            lot.chunks_exact(ROW).map(number).collect()
        });
        Round { epoch: self.epoch, lots }
    }
}

/// The last whole round of a file, if it has one. Each whole table of contents is judged, even if its bodies are cut.
pub fn last_whole(file: &[u8]) -> Result<Option<Round>, Refusal> {
    let mut last: Option<(Contents, &[u8])> = None;
    let mut rest = file;
    while let Some((contents, bodies)) = rest.split_first_chunk() {
        let contents = Contents::read(contents);
        let whole = bodies.split_at_checked(contents.body());
        let before = last.as_ref().map_or(0, |(contents, _)| contents.epoch);
        let unjudged = whole.is_none() && wrong(Variant::RecoverCutUnjudged);
        if contents.is_corrupt(before) && !unjudged {
            if wrong(Variant::RecoverStopsAtCorrupt) {
                break;
            }
            return Err(Refusal::Corrupt);
        }
        let Some((body, more)) = whole else {
            if wrong(Variant::RecoverCutRound) {
                let filled = [bodies, &vec![0; contents.body() - bodies.len()]].concat();
                return Ok(Some(contents.with(&filled)));
            }
            break;
        };
        if last.is_none() || !wrong(Variant::RecoverFirstRound) {
            last = Some((contents, body));
        }
        rest = more;
    }
    if !rest.is_empty() && wrong(Variant::RecoverRefusesCut) {
        return Err(Refusal::Corrupt);
    }
    Ok(last.map(|(contents, body)| contents.with(body)))
}
