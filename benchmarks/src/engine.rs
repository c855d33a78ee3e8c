//! What every engine does: the calls of 01, and a sum over the rows that scans hand out.

use model::call::Call;
use model::visible::Reader;

/// The rows that scans handed out, in order: their count and two running sums, of which the second changes with a row's
/// place. The epochs and tickets that were handed out go in as rows do.
#[derive(Clone, Copy, Debug, Default, PartialEq, Eq)]
pub struct Sum {
    pub count: u64,
    first: u64,
    second: u64,
}

impl Sum {
    #[inline]
    pub fn row(&mut self, row: u64) {
        self.count += 1;
        self.first = self.first.wrapping_add(row);
        self.second = self.second.wrapping_add(self.first);
    }

    #[inline]
    pub fn rows(&mut self, rows: &[u64]) {
        rows.iter().for_each(|&row| self.row(row));
    }

    /// Rows as bytes, at any address.
    #[inline]
    pub fn bytes(&mut self, bytes: &[u8]) {
        bytes.chunks_exact(8).for_each(|row| self.row(word_at(row)));
    }

    /// The end of a scan, so that a row that moves from one scan to the next shows.
    #[inline]
    pub fn end(&mut self) {
        self.row(self.count);
    }
}

/// The word in the first eight bytes.
#[inline]
pub fn word_at(bytes: &[u8]) -> u64 {
    let mut word = [0; 8];
    word.copy_from_slice(&bytes[..8]);
    u64::from_ne_bytes(word)
}

/// The rows whose bits are ones, row 0 lowest in byte 0.
#[inline]
pub fn visit(bitmap: &[u8], rows: &[u64], sum: &mut Sum) {
    for (bits, rows) in bitmap.chunks_exact(8).zip(rows.chunks(64)) {
        let mut bits = word_at(bits);
        if bits == u64::MAX && rows.len() == 64 {
            sum.rows(rows);
            continue;
        }
        while bits != 0 {
            sum.row(rows[bits.trailing_zeros() as usize]);
            bits &= bits - 1;
        }
    }
}

/// An engine. A call that it cannot do ends the run; a list of calls has only accepted ones.
pub trait Engine {
    fn name(&self) -> &'static str;

    /// Makes the store new at epoch 1. What it has allocated it may keep.
    fn reset(&mut self);

    /// Begins a load; answers its epoch.
    fn begin(&mut self) -> u64;
    fn append(&mut self, epoch: u64, lot: usize, rows: &[u64]);
    fn clear(&mut self, epoch: u64, lot: usize);
    fn commit(&mut self, epoch: u64);
    fn roll_back(&mut self, epoch: u64);

    /// Opens a page, 0 meaning LCE; answers its ticket.
    fn open(&mut self, epoch: u64) -> u64;
    fn close(&mut self, ticket: u64);

    /// Hands the rows shown to the sum, in order.
    fn scan(&mut self, reader: Reader, lot: usize, sum: &mut Sum);

    /// Hands all rows that the lot holds to the sum, in order, whoever wrote them: no snapshot.
    fn scan_plain(&mut self, lot: usize, sum: &mut Sum);

    /// Moves LSE as far as nothing holds it.
    fn move_lse(&mut self);
    fn purge(&mut self, lot: usize);

    /// Runs the calls.
    fn play(&mut self, calls: &[Call]) -> Sum {
        let mut sum = Sum::default();
        for call in calls {
            match call {
                Call::New { .. } => self.reset(),
                Call::Begin => sum.row(self.begin()),
                Call::Append { epoch, partition, rows } => self.append(*epoch, *partition as usize, rows),
                Call::Clear { epoch, partition } => self.clear(*epoch, *partition as usize),
                Call::Commit { epoch } => self.commit(*epoch),
                Call::Rollback { epoch } => self.roll_back(*epoch),
                Call::Open { epoch } => sum.row(self.open(*epoch)),
                Call::Close { ticket } => self.close(*ticket),
                Call::Scan { reader, partition, .. } => {
                    self.scan(*reader, *partition as usize, &mut sum);
                    sum.end();
                }
                Call::MoveLse { .. } => self.move_lse(),
                Call::Purge { partition } => self.purge(*partition as usize),
                Call::Save { .. } | Call::Recover { .. } => unreachable!("no workload saves or recovers"),
            }
        }
        sum
    }

    /// Scans the lots of these scans without a snapshot.
    fn play_plain(&mut self, calls: &[Call]) -> Sum {
        let mut sum = Sum::default();
        for call in calls {
            if let Call::Scan { partition, .. } = call {
                self.scan_plain(*partition as usize, &mut sum);
                sum.end();
            }
        }
        sum
    }
}
