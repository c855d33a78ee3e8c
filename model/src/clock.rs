//! The clock of the books: EC, LCE and LSE (01, "The books").

#[repr(C)]
#[derive(Clone, Copy, Debug, Default, PartialEq, Eq)]
pub struct Clock {
    /// The next epoch.
    pub ec: u64,
    /// The latest committed epoch.
    pub lce: u64,
    /// The latest safe epoch.
    pub lse: u64,
}

impl Clock {
    /// The clock of a store made new at `start`.
    pub fn starting_at(start: u64) -> Clock {
        Clock { ec: start, lce: start - 1, lse: start - 1 }
    }

    /// Hands out EC and steps it by one.
    pub fn advance(&mut self) -> u64 {
        let epoch = self.ec;
        self.ec += 1;
        epoch
    }
}
