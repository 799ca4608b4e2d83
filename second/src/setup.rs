//! The setup numbers and the rule that admits them.
//!
//! Every other part trusts that an admitted setup has RW dividing NS, a
//! range that is a power of two, and a life that leaves ages far below 2^32.

/// The eight numbers that a script begins with.
#[derive(Clone, Copy, PartialEq, Eq, Debug, Default)]
pub struct Setup {
    /// RW, the largest window in units.
    pub rw: u32,
    /// NS is 2 to this power.
    pub seqbits: u32,
    /// NC is 2 to this power.
    pub clockbits: u32,
    /// L, how many ticks a packet may live.
    pub life: u32,
    /// B, how many units may be accepted in one tick.
    pub rate: u32,
    /// Starting sequence number of both ends.
    pub seq: u32,
    /// Starting clock of the sender.
    pub sclock: u32,
    /// Starting clock of the receiver.
    pub rclock: u32,
}

impl Setup {
    /// NS, the count of sequence numbers. Only for seqbits of 32 or less.
    pub fn ns(&self) -> u64 {
        1 << self.seqbits
    }

    /// NC, the count of clock values. Only for clockbits of 32 or less.
    pub fn nc(&self) -> u64 {
        1 << self.clockbits
    }

    /// Whether the bench may run on these numbers; if not, refusal 1.
    pub fn admitted(&self) -> bool {
        self.within_limits() && self.starts_in_range() && self.wide_enough()
    }

    fn within_limits(&self) -> bool {
        matches!(self.rw, 1 | 2 | 4 | 8 | 16 | 32 | 64)
            && (2..=32).contains(&self.seqbits)
            && (3..=32).contains(&self.clockbits)
            && self.life >= 1
            && self.rate >= 1
    }

    fn starts_in_range(&self) -> bool {
        u64::from(self.seq) < self.ns()
            && u64::from(self.sclock) < self.nc()
            && u64::from(self.rclock) < self.nc()
    }

    fn wide_enough(&self) -> bool {
        self.ns() >= 3 * u64::from(self.rw) + u64::from(self.rate)
            && self.nc() > 4 * u64::from(self.life)
    }
}
