//! Sequence numbers and clocks, in two arithmetics under one trait.
//!
//! The rules are written once over `Number`. On `Wrapped` they are the bench
//! as it is built: short numbers that go round their range. On `Whole` they
//! are the bench that demand 3 measures it by: numbers that only grow and are
//! compared as they are. The two differ in the few functions here and nowhere
//! else. A range is its size, NS or NC, always a power of two up to 2^32.

use std::fmt::Debug;

/// What the rules need of a sequence number or a clock value.
pub trait Number: Copy + Eq + Default + Debug {
    /// The number that a run starts from.
    fn starting(value: u32) -> Self;

    /// This number moved up by `steps`.
    fn plus(self, steps: u64, range: u64) -> Self;

    /// How far this number lies ahead of `other`; below 0 only on whole numbers.
    fn minus(self, other: Self, range: u64) -> i64;

    /// The timestamp test of this timestamp against a recent one.
    fn passes(self, recent: Self, range: u64) -> bool;

    /// Whether the number may stand in a state or a packet.
    fn within(self, range: u64) -> bool;

    /// The slot of the unit with this number.
    fn slot(self, rw: u32) -> usize;

    /// The number as one shows it: its place in the range.
    fn shown(self, range: u64) -> u32;
}

/// A number that goes round its range.
#[derive(Clone, Copy, PartialEq, Eq, Debug, Default)]
pub struct Wrapped(pub u32);

/// The place of `value` in the range. It fits 32 bits, as no range is larger.
fn round(value: u64, range: u64) -> u32 {
    (value % range) as u32
}

impl Number for Wrapped {
    fn starting(value: u32) -> Self {
        Wrapped(value)
    }

    fn plus(self, steps: u64, range: u64) -> Self {
        Wrapped(round(u64::from(self.0).wrapping_add(steps), range))
    }

    fn minus(self, other: Self, range: u64) -> i64 {
        i64::from(round(u64::from(self.0.wrapping_sub(other.0)), range))
    }

    fn passes(self, recent: Self, range: u64) -> bool {
        self.minus(recent, range) < (range / 2) as i64
    }

    fn within(self, range: u64) -> bool {
        u64::from(self.0) < range
    }

    fn slot(self, rw: u32) -> usize {
        (self.0 % rw) as usize
    }

    fn shown(self, _range: u64) -> u32 {
        self.0
    }
}

/// A number that never wraps.
#[derive(Clone, Copy, PartialEq, Eq, Debug, Default)]
pub struct Whole(pub u64);

impl Number for Whole {
    fn starting(value: u32) -> Self {
        Whole(u64::from(value))
    }

    fn plus(self, steps: u64, _range: u64) -> Self {
        Whole(self.0 + steps)
    }

    fn minus(self, other: Self, _range: u64) -> i64 {
        self.0 as i64 - other.0 as i64
    }

    fn passes(self, recent: Self, _range: u64) -> bool {
        self.0 >= recent.0
    }

    fn within(self, _range: u64) -> bool {
        true
    }

    fn slot(self, rw: u32) -> usize {
        (self.0 % u64::from(rw)) as usize
    }

    fn shown(self, range: u64) -> u32 {
        round(self.0, range)
    }
}
