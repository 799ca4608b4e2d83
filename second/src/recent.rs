//! Recent: the timestamp that an end remembers, with its age, or none.
//!
//! Both ends keep one and treat it alike, so the timestamp test and the ageing
//! stand here once. "None" is kept as a flag beside a value and an age that
//! must then be 0; a state in which they are not is malformed.

use crate::numbers::Number;

/// A remembered timestamp, or none if not `known`.
#[derive(Clone, Copy, PartialEq, Eq, Debug, Default)]
pub struct Recent<N> {
    pub known: bool,
    pub value: N,
    pub age: u32,
}

impl<N: Number> Recent<N> {
    /// No recent at all.
    pub fn none() -> Self {
        Recent::default()
    }

    /// The timestamp of a packet that was taken just now.
    pub fn just(value: N) -> Self {
        Recent {
            known: true,
            value,
            age: 0,
        }
    }

    /// The timestamp test: a packet that fails it is stale.
    pub fn lets_pass(&self, timestamp: N, nc: u64) -> bool {
        !self.known || timestamp.passes(self.value, nc)
    }

    /// One tick older, and gone once older than `life`.
    pub fn tick(&mut self, life: u32) {
        if self.known {
            self.age += 1;
            if self.age > life {
                *self = Recent::none();
            }
        }
    }
}
