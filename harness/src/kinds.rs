//! The kinds of long run that are compared and timed.

use crate::library;
use second::soak;

/// One way to make the run: what it is called, and the run of a seed and a
/// count of events, which gives a checksum.
pub struct Kind {
    pub name: &'static str,
    pub title: &'static str,
    pub run: fn(u64, u64) -> u64,
}

/// The first is what the others are measured against.
pub const KINDS: [Kind; 4] = [
    Kind {
        name: "rust",
        title: "Rust in place, without the test",
        run: |seed, events| soak(seed, events, false),
    },
    Kind {
        name: "rust-checked",
        title: "Rust in place, with the test at each event",
        run: |seed, events| soak(seed, events, true),
    },
    Kind {
        name: "bench",
        title: "the bench in place, without the test",
        run: library::soak_unchecked,
    },
    Kind {
        name: "bench-checked",
        title: "the bench by value, with the test at each event",
        run: library::soak_checked,
    },
];

/// The kind of a name.
pub fn named(name: &str) -> Option<&'static Kind> {
    KINDS.iter().find(|kind| kind.name == name)
}
