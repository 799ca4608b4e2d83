//! Long runs compared: every kind must come to the same number.

use crate::count::Count;
use crate::kinds::KINDS;

/// Runs every kind for each seed, with more events for a later one.
pub fn compare(seeds: u64, events: u64) -> Count {
    let mut count = Count::default();
    for seed in 0..seeds {
        let events = events * (seed + 1);
        let expected = (KINDS[0].run)(seed, events);
        for kind in &KINDS[1..] {
            let given = (kind.run)(seed, events);
            count.note(given == expected, || {
                let title = kind.title;
                format!("seed {seed}, {events} events, {title}: {given}, expected {expected}")
            });
        }
        count.events += events;
    }
    count
}
