//! The long run: it does useful work, and the malformed test changes nothing.

use crate::answers::delivered;
use crate::bench::Bench;
use crate::numbers::{Whole, Wrapped};
use crate::soak::{run, soak, SETUP};

#[test]
fn most_events_succeed_and_units_arrive() {
    let events = 100_000;
    let mut bench = Bench::<Wrapped>::fresh(SETUP);
    let (mut done, mut units) = (0, 0);
    run(1, events, |event, row| {
        let answer = bench.event(event, row);
        done += u64::from(answer.is_ok());
        units += delivered(answer) as u64;
        answer
    });
    assert!(3 * done > 2 * events, "{done} of {events} events succeed");
    assert!(30 * units > events, "{units} units in {events} events");
}

#[test]
fn the_test_changes_nothing() {
    for seed in 0..20 {
        assert_eq!(soak(seed, 5_000, true), soak(seed, 5_000, false));
    }
}

#[test]
fn whole_numbers_give_the_same() {
    let mut bench = Bench::<Whole>::fresh(SETUP);
    let whole = run(7, 50_000, |event, row| bench.event(event, row));
    assert_eq!(whole, soak(7, 50_000, false));
}

#[test]
fn seeds_give_different_runs() {
    assert_ne!(soak(1, 1_000, false), soak(2, 1_000, false));
}
