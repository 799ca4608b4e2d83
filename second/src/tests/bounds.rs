//! Demand 3 at the bounds: it holds on the tightest setups, and one step
//! outside either bound there is a run on which it fails.

use super::SESSION;
use crate::agree::agree;
use crate::answers::Answer;
use crate::bench::{Bench, Event};
use crate::numbers::{Number, Whole, Wrapped};
use crate::setup::Setup;

/// The last answer of a run, on a bench that was never asked for admission.
fn last_answer<N: Number>(setup: Setup, events: &[Event]) -> Answer {
    let mut bench = Bench::<N>::fresh(setup);
    let mut answer = Ok(0);
    for &event in events {
        answer = bench.event(event, &mut [0; 64]);
    }
    answer
}

fn answers_agree(setup: Setup, events: &[Event]) -> bool {
    last_answer::<Wrapped>(setup, events) == last_answer::<Whole>(setup, events)
}

/// RW 1 and NS 4. An acknowledgement is held back while its tick's share and
/// one unit from before are freed.
#[test]
fn the_sequence_bound_is_sharp_for_the_smallest_window() {
    let admitted = Setup {
        rw: 1,
        seqbits: 2,
        rate: 1,
        seq: 0,
        ..SESSION
    };
    let outside = Setup {
        rate: 2,
        ..admitted
    };
    assert!(admitted.admitted() && !outside.admitted());
    let open = [Event::Room, Event::Ack, Event::Hear(0)];
    let reopen = [Event::Room, Event::Ack, Event::Hear(1)];
    let cross = [Event::Send(0), Event::Data(0)];
    let mut events = open.to_vec();
    events.extend([Event::Accept(1), Event::Tick, Event::Ack]);
    for unit in 2..4 {
        events.extend(cross);
        events.extend(reopen);
        events.push(Event::Accept(unit));
    }
    events.extend(cross);
    events.extend([Event::Ack, Event::Hear(1), Event::Hear(0)]);
    assert!(answers_agree(admitted, &events));
    assert!(!answers_agree(outside, &events));
}

/// NC 8. A packet is taken at the end of its life, and the next one at the end
/// of recent's.
#[test]
fn the_clock_bound_is_sharp() {
    for (life, agrees) in [(1, true), (2, false)] {
        let setup = Setup { life, ..SESSION };
        assert_eq!(setup.admitted(), agrees);
        let mut events = vec![Event::Room, Event::Room, Event::Ack, Event::Hear(0)];
        events.extend([Event::Accept(1), Event::Accept(2), Event::Send(0)]);
        events.extend(vec![Event::Tick; life as usize]);
        events.push(Event::Data(0));
        events.extend(vec![Event::Tick; life as usize]);
        events.extend([Event::Send(1), Event::Data(0)]);
        assert_eq!(answers_agree(setup, &events), agrees);
    }
}

#[test]
fn wrapped_and_whole_agree_on_random_scripts() {
    let summary = agree(0, 150);
    assert_eq!(summary.failures, Vec::<String>::new());
    assert!(summary.delivered > 0 && summary.laps > 0 && summary.clock_laps > 0);
}

#[test]
fn random_scripts_meet_every_answer_that_a_bench_can_give() {
    let summary = agree(0, 150);
    for number in [0, 4, 5, 6, 7, 9, 10, 12, 13] {
        assert!(summary.answers[number] > 0, "{number}");
    }
    for number in [1, 2, 3, 8, 11] {
        assert_eq!(summary.answers[number], 0, "{number}");
    }
}
