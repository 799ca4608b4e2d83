//! Each refusal number that a bench can give, and what it leaves.

use super::{answers, answers_after, lines, listed, SESSION, SESSION_WORDS};
use crate::answers::Refusal;
use crate::bench::{Bench, Event};
use crate::malformed::checked;
use crate::numbers::Wrapped;
use crate::setup::Setup;

/// Two units are granted, accepted and sent.
const TWO_SENT: &str = "room=1 room=1 ack=1 hear=0 accept=10 accept=11 send=0 send=1";

fn after(events: &[Event]) -> Bench<Wrapped> {
    let mut bench = Bench::start(SESSION).expect("the session's setup is admitted");
    for &event in events {
        bench.event(event, &mut [0; 64]).expect("a good event");
    }
    bench
}

/// A bench whose window of two is full, with both units sent.
fn two_sent() -> Bench<Wrapped> {
    after(&[
        Event::Room,
        Event::Room,
        Event::Ack,
        Event::Hear(0),
        Event::Accept(10),
        Event::Accept(11),
        Event::Send(0),
        Event::Send(1),
    ])
}

/// The event is refused so and leaves the whole bench and the row.
fn leaves_everything(bench: &Bench<Wrapped>, event: Event, refusal: Refusal) {
    let mut moved = bench.clone();
    let mut row = [77; 64];
    let answer = checked(&mut moved, |bench| bench.event(event, &mut row));
    assert_eq!(answer, Err(refusal), "{event:?}");
    assert_eq!(moved, *bench, "{event:?}");
    assert_eq!(row, [77; 64], "{event:?}");
}

#[test]
fn one_for_a_setup_that_is_not_admitted() {
    let setup = Setup { rate: 3, ..SESSION };
    let refused = Bench::<Wrapped>::start(setup);
    assert_eq!(refused.err(), Some(Refusal::SetupNotAdmitted));
    let script = SESSION_WORDS.replace("rate=2", "rate=3");
    assert_eq!(listed(&lines(&script)), "setup 1\n");
}

#[test]
fn two_for_a_malformed_state_before_all_others() {
    let mut bench = two_sent();
    bench.sender.granted = 3;
    let mut row: [u64; 0] = [];
    let short = checked(&mut bench, |bench| bench.event(Event::Data(99), &mut row));
    assert_eq!(short, Err(Refusal::MalformedState));
    for event in [Event::Tick, Event::Room, Event::Accept(1), Event::Send(9)] {
        leaves_everything(&bench, event, Refusal::MalformedState);
    }
}

#[test]
fn two_for_the_state_of_zeros() {
    let bench = Bench::fresh(Setup::default());
    leaves_everything(&bench, Event::Tick, Refusal::MalformedState);
}

#[test]
fn four_for_what_is_not_there() {
    let bench = two_sent();
    for place in [2, 3, 1 << 32, u64::MAX] {
        for event in [
            Event::Send(place),
            Event::Data(place),
            Event::DropData(place),
            Event::DuplicateData(place),
            Event::Hear(place),
            Event::DropAck(place),
            Event::DuplicateAck(place),
        ] {
            leaves_everything(&bench, event, Refusal::NoSuchPlace);
        }
    }
    leaves_everything(&bench, Event::Hear(0), Refusal::NoSuchPlace);
}

#[test]
fn five_for_a_full_channel_after_four() {
    let mut bench = two_sent();
    while !bench.data.full() {
        bench.event(Event::Send(1), &mut []).expect("a place");
    }
    while !bench.acks.full() {
        bench.event(Event::Ack, &mut []).expect("a place");
    }
    for event in [
        Event::Send(0),
        Event::DuplicateData(31),
        Event::DuplicateAck(0),
        Event::Ack,
    ] {
        leaves_everything(&bench, event, Refusal::ChannelFull);
    }
    for event in [
        Event::Send(2),
        Event::DuplicateData(32),
        Event::DuplicateAck(32),
    ] {
        leaves_everything(&bench, event, Refusal::NoSuchPlace);
    }
}

#[test]
fn six_for_a_closed_window_before_seven() {
    leaves_everything(&after(&[]), Event::Accept(1), Refusal::WindowClosed);
    leaves_everything(&two_sent(), Event::Accept(1), Refusal::WindowClosed);
}

#[test]
fn seven_for_a_spent_share_until_the_next_tick() {
    let reopened = "data=0 data=0 room=1 ack=1 hear=0 accept=12 tick=1 accept=12";
    assert_eq!(
        answers(&format!("{TWO_SENT} {reopened}")),
        "0, 0, 0, 0, 0, 0, 0, 0, 0 10, 0 11, 0, 0, 0, 7, 0, 0"
    );
}

#[test]
fn eight_for_a_short_row_before_four() {
    let bench = two_sent();
    for event in [Event::Data(0), Event::Data(99)] {
        let mut moved = bench.clone();
        let mut row = [77; 1];
        let answer = moved.event(event, &mut row);
        assert_eq!(answer, Err(Refusal::RowTooShort));
        assert_eq!((moved, row), (bench.clone(), [77; 1]));
    }
    let mut row = [77; 2];
    assert_eq!(two_sent().event(Event::Data(0), &mut row), Ok(1));
    assert_eq!(row, [10, 77]);
}

/// The event is refused so, leaves both ends and the row, and its packet is
/// gone.
fn loses_the_packet(bench: &Bench<Wrapped>, event: Event, refusal: Refusal) {
    let mut moved = bench.clone();
    let mut row = [77; 64];
    assert_eq!(moved.event(event, &mut row), Err(refusal));
    assert_eq!(moved.sender, bench.sender);
    assert_eq!(moved.receiver, bench.receiver);
    assert_eq!(row, [77; 64]);
    let mut expected = bench.clone();
    match event {
        Event::Data(place) => expected.data.drop(place).expect("a packet"),
        Event::Hear(place) => expected.acks.drop(place).expect("a packet"),
        _ => panic!("not an arrival"),
    }
    assert_eq!(moved, expected);
}

#[test]
fn nine_for_a_stale_packet() {
    let mut bench = two_sent();
    for event in [Event::Ack, Event::Tick, Event::Send(0), Event::Ack] {
        bench.event(event, &mut []).expect("a good event");
    }
    bench.event(Event::Data(2), &mut [0; 64]).expect("unit 10");
    bench.event(Event::Hear(1), &mut []).expect("a later ack");
    loses_the_packet(&bench, Event::Data(1), Refusal::Stale);
    loses_the_packet(&bench, Event::Hear(0), Refusal::Stale);
}

#[test]
fn ten_for_a_packet_from_behind() {
    let mut bench = two_sent();
    for event in [Event::DuplicateData(0), Event::Ack, Event::Data(0)] {
        bench.event(event, &mut [0; 64]).expect("a good event");
    }
    loses_the_packet(&bench, Event::Data(1), Refusal::Behind);
    bench.event(Event::Ack, &mut []).expect("a later ack");
    bench.event(Event::Hear(1), &mut []).expect("one freed");
    loses_the_packet(&bench, Event::Hear(0), Refusal::Behind);
}

#[test]
fn twelve_for_a_unit_that_is_stored() {
    let mut bench = two_sent();
    for event in [Event::DuplicateData(1), Event::Data(1)] {
        bench.event(event, &mut [0; 64]).expect("a good event");
    }
    loses_the_packet(&bench, Event::Data(1), Refusal::AlreadyStored);
}

#[test]
fn thirteen_for_a_window_of_rw() {
    let bench = after(&[Event::Room, Event::Room]);
    leaves_everything(&bench, Event::Room, Refusal::WindowAlreadyRw);
}

#[test]
fn a_packet_can_be_taken_until_its_life_is_over() {
    let setup = SESSION_WORDS.replace("clockbits=3 life=1", "clockbits=4 life=3");
    let sent = "room=1 ack=1 hear=0 accept=10 send=0";
    let ticks = |count: usize| "tick=1 ".repeat(count);
    let in_time = format!("{sent} {} data=0", ticks(3));
    let too_late = format!("{sent} {} data=0", ticks(4));
    assert!(answers_after(&setup, &in_time).ends_with(", 0 10"));
    assert!(answers_after(&setup, &too_late).ends_with(", 4"));
}

#[test]
fn an_equal_number_sets_recent_even_if_the_window_stays() {
    let events = "ack=1 tick=1 ack=1 hear=1 hear=0";
    assert_eq!(answers(events), "0, 0, 0, 0, 9");
}
