//! The slips that look right, each on an input where it shows, and the planted
//! ones over random scripts.

use super::{answers_in, lines, listed, text, SESSION_WORDS};
use crate::slips::{found, slipped_listing, Slip, SHOWING, SILENT};

/// The answers by the right rules and by the rules with a slip.
fn both(setup: &str, events: &str, slip: Slip) -> (String, String) {
    let script = lines(&format!("{setup} {events}"));
    let right = answers_in(&listed(&script));
    let slipped = answers_in(&text(slipped_listing(&script, slip)));
    (right, slipped)
}

fn last(answers: &str) -> &str {
    answers.rsplit(", ").next().unwrap_or_default()
}

#[test]
fn plain_timestamps_lose_a_fresh_packet() {
    let events = "room=1 room=1 ack=1 hear=0 accept=5 accept=6 send=0 data=0 \
        tick=1 send=1 data=0";
    let (right, slipped) = both(SESSION_WORDS, events, Slip::PlainTimestamps);
    assert_eq!(last(&right), "0 6");
    assert_eq!(last(&slipped), "9");
}

#[test]
fn recent_from_every_stored_unit_loses_a_retransmission() {
    let events = "room=1 room=1 ack=1 hear=0 accept=5 accept=6 send=0 tick=1 \
        send=1 data=1 data=0";
    let (right, slipped) = both(SESSION_WORDS, events, Slip::RecentFromEveryStored);
    assert_eq!(last(&right), "0 5 6");
    assert_eq!(last(&slipped), "9");
}

#[test]
fn recent_without_end_loses_packets_after_an_idle_spell() {
    let events = "room=1 room=1 ack=1 hear=0 accept=5 accept=6 send=0 data=0 \
        tick=1 tick=1 tick=1 tick=1 send=1 data=0";
    let (right, slipped) = both(SESSION_WORDS, events, Slip::RecentForEver);
    assert_eq!(last(&right), "0 6");
    assert_eq!(last(&slipped), "9");
}

#[test]
fn a_copy_of_age_zero_comes_back_one_lap_on() {
    let setup = "window=1 seqbits=2 clockbits=3 life=1 rate=1 seq=0 sclock=0 rclock=0";
    let renewed = "dupd=0 dropd=0 tick=1";
    let open = "room=1 ack=1 hear=0";
    let mut events = format!("{open} accept=100 send=0 dupd=0 data=0 ");
    for unit in 101..104 {
        events.push_str(&format!("{renewed} {open} accept={unit} send=0 "));
        events.push_str("dupd=0 dropd=0 data=0 ");
    }
    events.push_str(&format!("{renewed} {renewed} {open} accept=104 data=0"));
    let slipped = both(setup, &events, Slip::CopyGetsAgeZero).1;
    assert_eq!(last(&slipped), "0 100");
    let (right, _) = both(setup, &events, Slip::CopyGetsAgeZero);
    assert_eq!(last(&right), "4");
}

#[test]
fn an_equal_number_must_not_lower_the_window() {
    let events = "ack=1 room=1 ack=1 hear=1 hear=0 accept=5";
    let (right, slipped) = both(SESSION_WORDS, events, Slip::EqualNumberLowersWindow);
    assert_eq!(right, "0, 0, 0, 0, 0, 0");
    assert_eq!(slipped, "0, 0, 0, 0, 0, 6");
}

#[test]
fn random_scripts_show_every_slip_that_can_show() {
    for (slip, shown) in found(0, 150, &SHOWING) {
        assert!(shown > 0, "{slip:?}");
    }
}

#[test]
fn random_scripts_never_show_the_silent_slips() {
    for (slip, shown) in found(0, 150, &SILENT) {
        assert_eq!(shown, 0, "{slip:?}");
    }
}
