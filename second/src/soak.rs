//! One long run of mixed events from fresh, with a checksum over everything
//! that it answers: every answer, count and delivered unit, in order.
//!
//! The events come from a stream of random numbers, xorshift64, so a seed and
//! a count decide the run. Another program that makes the same run must come
//! to the same number.

use crate::answers::{delivered, number, Answer};
use crate::bench::{Bench, Event};
use crate::malformed::checked;
use crate::numbers::Wrapped;
use crate::sender::SLOTS;
use crate::setup::Setup;

/// A small setup, so that numbers and clocks go round often.
pub const SETUP: Setup = Setup {
    rw: 8,
    seqbits: 6,
    clockbits: 5,
    life: 3,
    rate: 4,
    seq: 60,
    sclock: 30,
    rclock: 7,
};

/// What a seed of 0 stands for: the stream would stay at 0.
const FOR_ZERO: u64 = 88_172_645_463_325_252;

/// The checksum of so many events, with the malformed test in front of each
/// event or without it.
pub fn soak(seed: u64, events: u64, test: bool) -> u64 {
    let mut bench = Bench::<Wrapped>::fresh(SETUP);
    if test {
        run(seed, events, |event, row| {
            checked(&mut bench, |bench| bench.event(event, row))
        })
    } else {
        run(seed, events, |event, row| bench.event(event, row))
    }
}

/// The run, by whatever answers an event.
pub fn run(
    seed: u64,
    events: u64,
    mut answer: impl FnMut(Event, &mut [u64; SLOTS]) -> Answer,
) -> u64 {
    let mut row = [0; SLOTS];
    let mut draw = if seed == 0 { FOR_ZERO } else { seed };
    let mut sum = 0;
    for _ in 0..events {
        let answer = answer(chosen(draw), &mut row);
        sum = tallied(sum, answer, &row);
        draw = next(draw);
    }
    sum
}

/// The next number of the stream.
fn next(mut draw: u64) -> u64 {
    draw ^= draw << 13;
    draw ^= draw >> 7;
    draw ^ (draw << 17)
}

/// The event that a number stands for: its last five bits choose the kind, and
/// the bits past the eighth a place near the front.
fn chosen(draw: u64) -> Event {
    let place = draw >> 8;
    match draw % 32 {
        0..=2 => Event::Accept(draw),
        3..=9 => Event::Send(place % 4),
        10..=14 => Event::Data(place % 2),
        15..=17 => Event::Room,
        18..=21 => Event::Ack,
        22..=25 => Event::Hear(place % 2),
        26..=27 => Event::Tick,
        28 => Event::DropData(place % 2),
        29 => Event::DropAck(place % 2),
        30 => Event::DuplicateData(place % 2),
        _ => Event::DuplicateAck(place % 2),
    }
}

/// The checksum with one event's answer, count and units more.
fn tallied(sum: u64, answer: Answer, row: &[u64; SLOTS]) -> u64 {
    let units = &row[..delivered(answer)];
    let sum = mixed(sum, u64::from(number(answer)));
    let sum = mixed(sum, units.len() as u64);
    units.iter().fold(sum, |sum, &unit| mixed(sum, unit))
}

/// The sum turned by five places, and the number added.
fn mixed(sum: u64, value: u64) -> u64 {
    sum.rotate_left(5).wrapping_add(value)
}
