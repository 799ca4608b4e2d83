//! Refusals: short scenes that each end in one refusal number, in random
//! order, with wild and sensible events between them.
//!
//! Numbers 2, 3, 8 and 11 have no scene: a script's bench never meets them.

use super::driver::Driver;
use super::setups;
use super::useful::{run, Habits};
use crate::answers::Refusal;
use crate::bench::Event;
use crate::channel::PLACES;
use crate::random::Random;
use crate::script::LARGEST_SCRIPT;

/// Every scene, each named for what it ends in.
const SCENES: [fn(&mut Driver); 13] = [
    no_such_place,
    no_such_unit,
    full_data_channel,
    full_ack_channel,
    window_closed,
    share_spent,
    stale_data,
    stale_ack,
    data_behind,
    ack_behind,
    already_stored,
    window_already_rw,
    window_not_lowered,
];

pub fn script(mut random: Random) -> Vec<u8> {
    let setup = if random.chance(50) {
        setups::scanty(&mut random)
    } else {
        setups::admitted(&mut random)
    };
    let scenes = random.between(5, 40);
    let mut driver = Driver::new(setup, random);
    let habits = Habits::draw(&mut driver.random);
    for _ in 0..scenes {
        let scene = driver.random.choose(&SCENES);
        if driver.has_room_in(LARGEST_SCRIPT) {
            scene(&mut driver);
        }
        let between = driver.random.below(4) as usize;
        run(&mut driver, habits, between);
    }
    driver.finish()
}

/// 4 at a place that is not there.
fn no_such_place(driver: &mut Driver) {
    let data = driver.past(driver.bench.data.count as u64);
    let ack = driver.past(driver.bench.acks.count as u64);
    let event = driver.random.choose(&[
        Event::Data(data),
        Event::Hear(ack),
        Event::DropData(data),
        Event::DropAck(ack),
        Event::DuplicateData(data),
        Event::DuplicateAck(ack),
    ]);
    let _ = driver.play(event);
}

/// 4 at a unit that is not outstanding.
fn no_such_unit(driver: &mut Driver) {
    let k = driver.past(driver.bench.sender.outstanding.into());
    let _ = driver.play(Event::Send(k));
}

/// 5 at sending and copying, and 4 where both would do.
fn full_data_channel(driver: &mut Driver) {
    driver.supply(1);
    if driver.bench.sender.outstanding == 0 {
        return;
    }
    while !driver.bench.data.full() {
        let _ = driver.play(Event::Send(0));
    }
    let place = driver.random.below(PLACES as u64);
    let _ = driver.play(Event::Send(0));
    let _ = driver.play(Event::DuplicateData(place));
    let missing = driver.past(PLACES as u64);
    let _ = driver.play(Event::DuplicateData(missing));
    no_such_unit(driver);
    for _ in 0..driver.random.below(PLACES as u64) {
        let _ = driver.play(Event::DropData(0));
    }
}

/// 5 at acknowledging and copying, and 4 where both would do.
fn full_ack_channel(driver: &mut Driver) {
    while !driver.bench.acks.full() {
        let _ = driver.play(Event::Ack);
    }
    let place = driver.random.below(PLACES as u64);
    let _ = driver.play(Event::Ack);
    let _ = driver.play(Event::DuplicateAck(place));
    let missing = driver.past(PLACES as u64);
    let _ = driver.play(Event::DuplicateAck(missing));
    for _ in 0..driver.random.below(PLACES as u64) {
        let _ = driver.play(Event::DropAck(0));
    }
}

/// 6, also where the tick's share is spent as well.
fn window_closed(driver: &mut Driver) {
    while driver.open() {
        let unit = driver.unit();
        let _ = driver.play(Event::Accept(unit));
    }
    let unit = driver.unit();
    let _ = driver.play(Event::Accept(unit));
}

/// 7: the window is opened again within the tick until the share is spent.
fn share_spent(driver: &mut Driver) {
    for _ in 0..6 {
        let rw = driver.setup().rw;
        driver.grant(rw);
        window_closed(driver);
        let unit = driver.unit();
        if driver.play(Event::Accept(unit)) == Err(Refusal::ShareSpent) {
            return;
        }
        for _ in 0..driver.waiting().min(5) {
            let wanted = driver.wanted();
            let _ = driver.send(wanted);
            let _ = driver.take_newest();
        }
    }
}

/// 9: a packet that was overtaken by its own retransmission in a later tick.
fn stale_data(driver: &mut Driver) {
    driver.supply(1);
    let wanted = driver.wanted();
    let _ = driver.send(wanted);
    let _ = driver.play(Event::Tick);
    let _ = driver.send(wanted);
    let _ = driver.take_newest();
    let _ = driver.take_newest();
}

/// 9: an acknowledgement that was overtaken by a later one.
fn stale_ack(driver: &mut Driver) {
    driver.spare_ack_place();
    let _ = driver.play(Event::Ack);
    let _ = driver.play(Event::Tick);
    driver.acknowledge();
    let _ = driver.hear_newest();
}

/// 10: a copy of a packet that was delivered in the same tick.
fn data_behind(driver: &mut Driver) {
    driver.supply(1);
    let wanted = driver.wanted();
    let _ = driver.send(wanted);
    let _ = driver.send(wanted);
    let _ = driver.take_newest();
    let _ = driver.take_newest();
}

/// 10: an acknowledgement from before a delivery in the same tick.
fn ack_behind(driver: &mut Driver) {
    driver.supply(1);
    driver.spare_ack_place();
    let _ = driver.play(Event::Ack);
    let wanted = driver.wanted();
    let _ = driver.send(wanted);
    let _ = driver.take_newest();
    driver.acknowledge();
    let _ = driver.hear_newest();
}

/// 12: a unit after the wanted one that comes twice.
fn already_stored(driver: &mut Driver) {
    driver.supply(2);
    let later = driver.wanted() + 1;
    for _ in 0..2 {
        let _ = driver.send(later);
        let _ = driver.take_newest();
    }
}

/// 13.
fn window_already_rw(driver: &mut Driver) {
    for _ in 0..=driver.setup().rw {
        if driver.play(Event::Room).is_err() {
            return;
        }
    }
}

/// An older, smaller window that is heard after a larger one, both of the
/// same tick and number: it must not lower what was granted.
fn window_not_lowered(driver: &mut Driver) {
    driver.acknowledge();
    driver.spare_ack_place();
    let _ = driver.play(Event::Ack);
    let _ = driver.play(Event::Room);
    driver.acknowledge();
    let _ = driver.hear_newest();
    window_closed(driver);
}
