//! Limits: scripts about as long as a script may be, exactly as long, and one
//! byte or more too long, with a whole last line or a cut one.

use super::driver::Driver;
use super::setups;
use super::useful::{step, Habits};
use crate::bench::Event;
use crate::random::Random;
use crate::script::LARGEST_SCRIPT;

/// The longest line of an `ack` event: its value may have twenty digits.
const LONGEST_ACK: usize = "ack=".len() + 20 + 1;

pub fn script(mut random: Random) -> Vec<u8> {
    let setup = if random.chance(50) {
        setups::tight(&mut random)
    } else {
        setups::admitted(&mut random)
    };
    let size = size(&mut random);
    let dense = random.chance(25);
    let cut = random.chance(25);
    let mut driver = Driver::new(setup, random);
    let habits = Habits::draw(&mut driver.random);
    while driver.has_room_in(size) {
        if dense {
            shortest_event(&mut driver);
        } else {
            step(&mut driver, habits);
        }
    }
    if cut {
        while driver.bytes() <= size {
            shortest_event(&mut driver);
        }
        let mut text = driver.finish();
        text.truncate(size);
        return text;
    }
    fill(&mut driver, size);
    driver.finish()
}

/// How many bytes the script has.
fn size(random: &mut Random) -> usize {
    let about = random.between(64_000, 65_535) as usize;
    let above = random.between(65_538, 70_000) as usize;
    random.choose(&[
        about,
        LARGEST_SCRIPT,
        LARGEST_SCRIPT,
        LARGEST_SCRIPT + 1,
        above,
    ])
}

/// Events up to exactly `size` bytes; leading zeros make up the rest.
fn fill(driver: &mut Driver, size: usize) {
    while driver.bytes() + LONGEST_ACK < size {
        shortest_event(driver);
    }
    let digits = size.saturating_sub(driver.bytes() + "ack=\n".len());
    let _ = driver.play_wide(Event::Ack, digits);
}

/// An event whose line is about as short as a line can be.
fn shortest_event(driver: &mut Driver) {
    let place = driver.random.below(4);
    let event = driver.random.choose(&[
        Event::Ack,
        Event::Ack,
        Event::Room,
        Event::Tick,
        Event::Hear(place),
    ]);
    let _ = driver.play_wide(event, 1);
}
