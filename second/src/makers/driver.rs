//! The driver: writes a script's events while it plays them on a bench.
//!
//! Because it has the bench in view, it can pick events that succeed, or ones
//! that are refused in a wanted way. It also holds the few habits that all
//! kinds share: picking units, places and wild events.

use crate::answers::{Answer, Refusal};
use crate::bench::{Bench, Event};
use crate::numbers::{Number, Wrapped};
use crate::random::Random;
use crate::script::{event_words, setup_values, SETUP_KEYS};
use crate::sender::SLOTS;
use crate::setup::Setup;

/// More bytes than any one step or scene writes.
const LONGEST_STEP: usize = 6_000;

/// A script in the making.
pub struct Driver {
    pub bench: Bench<Wrapped>,
    pub random: Random,
    text: Vec<u8>,
    row: [u64; SLOTS],
}

impl Driver {
    /// A script that begins with an admitted setup.
    pub fn new(setup: Setup, random: Random) -> Self {
        Driver::claiming(setup, setup, random)
    }

    /// A script whose events suit the setup `played`, written under another.
    pub fn claiming(written: Setup, played: Setup, random: Random) -> Self {
        let mut driver = Driver {
            bench: Bench::fresh(played),
            random,
            text: Vec::new(),
            row: [0; SLOTS],
        };
        for (key, value) in SETUP_KEYS.iter().zip(setup_values(&written)) {
            driver.write(key, value, 1);
        }
        driver
    }

    /// Writes an event and plays it.
    pub fn play(&mut self, event: Event) -> Answer {
        let width = if self.random.chance(1) {
            self.random.between(2, 20) as usize
        } else {
            1
        };
        self.play_wide(event, width)
    }

    /// Plays an event whose value is written with at least `width` digits.
    pub fn play_wide(&mut self, event: Event, width: usize) -> Answer {
        let (key, value) = event_words(event);
        self.write(key, value, width);
        self.bench.event(event, &mut self.row)
    }

    /// How many bytes are written.
    pub fn bytes(&self) -> usize {
        self.text.len()
    }

    /// Whether any one step or scene still fits into a script of this size.
    pub fn has_room_in(&self, size: usize) -> bool {
        self.bytes() + LONGEST_STEP < size
    }

    pub fn finish(self) -> Vec<u8> {
        self.text
    }

    pub fn setup(&self) -> Setup {
        self.bench.sender.setup
    }

    /// Of the outstanding units, the one that the receiver wants next.
    pub fn wanted(&self) -> u64 {
        let ns = self.setup().ns();
        let nxt = self.bench.receiver.nxt;
        nxt.minus(self.bench.sender.una, ns) as u64
    }

    /// How many outstanding units the receiver has not delivered.
    pub fn waiting(&self) -> u64 {
        u64::from(self.bench.sender.outstanding).saturating_sub(self.wanted())
    }

    /// Whether the sender would take a unit now.
    pub fn open(&self) -> bool {
        let sender = &self.bench.sender;
        sender.outstanding < sender.granted && sender.accepted < sender.setup.rate
    }

    /// A trigger time: short, long, or one at an edge.
    pub fn unit(&mut self) -> u64 {
        match self.random.below(10) {
            0 => self.random.choose(&[0, 1, u64::MAX, 1 << 63, 1 << 32]),
            1..=3 => self.random.draw(),
            _ => self.random.below(1000),
        }
    }

    /// Any event, with no regard to what would succeed.
    pub fn wild(&mut self) -> Event {
        let unit = self.unit();
        let k = self.number_near(self.bench.sender.outstanding.into());
        let data = self.number_near(self.bench.data.count as u64);
        let ack = self.number_near(self.bench.acks.count as u64);
        self.random.choose(&[
            Event::Accept(unit),
            Event::Send(k),
            Event::Data(data),
            Event::Hear(ack),
            Event::DropData(data),
            Event::DropAck(ack),
            Event::DuplicateData(data),
            Event::DuplicateAck(ack),
            Event::Room,
            Event::Ack,
            Event::Tick,
        ])
    }

    /// A place or k: mostly below `count`, else at it, or far past it.
    pub fn number_near(&mut self, count: u64) -> u64 {
        if count > 0 && self.random.chance(80) {
            return self.random.below(count);
        }
        self.past(count)
    }

    /// A place or k that does not exist, also ones that would if cut short.
    pub fn past(&mut self, count: u64) -> u64 {
        let wrap = self.random.choose(&[1 << 8, 1 << 16, 1 << 32, 1 << 63]);
        match self.random.below(5) {
            0 | 1 => count,
            2 => count + self.random.below(40),
            3 => count.max(wrap) + self.random.below(count.max(1)),
            _ => u64::MAX,
        }
    }

    /// Opens the window as far as `units`, as the sender hears of it at once.
    pub fn grant(&mut self, units: u32) {
        while self.bench.receiver.window < units.min(self.setup().rw) {
            let _ = self.play(Event::Room);
        }
        self.acknowledge();
    }

    /// One acknowledgement that is sent and heard at once.
    pub fn acknowledge(&mut self) {
        self.spare_ack_place();
        let _ = self.play(Event::Ack);
        let _ = self.hear_newest();
    }

    /// Grants and accepts until `units` units wait to be delivered.
    pub fn supply(&mut self, units: u64) {
        self.grant(units as u32);
        for _ in 0..units {
            if self.waiting() >= units {
                return;
            }
            let unit = self.unit();
            if self.play(Event::Accept(unit)) == Err(Refusal::ShareSpent) {
                let _ = self.play(Event::Tick);
                let _ = self.play(Event::Accept(unit));
            }
        }
    }

    /// Sends unit `k`, for which a place is made if need be.
    pub fn send(&mut self, k: u64) -> Answer {
        if self.bench.data.full() {
            let _ = self.play(Event::DropData(0));
        }
        self.play(Event::Send(k))
    }

    /// The packet that was added last arrives.
    pub fn take_newest(&mut self) -> Answer {
        let newest = (self.bench.data.count as u64).saturating_sub(1);
        self.play(Event::Data(newest))
    }

    /// The acknowledgement that was added last arrives.
    pub fn hear_newest(&mut self) -> Answer {
        let newest = (self.bench.acks.count as u64).saturating_sub(1);
        self.play(Event::Hear(newest))
    }

    /// Drops an acknowledgement if there is no place for another.
    pub fn spare_ack_place(&mut self) {
        if self.bench.acks.full() {
            let _ = self.play(Event::DropAck(0));
        }
    }

    fn write(&mut self, key: &str, value: u64, width: usize) {
        let line = format!("{key}={value:0>width$}\n");
        self.text.extend_from_slice(line.as_bytes());
    }
}
