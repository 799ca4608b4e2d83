//! The bench: both ends and both channels, taking one event at a time.
//!
//! The malformed test is not made here: `malformed::checked` puts it in front
//! of an event where it is wanted. Without it the bench relies on having been
//! started from fresh and moved by events alone.

use crate::answers::{Answer, Refusal};
use crate::channel::{AckPacket, Channel, DataPacket};
use crate::numbers::Number;
use crate::receiver::Receiver;
use crate::sender::Sender;
use crate::setup::Setup;

/// One thing that may happen on the bench.
#[derive(Clone, Copy, PartialEq, Eq, Debug)]
pub enum Event {
    Accept(u64),
    Send(u64),
    Data(u64),
    Hear(u64),
    DropData(u64),
    DropAck(u64),
    DuplicateData(u64),
    DuplicateAck(u64),
    Room,
    Ack,
    Tick,
}

/// All four parts.
#[derive(Clone, PartialEq, Eq, Debug)]
pub struct Bench<N> {
    pub sender: Sender<N>,
    pub receiver: Receiver<N>,
    pub data: Channel<DataPacket<N>>,
    pub acks: Channel<AckPacket<N>>,
}

impl<N: Number> Bench<N> {
    /// The fresh bench; refused 1.
    pub fn start(setup: Setup) -> Result<Self, Refusal> {
        if !setup.admitted() {
            return Err(Refusal::SetupNotAdmitted);
        }
        Ok(Bench::fresh(setup))
    }

    /// All parts fresh under one setup. Under the setup of zeros, all zero.
    pub fn fresh(setup: Setup) -> Self {
        Bench {
            sender: Sender::fresh(setup),
            receiver: Receiver::fresh(setup),
            data: Channel::fresh(setup),
            acks: Channel::fresh(setup),
        }
    }

    /// One event. Delivered units are written to the start of the lent row.
    pub fn event(&mut self, event: Event, row: &mut [u64]) -> Answer {
        match event {
            Event::Accept(unit) => done(self.sender.accept(unit)),
            Event::Send(k) => done(self.send(k)),
            Event::Data(place) => self.data(place, row),
            Event::Hear(place) => done(self.hear(place)),
            Event::DropData(place) => done(self.data.drop(place)),
            Event::DropAck(place) => done(self.acks.drop(place)),
            Event::DuplicateData(place) => done(self.data.duplicate(place)),
            Event::DuplicateAck(place) => done(self.acks.duplicate(place)),
            Event::Room => done(self.receiver.room()),
            Event::Ack => done(self.acks.add(self.receiver.ack())),
            Event::Tick => Ok(self.tick()),
        }
    }

    /// Outstanding unit `k` goes out; refused 4, 5.
    fn send(&mut self, k: u64) -> Result<(), Refusal> {
        let packet = self.sender.send(k)?;
        self.data.add(packet)
    }

    /// The data packet at a place arrives; refused 8, 4, 9, 10 or 11, 12.
    fn data(&mut self, place: u64, row: &mut [u64]) -> Answer {
        if row.len() < self.receiver.setup.rw as usize {
            return Err(Refusal::RowTooShort);
        }
        let packet = self.data.at(place)?;
        let answer = self.receiver.data(packet, row);
        self.data.drop(place)?;
        answer
    }

    /// The acknowledgement at a place arrives; refused 4, 9, 10 or 11.
    fn hear(&mut self, place: u64) -> Result<(), Refusal> {
        let packet = self.acks.at(place)?;
        let answer = self.sender.hear(packet);
        self.acks.drop(place)?;
        answer
    }

    /// Time passes for all four parts; never refused, and delivers nothing.
    fn tick(&mut self) -> usize {
        self.sender.tick();
        self.receiver.tick();
        self.data.tick();
        self.acks.tick();
        0
    }
}

/// The answer of an event that delivers nothing.
fn done(result: Result<(), Refusal>) -> Answer {
    result.map(|()| 0)
}
