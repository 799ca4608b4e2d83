//! The receiver: stores units that arrive, delivers them in order, makes
//! acknowledgements.

use crate::answers::{Answer, Refusal};
use crate::channel::{AckPacket, DataPacket, Packet};
use crate::numbers::Number;
use crate::recent::Recent;
use crate::sender::SLOTS;
use crate::setup::Setup;

/// The receiving end. A mark bit says which slots hold a unit.
#[derive(Clone, PartialEq, Eq, Debug)]
pub struct Receiver<N> {
    pub setup: Setup,
    /// The next number wanted.
    pub nxt: N,
    pub window: u32,
    pub clock: N,
    pub recent: Recent<N>,
    pub slots: [u64; SLOTS],
    pub marks: u64,
}

impl<N: Number> Receiver<N> {
    /// A receiver that has done nothing yet.
    pub fn fresh(setup: Setup) -> Self {
        Receiver {
            setup,
            nxt: N::starting(setup.seq),
            window: 0,
            clock: N::starting(setup.rclock),
            recent: Recent::none(),
            slots: [0; SLOTS],
            marks: 0,
        }
    }

    pub fn marked(&self, slot: usize) -> bool {
        (self.marks >> slot) & 1 == 1
    }

    /// A data packet arrives; refused 8, 3, 9, 10 or 11, 12.
    pub fn data(&mut self, packet: DataPacket<N>, row: &mut [u64]) -> Answer {
        if row.len() < self.setup.rw as usize {
            return Err(Refusal::RowTooShort);
        }
        if !packet.in_range(&self.setup) {
            return Err(Refusal::FieldOutOfRange);
        }
        if !self.recent.lets_pass(packet.timestamp, self.setup.nc()) {
            return Err(Refusal::Stale);
        }
        let o = packet.number.minus(self.nxt, self.setup.ns());
        if o < 0 || o >= i64::from(self.setup.rw) {
            return Err(Refusal::Behind);
        }
        if o >= i64::from(self.window) {
            return Err(Refusal::Beyond);
        }
        let slot = packet.number.slot(self.setup.rw);
        if self.marked(slot) {
            return Err(Refusal::AlreadyStored);
        }
        self.slots[slot] = packet.unit;
        self.marks |= 1 << slot;
        if o > 0 {
            return Ok(0);
        }
        self.recent = Recent::just(packet.timestamp);
        Ok(self.deliver(row))
    }

    /// Room for one more unit; refused 13.
    pub fn room(&mut self) -> Result<(), Refusal> {
        if self.window >= self.setup.rw {
            return Err(Refusal::WindowAlreadyRw);
        }
        self.window += 1;
        Ok(())
    }

    /// The acknowledgement of what has arrived so far.
    pub fn ack(&self) -> AckPacket<N> {
        AckPacket {
            number: self.nxt,
            window: self.window,
            timestamp: self.clock,
        }
    }

    /// The clock moves and recent grows older.
    pub fn tick(&mut self) {
        self.clock = self.clock.plus(1, self.setup.nc());
        self.recent.tick(self.setup.life);
    }

    /// Units from nxt on go to the row, up to the first slot without a mark.
    fn deliver(&mut self, row: &mut [u64]) -> usize {
        let mut count = 0;
        loop {
            let slot = self.nxt.slot(self.setup.rw);
            if !self.marked(slot) {
                break count;
            }
            row[count] = self.slots[slot];
            self.slots[slot] = 0;
            self.marks &= !(1 << slot);
            self.nxt = self.nxt.plus(1, self.setup.ns());
            self.window -= 1;
            count += 1;
        }
    }
}
