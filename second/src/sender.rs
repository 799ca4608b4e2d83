//! The sender: accepts units, makes data packets, hears acknowledgements.

use crate::answers::Refusal;
use crate::channel::{AckPacket, DataPacket, Packet};
use crate::numbers::Number;
use crate::recent::Recent;
use crate::setup::Setup;

/// How many slots an end has; only the first RW are used.
pub const SLOTS: usize = 64;

/// The sending end. Unit q waits in slot q mod RW until it is freed.
#[derive(Clone, PartialEq, Eq, Debug)]
pub struct Sender<N> {
    pub setup: Setup,
    /// The oldest unacknowledged number.
    pub una: N,
    /// How many units from una on are not acknowledged.
    pub outstanding: u32,
    /// The window last granted.
    pub granted: u32,
    /// Units accepted in this tick.
    pub accepted: u32,
    pub clock: N,
    pub recent: Recent<N>,
    pub slots: [u64; SLOTS],
}

impl<N: Number> Sender<N> {
    /// A sender that has done nothing yet.
    pub fn fresh(setup: Setup) -> Self {
        Sender {
            setup,
            una: N::starting(setup.seq),
            outstanding: 0,
            granted: 0,
            accepted: 0,
            clock: N::starting(setup.sclock),
            recent: Recent::none(),
            slots: [0; SLOTS],
        }
    }

    /// The number of the unit that lies `k` after una.
    pub fn numbered(&self, k: u64) -> N {
        self.una.plus(k, self.setup.ns())
    }

    /// A unit is stored after the outstanding ones; refused 6, 7.
    pub fn accept(&mut self, unit: u64) -> Result<(), Refusal> {
        if self.outstanding >= self.granted {
            return Err(Refusal::WindowClosed);
        }
        if self.accepted >= self.setup.rate {
            return Err(Refusal::ShareSpent);
        }
        let number = self.numbered(u64::from(self.outstanding));
        self.slots[number.slot(self.setup.rw)] = unit;
        self.outstanding += 1;
        self.accepted += 1;
        Ok(())
    }

    /// The packet for outstanding unit `k`; refused 4.
    pub fn send(&self, k: u64) -> Result<DataPacket<N>, Refusal> {
        if k >= u64::from(self.outstanding) {
            return Err(Refusal::NoSuchPlace);
        }
        let number = self.numbered(k);
        Ok(DataPacket {
            number,
            timestamp: self.clock,
            unit: self.slots[number.slot(self.setup.rw)],
        })
    }

    /// An acknowledgement arrives; refused 3, 9, 10, 11.
    pub fn hear(&mut self, packet: AckPacket<N>) -> Result<(), Refusal> {
        if !packet.in_range(&self.setup) {
            return Err(Refusal::FieldOutOfRange);
        }
        if !self.recent.lets_pass(packet.timestamp, self.setup.nc()) {
            return Err(Refusal::Stale);
        }
        let o = packet.number.minus(self.una, self.setup.ns());
        if o < 0 || o > i64::from(self.setup.rw) {
            return Err(Refusal::Behind);
        }
        if o > i64::from(self.outstanding) {
            return Err(Refusal::Beyond);
        }
        if o == 0 {
            self.granted = self.granted.max(packet.window);
        } else {
            self.free(o as u32);
            self.granted = packet.window;
        }
        self.recent = Recent::just(packet.timestamp);
        Ok(())
    }

    /// The clock moves, a new share of units begins, recent grows older.
    pub fn tick(&mut self) {
        self.clock = self.clock.plus(1, self.setup.nc());
        self.accepted = 0;
        self.recent.tick(self.setup.life);
    }

    /// The oldest `units` outstanding units are acknowledged.
    fn free(&mut self, units: u32) {
        for _ in 0..units {
            self.slots[self.una.slot(self.setup.rw)] = 0;
            self.una = self.una.plus(1, self.setup.ns());
        }
        self.outstanding -= units;
    }
}
