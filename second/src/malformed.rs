//! The malformed test, clause by clause, for each part and for the bench.
//!
//! It is apart from the rules so that a run can be made with it in front of
//! every event or without it: from a fresh state the two give the same
//! answers, as no event leaves a malformed state.

use crate::answers::Refusal;
use crate::bench::Bench;
use crate::channel::{Aged, Channel, Packet, PLACES};
use crate::numbers::Number;
use crate::receiver::Receiver;
use crate::recent::Recent;
use crate::sender::{Sender, SLOTS};
use crate::setup::Setup;

/// A state that can be damaged.
pub trait Malformed {
    fn malformed(&self) -> bool;
}

/// The operation with the malformed test in front of it; refused 2.
pub fn checked<S: Malformed, A>(
    state: &mut S,
    operation: impl FnOnce(&mut S) -> Result<A, Refusal>,
) -> Result<A, Refusal> {
    if state.malformed() {
        return Err(Refusal::MalformedState);
    }
    operation(state)
}

impl<N: Number> Malformed for Sender<N> {
    fn malformed(&self) -> bool {
        let setup = &self.setup;
        !setup.admitted()
            || !self.una.within(setup.ns())
            || !self.clock.within(setup.nc())
            || self.outstanding > setup.rw
            || self.granted > setup.rw
            || self.accepted > setup.rate
            || bad_recent(&self.recent, setup)
            || self.waste_in_slots()
    }
}

impl<N: Number> Sender<N> {
    /// Whether a slot that holds no outstanding unit is not 0.
    fn waste_in_slots(&self) -> bool {
        let rw = self.setup.rw as usize;
        let first = self.una.slot(self.setup.rw);
        (0..SLOTS).any(|slot| {
            let holds = slot < rw && ahead(slot, first, rw) < self.outstanding as usize;
            !holds && self.slots[slot] != 0
        })
    }
}

impl<N: Number> Malformed for Receiver<N> {
    fn malformed(&self) -> bool {
        let setup = &self.setup;
        !setup.admitted()
            || !self.nxt.within(setup.ns())
            || !self.clock.within(setup.nc())
            || self.window > setup.rw
            || bad_recent(&self.recent, setup)
            || self.waste_in_slots()
            || self.misplaced_mark()
    }
}

impl<N: Number> Receiver<N> {
    /// Whether a slot without a mark is not 0.
    fn waste_in_slots(&self) -> bool {
        (0..SLOTS).any(|slot| !self.marked(slot) && self.slots[slot] != 0)
    }

    /// Whether a mark is past RW, on nxt itself, or not inside the window.
    fn misplaced_mark(&self) -> bool {
        let rw = self.setup.rw as usize;
        let first = self.nxt.slot(self.setup.rw);
        (0..SLOTS)
            .filter(|&slot| self.marked(slot))
            .any(|slot| slot >= rw || !(1..self.window as usize).contains(&ahead(slot, first, rw)))
    }
}

impl<P: Packet> Malformed for Channel<P> {
    fn malformed(&self) -> bool {
        if !self.setup.admitted() || self.count > PLACES {
            return true;
        }
        let (used, unused) = self.places.split_at(self.count);
        used.iter().any(|place| self.bad_packet(place))
            || unused.iter().any(|place| *place != Aged::default())
    }
}

impl<P: Packet> Channel<P> {
    fn bad_packet(&self, place: &Aged<P>) -> bool {
        !place.packet.in_range(&self.setup) || place.age > self.setup.life
    }
}

impl<N: Number> Malformed for Bench<N> {
    fn malformed(&self) -> bool {
        let setup = &self.sender.setup;
        self.sender.malformed()
            || self.receiver.malformed()
            || self.data.malformed()
            || self.acks.malformed()
            || self.receiver.setup != *setup
            || self.data.setup != *setup
            || self.acks.setup != *setup
    }
}

/// Whether a recent is out of range or too old, or is none and not zero.
fn bad_recent<N: Number>(recent: &Recent<N>, setup: &Setup) -> bool {
    if recent.known {
        !recent.value.within(setup.nc()) || recent.age > setup.life
    } else {
        *recent != Recent::none()
    }
}

/// How far slot `slot` lies ahead of slot `first`, round `rw`.
fn ahead(slot: usize, first: usize, rw: usize) -> usize {
    (slot + rw - first) % rw
}
