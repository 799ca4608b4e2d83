//! The two kinds of packet, and the channel that holds either kind.
//!
//! A channel keeps at most 32 packets in order, each with the age that the
//! channel itself counts. Whoever hands a packet over hands it without an age.
//! Places past the count are kept at zero.

use crate::answers::Refusal;
use crate::numbers::Number;
use crate::setup::Setup;
use std::fmt::Debug;

/// How many packets a channel holds.
pub const PLACES: usize = 32;

/// What a channel needs of a packet.
pub trait Packet: Copy + Eq + Default + Debug {
    /// Whether every field may stand in a packet under this setup.
    fn in_range(&self, setup: &Setup) -> bool;
}

/// A packet that carries one unit.
#[derive(Clone, Copy, PartialEq, Eq, Debug, Default)]
pub struct DataPacket<N> {
    pub number: N,
    pub timestamp: N,
    pub unit: u64,
}

/// An acknowledgement: the next number wanted and the window.
#[derive(Clone, Copy, PartialEq, Eq, Debug, Default)]
pub struct AckPacket<N> {
    pub number: N,
    pub window: u32,
    pub timestamp: N,
}

impl<N: Number> Packet for DataPacket<N> {
    fn in_range(&self, setup: &Setup) -> bool {
        self.number.within(setup.ns()) && self.timestamp.within(setup.nc())
    }
}

impl<N: Number> Packet for AckPacket<N> {
    fn in_range(&self, setup: &Setup) -> bool {
        self.number.within(setup.ns())
            && self.timestamp.within(setup.nc())
            && self.window <= setup.rw
    }
}

/// A packet in a channel, with its age in ticks.
#[derive(Clone, Copy, PartialEq, Eq, Debug, Default)]
pub struct Aged<P> {
    pub packet: P,
    pub age: u32,
}

/// An ordered list of packets that may lose, repeat and reorder.
#[derive(Clone, PartialEq, Eq, Debug, Default)]
pub struct Channel<P> {
    pub setup: Setup,
    pub count: usize,
    pub places: [Aged<P>; PLACES],
}

impl<P: Packet> Channel<P> {
    /// The empty channel.
    pub fn fresh(setup: Setup) -> Self {
        Channel {
            setup,
            ..Channel::default()
        }
    }

    pub fn full(&self) -> bool {
        self.count >= PLACES
    }

    /// The packet at a place; refused 4.
    pub fn at(&self, place: u64) -> Result<P, Refusal> {
        let place = self.index(place)?;
        Ok(self.places[place].packet)
    }

    /// A new packet goes to the end with age 0; refused 3, 5.
    pub fn add(&mut self, packet: P) -> Result<(), Refusal> {
        if !packet.in_range(&self.setup) {
            return Err(Refusal::FieldOutOfRange);
        }
        self.append(Aged { packet, age: 0 })
    }

    /// The packet at a place is lost; refused 4.
    pub fn drop(&mut self, place: u64) -> Result<(), Refusal> {
        let place = self.index(place)?;
        self.places.copy_within(place + 1..self.count, place);
        self.count -= 1;
        self.places[self.count] = Aged::default();
        Ok(())
    }

    /// A copy, as old as its original, goes to the end; refused 4, 5.
    pub fn duplicate(&mut self, place: u64) -> Result<(), Refusal> {
        let place = self.index(place)?;
        self.append(self.places[place])
    }

    /// Every packet is one tick older; one older than L is gone.
    pub fn tick(&mut self) {
        let mut kept = 0;
        for place in 0..self.count {
            let mut packet = self.places[place];
            packet.age += 1;
            if packet.age <= self.setup.life {
                self.places[kept] = packet;
                kept += 1;
            }
        }
        self.places[kept..self.count].fill(Aged::default());
        self.count = kept;
    }

    fn append(&mut self, packet: Aged<P>) -> Result<(), Refusal> {
        if self.full() {
            return Err(Refusal::ChannelFull);
        }
        self.places[self.count] = packet;
        self.count += 1;
        Ok(())
    }

    fn index(&self, place: u64) -> Result<usize, Refusal> {
        if place >= self.count as u64 {
            return Err(Refusal::NoSuchPlace);
        }
        Ok(place as usize)
    }
}
