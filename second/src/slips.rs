//! Planted slips: wrong benches, to see that the random scripts tell them
//! from the right one.
//!
//! The rules know nothing of slips. A slipped bench has a right bench inside
//! and bends what goes in or what comes out: it admits by other bounds, gives
//! parts another life, refuses early, changes the state before an event, or
//! spoils it afterwards.
//!
//! Some slips can't show in any listing from a fresh state, because the bounds
//! on NC leave a little slack. They are kept in a list of their own, and the
//! self-test wants them to stay unseen.

use crate::answers::{Answer, Refusal};
use crate::bench::{Bench, Event};
use crate::channel::{Channel, Packet};
use crate::listing::{listing, listing_by, Engine, Row};
use crate::makers::{script, Kind};
use crate::numbers::{Number, Wrapped};
use crate::recent::Recent;
use crate::setup::Setup;

/// One way to have a rule wrong.
#[derive(Clone, Copy, PartialEq, Eq, Debug)]
pub enum Slip {
    SequenceBoundLoose,
    SequenceBoundStrict,
    ClockBoundLoose,
    ClockBoundStrict,
    StartAtRangeAdmitted,
    FullBeforePlaceInDuplicate,
    FullBeforeUnitInSend,
    ShareBeforeWindow,
    WindowClosedOnlyAbove,
    PlaceFromOne,
    TickKeepsAcceptedCount,
    CopyGetsAgeZero,
    CopyBesideOriginal,
    LastPacketFillsGap,
    RefusedPacketStays,
    PacketLivesLonger,
    PacketLivesShorter,
    RecentTwoTicksLong,
    RecentTwoTicksShort,
    RecentForEver,
    RecentFromEveryStored,
    RecentAgeNotReset,
    RecentKeptAtEqualNumber,
    PlainTimestamps,
    NoTimestampTest,
    EqualNumberLowersWindow,
    FreeingKeepsWindow,
    StoredAgain,
    RecentOneTickLong,
    RecentOneTickShort,
    HalfLapPasses,
}

/// The slips that a script can show.
pub const SHOWING: [Slip; 28] = [
    Slip::SequenceBoundLoose,
    Slip::SequenceBoundStrict,
    Slip::ClockBoundLoose,
    Slip::ClockBoundStrict,
    Slip::StartAtRangeAdmitted,
    Slip::FullBeforePlaceInDuplicate,
    Slip::FullBeforeUnitInSend,
    Slip::ShareBeforeWindow,
    Slip::WindowClosedOnlyAbove,
    Slip::PlaceFromOne,
    Slip::TickKeepsAcceptedCount,
    Slip::CopyGetsAgeZero,
    Slip::CopyBesideOriginal,
    Slip::LastPacketFillsGap,
    Slip::RefusedPacketStays,
    Slip::PacketLivesLonger,
    Slip::PacketLivesShorter,
    Slip::RecentTwoTicksLong,
    Slip::RecentTwoTicksShort,
    Slip::RecentForEver,
    Slip::RecentFromEveryStored,
    Slip::RecentAgeNotReset,
    Slip::RecentKeptAtEqualNumber,
    Slip::PlainTimestamps,
    Slip::NoTimestampTest,
    Slip::EqualNumberLowersWindow,
    Slip::FreeingKeepsWindow,
    Slip::StoredAgain,
];

/// The slips that no script can show.
///
/// A packet taken at time a has a timestamp from a − L to a. While its recent
/// lives, timestamps from a − L to a + L arrive, less than 2L + 1 away from it.
/// One tick later they are from a + 1 to a + L + 1, at most 2L + 1 ahead. NC is
/// a power of two and at least 4L + 1, so half of it is at least 2L + 2 and is
/// not met. In the last tick of the recent's life, a + L, nothing that still
/// lives was sent before a, so it finds nothing stale.
pub const SILENT: [Slip; 3] = [
    Slip::RecentOneTickLong,
    Slip::RecentOneTickShort,
    Slip::HalfLapPasses,
];

/// A bench with a slip in it.
pub struct Slipped {
    bench: Bench<Wrapped>,
    slip: Slip,
}

/// The listing of a script by a bench with a slip.
pub fn slipped_listing(script: &[u8], slip: Slip) -> Vec<u8> {
    listing_by(script, |setup| Slipped::start(setup, slip))
}

/// For each slip, how many of the seeds' scripts show it.
pub fn found(from: u64, count: u64, slips: &[Slip]) -> Vec<(Slip, u64)> {
    let mut table: Vec<(Slip, u64)> = slips.iter().map(|&slip| (slip, 0)).collect();
    for seed in from..from + count {
        let script = script(seed, Kind::of_seed(seed));
        let right = listing::<Wrapped>(&script);
        for (slip, shown) in &mut table {
            if slipped_listing(&script, *slip) != right {
                *shown += 1;
            }
        }
    }
    table
}

impl Engine for Slipped {
    fn event(&mut self, event: Event, row: &mut Row) -> Answer {
        if let Some(refusal) = self.refuses_early(event) {
            return Err(refusal);
        }
        let before = self.bench.clone();
        let event = self.bends(event);
        let answer = self.bench.event(event, row);
        self.spoils(&before, event, answer)
    }
}

impl Slipped {
    /// A fresh bench, in which the slips about lives change a part's setup.
    pub fn start(setup: Setup, slip: Slip) -> Result<Self, Refusal> {
        if !misjudged(setup, slip).admitted() {
            return Err(Refusal::SetupNotAdmitted);
        }
        let mut bench = Bench::fresh(setup);
        let life = setup.life;
        let (packets, recents) = match slip {
            Slip::PacketLivesLonger => (life + 1, life),
            Slip::PacketLivesShorter => (life - 1, life),
            Slip::RecentOneTickLong => (life, life + 1),
            Slip::RecentTwoTicksLong => (life, life + 2),
            Slip::RecentOneTickShort => (life, life - 1),
            Slip::RecentTwoTicksShort => (life, life.saturating_sub(2)),
            Slip::RecentForEver => (life, u32::MAX),
            _ => (life, life),
        };
        bench.data.setup.life = packets;
        bench.acks.setup.life = packets;
        bench.sender.setup.life = recents;
        bench.receiver.setup.life = recents;
        Ok(Slipped { bench, slip })
    }

    /// The slips that test something too soon.
    fn refuses_early(&self, event: Event) -> Option<Refusal> {
        let bench = &self.bench;
        let (early, refusal) = match (self.slip, event) {
            (Slip::FullBeforePlaceInDuplicate, Event::DuplicateData(_)) => {
                (bench.data.full(), Refusal::ChannelFull)
            }
            (Slip::FullBeforePlaceInDuplicate, Event::DuplicateAck(_)) => {
                (bench.acks.full(), Refusal::ChannelFull)
            }
            (Slip::FullBeforeUnitInSend, Event::Send(_)) => {
                (bench.data.full(), Refusal::ChannelFull)
            }
            (Slip::ShareBeforeWindow, Event::Accept(_)) => (
                bench.sender.accepted >= bench.sender.setup.rate,
                Refusal::ShareSpent,
            ),
            (Slip::PlaceFromOne, event) => (place_of(event) == Some(0), Refusal::NoSuchPlace),
            _ => return None,
        };
        early.then_some(refusal)
    }

    /// The slips that take the event, or the state it meets, for another.
    fn bends(&mut self, event: Event) -> Event {
        match (self.slip, event) {
            (Slip::PlaceFromOne, event) => with_place(event, |place| place - 1),
            (Slip::LastPacketFillsGap, event) => self.swaps_with_last(event),
            (Slip::WindowClosedOnlyAbove, Event::Accept(_)) => {
                self.bench.sender.granted += 1;
                event
            }
            (Slip::PlainTimestamps, event) => {
                self.tests_by(event, |timestamp, recent, _| timestamp.0 >= recent.0)
            }
            (Slip::NoTimestampTest, event) => self.tests_by(event, |_, _, _| true),
            (Slip::HalfLapPasses, event) => self.tests_by(event, |timestamp, recent, nc| {
                timestamp.minus(recent, nc) <= (nc / 2) as i64
            }),
            _ => event,
        }
    }

    /// The slips that leave a wrong state or give a wrong answer.
    fn spoils(&mut self, before: &Bench<Wrapped>, event: Event, answer: Answer) -> Answer {
        match self.slip {
            Slip::CopyGetsAgeZero | Slip::CopyBesideOriginal => self.spoils_copy(event, answer),
            Slip::RefusedPacketStays => self.puts_back(before, answer),
            Slip::StoredAgain => return answer.or_else(forgive_stored),
            Slip::TickKeepsAcceptedCount if event == Event::Tick => {
                self.bench.sender.accepted = before.sender.accepted;
            }
            Slip::WindowClosedOnlyAbove if matches!(event, Event::Accept(_)) => {
                self.bench.sender.granted = before.sender.granted;
            }
            Slip::PlainTimestamps | Slip::NoTimestampTest | Slip::HalfLapPasses => {
                self.restores_recents(before, answer);
            }
            _ if answer.is_ok() => self.spoils_arrival(before, event),
            _ => {}
        }
        answer
    }

    /// The slips about a packet that was taken.
    fn spoils_arrival(&mut self, before: &Bench<Wrapped>, event: Event) {
        match event {
            Event::Data(place) => self.spoils_data(before, place),
            Event::Hear(place) => self.spoils_hear(before, place),
            _ => {}
        }
    }

    fn spoils_data(&mut self, before: &Bench<Wrapped>, place: u64) {
        let Ok(packet) = before.data.at(place) else {
            return;
        };
        let recent = &mut self.bench.receiver.recent;
        match self.slip {
            Slip::RecentFromEveryStored => *recent = Recent::just(packet.timestamp),
            Slip::RecentAgeNotReset if before.receiver.recent.known => {
                recent.age = before.receiver.recent.age;
            }
            _ => {}
        }
    }

    fn spoils_hear(&mut self, before: &Bench<Wrapped>, place: u64) {
        let Ok(packet) = before.acks.at(place) else {
            return;
        };
        let sender = &mut self.bench.sender;
        let equal = packet.number == before.sender.una;
        match self.slip {
            Slip::EqualNumberLowersWindow if equal => sender.granted = packet.window,
            Slip::FreeingKeepsWindow if !equal => {
                sender.granted = before.sender.granted.max(packet.window);
            }
            Slip::RecentKeptAtEqualNumber if equal => sender.recent = before.sender.recent,
            Slip::RecentAgeNotReset if before.sender.recent.known => {
                sender.recent.age = before.sender.recent.age;
            }
            _ => {}
        }
    }

    fn spoils_copy(&mut self, event: Event, answer: Answer) {
        if answer.is_err() {
            return;
        }
        match event {
            Event::DuplicateData(place) => spoil_copy(&mut self.bench.data, place, self.slip),
            Event::DuplicateAck(place) => spoil_copy(&mut self.bench.acks, place, self.slip),
            _ => {}
        }
    }

    /// A packet refused on arrival is back in its channel.
    fn puts_back(&mut self, before: &Bench<Wrapped>, answer: Answer) {
        if matches!(
            answer,
            Err(Refusal::Stale | Refusal::Behind | Refusal::AlreadyStored)
        ) {
            self.bench.data = before.data.clone();
            self.bench.acks = before.acks.clone();
        }
    }

    /// What is to be removed changes places with the last packet.
    fn swaps_with_last(&mut self, event: Event) -> Event {
        let bench = &mut self.bench;
        let last = match event {
            Event::Data(place) | Event::DropData(place) => swap_with_last(&mut bench.data, place),
            Event::Hear(place) | Event::DropAck(place) => swap_with_last(&mut bench.acks, place),
            _ => None,
        };
        with_place(event, |place| last.unwrap_or(place))
    }

    /// Makes the timestamp test come out as `test` says: recent is hidden if
    /// it passes, and half a lap past the timestamp if not.
    fn tests_by(&mut self, event: Event, test: fn(Wrapped, Wrapped, u64) -> bool) -> Event {
        let bench = &mut self.bench;
        let nc = bench.sender.setup.nc();
        let (timestamp, recent) = match event {
            Event::Data(place) => (
                bench.data.at(place).map(|packet| packet.timestamp),
                &mut bench.receiver.recent,
            ),
            Event::Hear(place) => (
                bench.acks.at(place).map(|packet| packet.timestamp),
                &mut bench.sender.recent,
            ),
            _ => return event,
        };
        if let (Ok(timestamp), true) = (timestamp, recent.known) {
            *recent = if test(timestamp, recent.value, nc) {
                Recent::none()
            } else {
                Recent::just(timestamp.plus(nc / 2, nc))
            };
        }
        event
    }

    /// Recents that the event did not set are as they were.
    fn restores_recents(&mut self, before: &Bench<Wrapped>, answer: Answer) {
        let bench = &mut self.bench;
        if bench.sender.clock != before.sender.clock {
            return;
        }
        if answer.is_err() || !bench.sender.recent.known {
            bench.sender.recent = before.sender.recent;
        }
        if answer.is_err() || !bench.receiver.recent.known {
            bench.receiver.recent = before.receiver.recent;
        }
    }
}

/// The setup that is judged in place of the one given.
fn misjudged(setup: Setup, slip: Slip) -> Setup {
    let mut judged = setup;
    match slip {
        Slip::SequenceBoundLoose => judged.rate = setup.rate.saturating_sub(1).max(1),
        Slip::SequenceBoundStrict => judged.rate = setup.rate.saturating_add(1),
        Slip::ClockBoundLoose => judged.life = setup.life.saturating_sub(1).max(1),
        Slip::ClockBoundStrict => judged.life = setup.life.saturating_add(1),
        Slip::StartAtRangeAdmitted => judged.seq = setup.seq.saturating_sub(1),
        _ => {}
    }
    judged
}

fn forgive_stored(refusal: Refusal) -> Answer {
    if refusal == Refusal::AlreadyStored {
        return Ok(0);
    }
    Err(refusal)
}

fn spoil_copy<P: Packet>(channel: &mut Channel<P>, place: u64, slip: Slip) {
    let last = channel.count - 1;
    if slip == Slip::CopyGetsAgeZero {
        channel.places[last].age = 0;
    } else {
        channel.places[place as usize + 1..=last].rotate_right(1);
    }
}

/// The place of the last packet, if it was swapped with the one at `place`.
fn swap_with_last<P: Packet>(channel: &mut Channel<P>, place: u64) -> Option<u64> {
    channel.at(place).ok()?;
    let last = channel.count - 1;
    channel.places.swap(place as usize, last);
    Some(last as u64)
}

fn place_of(event: Event) -> Option<u64> {
    match event {
        Event::Data(place)
        | Event::Hear(place)
        | Event::DropData(place)
        | Event::DropAck(place)
        | Event::DuplicateData(place)
        | Event::DuplicateAck(place) => Some(place),
        _ => None,
    }
}

/// The event with its place changed, if it has one.
fn with_place(event: Event, change: impl Fn(u64) -> u64) -> Event {
    match event {
        Event::Data(place) => Event::Data(change(place)),
        Event::Hear(place) => Event::Hear(change(place)),
        Event::DropData(place) => Event::DropData(change(place)),
        Event::DropAck(place) => Event::DropAck(change(place)),
        Event::DuplicateData(place) => Event::DuplicateData(change(place)),
        Event::DuplicateAck(place) => Event::DuplicateAck(change(place)),
        other => other,
    }
}
