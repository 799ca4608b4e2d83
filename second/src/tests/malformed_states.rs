//! Every clause of the malformed test, each by one change to a good state.

use super::SESSION;
use crate::bench::{Bench, Event};
use crate::malformed::Malformed;
use crate::numbers::Wrapped;
use crate::recent::Recent;
use crate::setup::Setup;

type Wound = fn(&mut Bench<Wrapped>);

/// RW 4, NS 16, NC 16, L 3, B 4.
const SETUP: Setup = Setup {
    rw: 4,
    seqbits: 4,
    clockbits: 4,
    life: 3,
    rate: 4,
    ..SESSION
};

/// Four units outstanding of which the receiver has the third (slot 1), a
/// window of four, both recents known, and two packets in each channel.
fn good() -> Bench<Wrapped> {
    let mut bench = Bench::start(SETUP).expect("admitted");
    let mut events = vec![Event::Room; 4];
    events.extend([Event::Ack, Event::Hear(0)]);
    events.extend((1..5).map(Event::Accept));
    events.extend([Event::Send(0), Event::Send(2), Event::Data(0)]);
    events.extend([Event::Data(0), Event::Room, Event::Ack, Event::Ack]);
    events.extend([Event::Send(3), Event::Send(1)]);
    for event in events {
        bench.event(event, &mut [0; 64]).expect("a good event");
    }
    bench
}

const WOUNDS: [(&str, Wound); 43] = [
    ("setup", |b| b.sender.setup.rw = 3),
    ("receiver's setup", |b| b.receiver.setup.life = 0),
    ("data setup", |b| b.data.setup.seqbits = 3),
    ("acks setup", |b| b.acks.setup.clockbits = 40),
    ("setups differ", |b| b.receiver.setup.rate = 3),
    ("data setup differs", |b| b.data.setup.seq = 6),
    ("acks setup differs", |b| b.acks.setup.sclock = 6),
    ("una", |b| b.sender.una = Wrapped(16)),
    ("sender's clock", |b| b.sender.clock = Wrapped(16)),
    ("outstanding", |b| b.sender.outstanding = 5),
    ("granted", |b| b.sender.granted = 5),
    ("accepted", |b| b.sender.accepted = 5),
    ("sender's recent", |b| b.sender.recent.value = Wrapped(16)),
    ("sender's recent age", |b| b.sender.recent.age = 4),
    ("sender's none value", |b| b.sender.recent.known = false),
    ("sender's none age", |b| {
        b.sender.recent = Recent::none();
        b.sender.recent.age = 1;
    }),
    ("freed slot", |b| b.sender.outstanding = 3),
    ("sender's slot past RW", |b| b.sender.slots[4] = 1),
    ("sender's last slot", |b| b.sender.slots[63] = 1),
    ("nxt", |b| b.receiver.nxt = Wrapped(24)),
    ("receiver's clock", |b| b.receiver.clock = Wrapped(16)),
    ("window", |b| b.receiver.window = 5),
    ("receiver's recent", |b| {
        b.receiver.recent.value = Wrapped(99)
    }),
    ("receiver's recent age", |b| b.receiver.recent.age = 4),
    ("receiver's none", |b| b.receiver.recent.known = false),
    ("slot without mark", |b| b.receiver.slots[0] = 1),
    ("receiver's slot past RW", |b| b.receiver.slots[4] = 1),
    ("lost mark", |b| b.receiver.marks = 0),
    ("mark past RW", |b| b.receiver.marks |= 1 << 4),
    ("last mark past RW", |b| b.receiver.marks |= 1 << 63),
    ("mark on nxt", |b| b.receiver.marks |= 1 << 0),
    ("mark outside the window", |b| b.receiver.window = 1),
    ("mark on a closed window", |b| b.receiver.window = 0),
    ("data count", |b| b.data.count = 33),
    ("data count and waste", |b| b.data.count = 1),
    ("data number", |b| {
        b.data.places[1].packet.number = Wrapped(16)
    }),
    ("data timestamp", |b| {
        b.data.places[0].packet.timestamp = Wrapped(16)
    }),
    ("data age", |b| b.data.places[0].age = 4),
    ("unused data place", |b| b.data.places[2].packet.unit = 1),
    ("unused data age", |b| b.data.places[31].age = 1),
    ("ack window", |b| b.acks.places[0].packet.window = 5),
    ("ack number", |b| {
        b.acks.places[0].packet.number = Wrapped(16)
    }),
    ("unused ack place", |b| b.acks.places[2].packet.window = 1),
];

#[test]
fn each_clause_makes_a_state_malformed() {
    assert!(!good().malformed());
    for (name, wound) in WOUNDS {
        let mut bench = good();
        wound(&mut bench);
        assert!(bench.malformed(), "{name}");
    }
}

#[test]
fn edges_that_are_well_formed() {
    let harmless: [(&str, Wound); 7] = [
        ("largest una", |b| {
            *b = Bench::fresh(SETUP);
            b.sender.una = Wrapped(15);
        }),
        ("granted below outstanding", |b| b.sender.granted = 0),
        ("parts out of step", |b| b.receiver.clock = Wrapped(0)),
        ("oldest packet", |b| b.data.places[0].age = 3),
        ("oldest recent", |b| b.receiver.recent.age = 3),
        ("whole share", |b| b.sender.accepted = 4),
        ("unit of zero", |b| b.receiver.slots[1] = 0),
    ];
    for (name, change) in harmless {
        let mut bench = good();
        change(&mut bench);
        assert!(!bench.malformed(), "{name}");
    }
}
