//! Refusals of an end or a channel that is handed a packet directly: 2, 3, 8
//! and 11, which a script never meets.

use super::SESSION;
use crate::answers::Refusal;
use crate::channel::{AckPacket, Channel, DataPacket};
use crate::malformed::checked;
use crate::numbers::{Whole, Wrapped};
use crate::receiver::Receiver;
use crate::sender::Sender;

const DATA: DataPacket<Wrapped> = DataPacket {
    number: Wrapped(7),
    timestamp: Wrapped(7),
    unit: 5,
};

const ACK: AckPacket<Wrapped> = AckPacket {
    number: Wrapped(7),
    window: 2,
    timestamp: Wrapped(2),
};

fn bad_data() -> [DataPacket<Wrapped>; 2] {
    let number = Wrapped(8);
    let timestamp = Wrapped(8);
    [
        DataPacket { number, ..DATA },
        DataPacket { timestamp, ..DATA },
    ]
}

fn bad_acks() -> [AckPacket<Wrapped>; 3] {
    let number = Wrapped(8);
    let timestamp = Wrapped(u32::MAX);
    [
        AckPacket { number, ..ACK },
        AckPacket { timestamp, ..ACK },
        AckPacket { window: 3, ..ACK },
    ]
}

/// A receiver with a window of one.
fn receiver() -> Receiver<Wrapped> {
    let mut receiver = Receiver::fresh(SESSION);
    receiver.room().expect("room");
    receiver
}

#[test]
fn three_at_the_receiver_after_eight() {
    for packet in bad_data() {
        let mut end = receiver();
        let mut row = [77; 2];
        assert_eq!(end.data(packet, &mut row[..1]), Err(Refusal::RowTooShort));
        assert_eq!(end.data(packet, &mut row), Err(Refusal::FieldOutOfRange));
        assert_eq!((end, row), (receiver(), [77; 2]));
    }
}

#[test]
fn three_at_the_sender() {
    for packet in bad_acks() {
        let mut end = Sender::fresh(SESSION);
        assert_eq!(end.hear(packet), Err(Refusal::FieldOutOfRange));
        assert_eq!(end, Sender::fresh(SESSION));
    }
}

#[test]
fn three_at_a_channel_before_five() {
    let mut data = Channel::fresh(SESSION);
    let mut acks = Channel::fresh(SESSION);
    for _ in 0..32 {
        assert_eq!(data.add(DATA), Ok(()));
        assert_eq!(acks.add(ACK), Ok(()));
    }
    for packet in bad_data() {
        assert_eq!(data.add(packet), Err(Refusal::FieldOutOfRange));
    }
    for packet in bad_acks() {
        assert_eq!(acks.add(packet), Err(Refusal::FieldOutOfRange));
    }
    assert_eq!(data.add(DATA), Err(Refusal::ChannelFull));
    assert_eq!(acks.add(ACK), Err(Refusal::ChannelFull));
}

#[test]
fn eleven_at_the_receiver() {
    let mut end = receiver();
    let mut row = [77; 2];
    let beyond = DataPacket {
        number: Wrapped(0),
        ..DATA
    };
    assert_eq!(end.data(beyond, &mut row), Err(Refusal::Beyond));
    let behind = DataPacket {
        number: Wrapped(1),
        ..DATA
    };
    assert_eq!(end.data(behind, &mut row), Err(Refusal::Behind));
    assert_eq!((end, row), (receiver(), [77; 2]));
}

#[test]
fn eleven_at_the_sender_up_to_rw() {
    for (number, refusal) in [
        (0, Refusal::Beyond),
        (1, Refusal::Beyond),
        (2, Refusal::Behind),
        (6, Refusal::Behind),
    ] {
        let mut end = Sender::fresh(SESSION);
        let number = Wrapped(number);
        assert_eq!(end.hear(AckPacket { number, ..ACK }), Err(refusal));
        assert_eq!(end, Sender::fresh(SESSION));
    }
}

#[test]
fn ten_for_a_negative_distance_on_whole_numbers() {
    let mut sender = Sender::fresh(SESSION);
    let mut receiver = Receiver::fresh(SESSION);
    let (number, timestamp) = (Whole(6), Whole(7));
    let ack = AckPacket {
        number,
        window: 2,
        timestamp,
    };
    let data = DataPacket {
        number,
        timestamp,
        unit: 5,
    };
    assert_eq!(sender.hear(ack), Err(Refusal::Behind));
    assert_eq!(receiver.data(data, &mut [0; 2]), Err(Refusal::Behind));
}

#[test]
fn two_at_each_part_before_all_others() {
    let refused = Some(Refusal::MalformedState);
    let mut sender = Sender::fresh(SESSION);
    sender.outstanding = 3;
    let bad_ack = bad_acks()[0];
    assert_eq!(checked(&mut sender, |end| end.hear(bad_ack)).err(), refused);
    let mut end = receiver();
    end.marks = 4;
    let answer = checked(&mut end, |end| end.data(bad_data()[0], &mut []));
    assert_eq!(answer.err(), refused);
    let mut channel = Channel::fresh(SESSION);
    channel.count = 33;
    let answer = checked(&mut channel, |channel| channel.add(DATA));
    assert_eq!(answer.err(), refused);
}

#[test]
fn channel_order_stays_and_freed_places_are_zero() {
    let mut channel = Channel::fresh(SESSION);
    for unit in 0..4 {
        channel.add(DataPacket { unit, ..DATA }).expect("a place");
    }
    channel.drop(1).expect("a packet");
    channel.duplicate(0).expect("a packet");
    let units: Vec<u64> = (0..4)
        .map(|place| channel.at(place).expect("a packet").unit)
        .collect();
    assert_eq!(units, [0, 2, 3, 0]);
    channel.tick();
    channel.add(DATA).expect("a place");
    channel.tick();
    assert_eq!(channel.count, 1);
    channel.tick();
    assert_eq!(channel, Channel::fresh(SESSION));
}
