//! Noise: bytes that nobody meant as a script.
//!
//! Any bytes at all, a good setup with any bytes behind it, pieces of lines in
//! any order, and a script of another kind with some of its bits turned.

use super::{limits, setups, useful};
use crate::random::Random;
use crate::script::{setup_values, LARGEST_SCRIPT, SETUP_KEYS};

/// What lines are made of, and a little more.
const PIECES: [&[u8]; 22] = [
    b"accept=",
    b"send=",
    b"data=",
    b"hear=",
    b"dropd=",
    b"dupa=",
    b"room=1\n",
    b"ack=1\n",
    b"tick=1\n",
    b"room=1\n",
    b"ack=1\n",
    b"hear=0\n",
    b"accept=7\n",
    b"send=0\n",
    b"data=0\n",
    b"0\n",
    b"1\n",
    b"18446744073709551615\n",
    b"\n",
    b"=",
    b"0",
    b"\r\n",
];

pub fn script(mut random: Random) -> Vec<u8> {
    match random.below(4) {
        0 => {
            let length = length(&mut random);
            bytes(&mut random, length)
        }
        1 => {
            let length = length(&mut random);
            let noise = bytes(&mut random, length);
            [good_setup(&mut random), noise].concat()
        }
        2 => [good_setup(&mut random), pieces(&mut random)].concat(),
        _ => turned(&mut random),
    }
}

/// Mostly a few bytes, now and then more than a script may have.
fn length(random: &mut Random) -> usize {
    let few = random.below(40);
    let some = random.below(2_000);
    let many = random.between(LARGEST_SCRIPT as u64 - 5, LARGEST_SCRIPT as u64 + 5);
    random.weigh(&[(6, few), (3, some), (1, many)]) as usize
}

fn bytes(random: &mut Random, length: usize) -> Vec<u8> {
    (0..length).map(|_| random.below(256) as u8).collect()
}

fn good_setup(random: &mut Random) -> Vec<u8> {
    let setup = setups::admitted(random);
    let mut text = Vec::new();
    for (key, value) in SETUP_KEYS.iter().zip(setup_values(&setup)) {
        text.extend_from_slice(format!("{key}={value}\n").as_bytes());
    }
    text
}

fn pieces(random: &mut Random) -> Vec<u8> {
    let count = random.below(60);
    (0..count)
        .flat_map(|_| random.choose(&PIECES))
        .copied()
        .collect()
}

/// A script with one to twenty bits turned.
fn turned(random: &mut Random) -> Vec<u8> {
    let inner = Random::new(random.draw());
    let mut text = if random.chance(10) {
        limits::script(inner)
    } else {
        useful::script(inner)
    };
    for _ in 0..random.between(1, 20) {
        let index = random.below(text.len() as u64) as usize;
        text[index] ^= 1 << random.below(8);
    }
    text
}
