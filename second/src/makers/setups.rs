//! Random setups: any admitted one, and those at the bounds.

use crate::random::Random;
use crate::setup::Setup;

/// An admitted setup, small or large, often with numbers about to go round.
pub fn admitted(random: &mut Random) -> Setup {
    let rw = 1 << random.below(7);
    let seqbits = wide(random, narrowest(rw), 32);
    let clockbits = wide(random, 3, 32);
    let most_rate = (1 << seqbits) - 3 * rw;
    let most_life = most_life(clockbits);
    let rate = sizes(random, most_rate, rw);
    let life = sizes(random, most_life, 3);
    with_starts(random, [rw, seqbits, clockbits, life, rate])
}

/// A setup in which neither B nor L could be larger.
pub fn tight(random: &mut Random) -> Setup {
    let rw = 1 << random.below(7);
    let seqbits = wide(random, narrowest(rw), 32);
    let clockbits = wide(random, 3, 32);
    let rate = (1 << seqbits) - 3 * rw;
    let life = most_life(clockbits);
    with_starts(random, [rw, seqbits, clockbits, life, rate])
}

/// A setup with few units to a tick, so that a tick's share is soon spent.
pub fn scanty(random: &mut Random) -> Setup {
    let mut setup = admitted(random);
    let most = setup.ns() - 3 * u64::from(setup.rw);
    setup.rate = random.between(1, most.min(3)) as u32;
    setup
}

/// A setup like this one that is one step outside one of its limits. The
/// setup is one that `tight` gave.
pub fn outside(random: &mut Random, tight: Setup) -> Setup {
    let mut setup = tight;
    match random.below(10) {
        0 | 1 => setup.rate += 1,
        2 | 3 => setup.life += 1,
        4 => setup.rw *= 2,
        5 => setup.seqbits -= 1,
        6 => setup.clockbits -= 1,
        _ => start_past_range(random, &mut setup),
    }
    setup
}

/// One start at the size of its range; a range of 2^32 is narrowed first.
fn start_past_range(random: &mut Random, setup: &mut Setup) {
    let which = random.below(3);
    if which == 0 {
        setup.seqbits = setup.seqbits.min(31);
        setup.seq = setup.ns() as u32;
    } else {
        setup.clockbits = setup.clockbits.min(31);
        let past = setup.nc() as u32;
        if which == 1 {
            setup.sclock = past;
        } else {
            setup.rclock = past;
        }
    }
}

/// The fewest bits that leave room for B of 1.
fn narrowest(rw: u64) -> u64 {
    (2..).find(|&bits| 1 << bits > 3 * rw).unwrap_or(32)
}

/// The largest L for these clock bits.
fn most_life(clockbits: u64) -> u64 {
    ((1 << clockbits) - 1) / 4
}

/// A count of bits, as often as not close to the fewest.
fn wide(random: &mut Random, fewest: u64, most: u64) -> u64 {
    match random.below(6) {
        0 | 1 => fewest,
        2 => fewest + 1,
        3 => fewest + 2,
        4 => random.between(fewest, most),
        _ => most,
    }
}

/// A number from 1 to `most`: small, about `usual`, the largest, or any.
fn sizes(random: &mut Random, most: u64, usual: u64) -> u64 {
    let size = match random.below(6) {
        0 => random.between(1, 4),
        1 | 2 => usual,
        3 => most,
        4 => random.between(1, 2 * usual),
        _ => random.between(1, most),
    };
    size.min(most)
}

/// RW, seqbits, clockbits, L and B, completed by starting numbers.
fn with_starts(random: &mut Random, sizes: [u64; 5]) -> Setup {
    let [rw, seqbits, clockbits, life, rate] = sizes.map(|size| size as u32);
    Setup {
        rw,
        seqbits,
        clockbits,
        life,
        rate,
        seq: start(random, seqbits),
        sclock: start(random, clockbits),
        rclock: start(random, clockbits),
    }
}

/// A starting number: 0, soon to go round, about to pass half, or any.
fn start(random: &mut Random, bits: u32) -> u32 {
    let range: u64 = 1 << bits;
    let close = random.between(1, range.min(20));
    let start = match random.below(8) {
        0 => 0,
        1 => range - 1,
        2..=4 => range - close,
        5 => (range / 2).saturating_sub(close),
        _ => random.below(range),
    };
    start as u32
}
