//! The thirteen marked examples as one table, and the limits of a setup.

use super::SESSION;
use crate::numbers::Wrapped;
use crate::recent::Recent;
use crate::setup::Setup;

/// A setup of RW, seqbits and B, with clocks that are wide enough.
fn sequence(rw: u32, seqbits: u32, rate: u32) -> bool {
    let setup = Setup {
        rw,
        seqbits,
        clockbits: 8,
        life: 3,
        rate,
        seq: 1,
        sclock: 2,
        rclock: 3,
    };
    setup.admitted()
}

/// A setup of clockbits and L, with numbers that are wide enough.
fn clock(clockbits: u32, life: u32) -> bool {
    let setup = Setup {
        rw: 4,
        seqbits: 8,
        clockbits,
        life,
        rate: 1,
        seq: 1,
        sclock: 2,
        rclock: 3,
    };
    setup.admitted()
}

/// Whether a timestamp passes with NC 8 and recent 7.
fn passes(timestamp: u32) -> bool {
    Recent::just(Wrapped(7)).lets_pass(Wrapped(timestamp), 8)
}

#[test]
fn thirteen_marked_examples() {
    let table = [
        ('a', sequence(2, 3, 2), true),
        ('b', sequence(2, 3, 3), false),
        ('c', sequence(64, 8, 64), true),
        ('d', sequence(64, 8, 65), false),
        ('e', clock(3, 1), true),
        ('f', clock(3, 2), false),
        ('g', clock(32, 1_073_741_823), true),
        ('h', clock(32, 1_073_741_824), false),
        ('i', passes(7), true),
        ('j', passes(0), true),
        ('k', passes(2), true),
        ('l', passes(3), false),
        ('m', passes(6), false),
    ];
    for (name, given, expected) in table {
        assert_eq!(given, expected, "({name})");
    }
}

#[test]
fn everything_passes_without_recent() {
    for timestamp in 0..8 {
        assert!(Recent::none().lets_pass(Wrapped(timestamp), 8));
    }
}

type Change = fn(&mut Setup);

/// Each takes the session's setup outside one limit.
const OUTSIDE: [(&str, Change); 15] = [
    ("no window", |setup| setup.rw = 0),
    ("window 3", |setup| setup.rw = 3),
    ("window 128", |setup| (setup.rw, setup.seqbits) = (128, 16)),
    ("seqbits 1", |setup| (setup.rw, setup.seqbits) = (1, 1)),
    ("seqbits 33", |setup| setup.seqbits = 33),
    ("seqbits far too many", |setup| setup.seqbits = u32::MAX),
    ("clockbits 2", |setup| {
        (setup.clockbits, setup.sclock) = (2, 0)
    }),
    ("clockbits 33", |setup| setup.clockbits = 33),
    ("no life", |setup| setup.life = 0),
    ("life too long for any clock", |setup| {
        (setup.clockbits, setup.life) = (32, u32::MAX)
    }),
    ("no rate", |setup| setup.rate = 0),
    ("rate too high for any range", |setup| {
        (setup.seqbits, setup.rate) = (32, u32::MAX)
    }),
    ("start at NS", |setup| setup.seq = 8),
    ("sender's clock at NC", |setup| setup.sclock = 8),
    ("receiver's clock at NC", |setup| setup.rclock = 8),
];

#[test]
fn limits_of_each_setup_number() {
    assert!(SESSION.admitted());
    for (name, change) in OUTSIDE {
        let mut setup = SESSION;
        change(&mut setup);
        assert!(!setup.admitted(), "{name}");
    }
}

#[test]
fn the_largest_setup_is_admitted() {
    let setup = Setup {
        rw: 64,
        seqbits: 32,
        clockbits: 32,
        life: (1 << 30) - 1,
        rate: u32::MAX - 191,
        seq: u32::MAX,
        sclock: u32::MAX,
        rclock: u32::MAX,
    };
    assert!(setup.admitted());
}
