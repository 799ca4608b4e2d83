//! Random scripts from a seed.
//!
//! A seed decides the kind of script and everything in it. `setups` draws
//! setups, `driver` writes events while it plays them on a bench of its own,
//! and each kind is a file:
//!
//! - useful: long runs that really move units, over bad channels;
//! - tight: the same on setups exactly at the bounds, or one step outside;
//! - refusals: every refusal that a script can meet, again and again;
//! - damaged: text that is broken in one to three places;
//! - limits: scripts about as long as a script may be;
//! - noise: any bytes.

mod damaged;
mod driver;
mod limits;
mod noise;
mod refusals;
mod setups;
mod tight;
mod useful;

use crate::random::Random;

/// What a random script is for.
#[derive(Clone, Copy, PartialEq, Eq, Debug)]
pub enum Kind {
    Useful,
    Tight,
    Refusals,
    Damaged,
    Limits,
    Noise,
}

/// Every kind with its name and how often a seed has it, in a hundred.
const KINDS: [(u64, Kind, &str); 6] = [
    (28, Kind::Useful, "useful"),
    (22, Kind::Tight, "tight"),
    (18, Kind::Refusals, "refusals"),
    (22, Kind::Damaged, "damaged"),
    (4, Kind::Limits, "limits"),
    (6, Kind::Noise, "noise"),
];

impl Kind {
    /// The kind that a seed decides.
    pub fn of_seed(seed: u64) -> Kind {
        let weights = KINDS.map(|(weight, kind, _)| (weight, kind));
        Random::new(!seed).weigh(&weights)
    }

    pub fn named(name: &str) -> Option<Kind> {
        KINDS
            .iter()
            .find(|entry| entry.2 == name)
            .map(|entry| entry.1)
    }

    pub fn name(self) -> &'static str {
        KINDS
            .iter()
            .find(|entry| entry.1 == self)
            .map_or("", |entry| entry.2)
    }
}

/// The script of a seed and a kind.
pub fn script(seed: u64, kind: Kind) -> Vec<u8> {
    let random = Random::new(seed);
    match kind {
        Kind::Useful => useful::script(random),
        Kind::Tight => tight::script(random),
        Kind::Refusals => refusals::script(random),
        Kind::Damaged => damaged::script(random),
        Kind::Limits => limits::script(random),
        Kind::Noise => noise::script(random),
    }
}
