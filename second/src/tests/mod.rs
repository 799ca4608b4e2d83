//! Tests of the rules, the script program, the makers and the comparisons.

mod bad_lines;
mod bounds;
mod comparing;
mod examples;
mod making;
mod malformed_states;
mod refusals_alone;
mod refusals_on_bench;
mod session;
mod slips_that_look_right;
mod soaking;

use crate::listing::listing;
use crate::numbers::Wrapped;
use crate::setup::Setup;

/// The setup of the session: RW 2, NS 8, NC 8, L 1, B 2.
pub const SESSION: Setup = Setup {
    rw: 2,
    seqbits: 3,
    clockbits: 3,
    life: 1,
    rate: 2,
    seq: 7,
    sclock: 7,
    rclock: 2,
};

/// The session's setup as words.
pub const SESSION_WORDS: &str =
    "window=2 seqbits=3 clockbits=3 life=1 rate=2 seq=7 sclock=7 rclock=2";

/// A script of words, each a line.
pub fn lines(words: &str) -> Vec<u8> {
    let mut text = Vec::new();
    for word in words.split_whitespace() {
        text.extend_from_slice(word.as_bytes());
        text.push(b'\n');
    }
    text
}

/// The listing of a script as text.
pub fn listed(script: &[u8]) -> String {
    text(listing::<Wrapped>(script))
}

pub fn text(bytes: Vec<u8>) -> String {
    String::from_utf8(bytes).expect("a listing is plain text")
}

/// The answers of events after the session's setup lines, each without its
/// number, joined by commas.
pub fn answers(events: &str) -> String {
    answers_after(SESSION_WORDS, events)
}

/// The same after other setup lines.
pub fn answers_after(setup: &str, events: &str) -> String {
    answers_in(&listed(&lines(&format!("{setup} {events}"))))
}

/// The answers in a listing that begins with an admitted setup.
pub fn answers_in(listing: &str) -> String {
    let mut lines = listing.lines();
    assert_eq!(lines.next(), Some("setup 0"));
    let answers = lines.map(|line| line.split_once(' ').map_or(line, |parts| parts.1));
    answers.collect::<Vec<_>>().join(", ")
}
