//! The script's text: lines, values, the eight setup lines and the events.
//!
//! Any bytes at all may come in. What is read is a setup or an event; what
//! cannot be read is a bad line with its number, counted from 1.

use crate::bench::Event;
use crate::setup::Setup;

/// A script may not be longer than this.
pub const LARGEST_SCRIPT: usize = 65_536;

/// The keys of the setup lines in their order.
pub const SETUP_KEYS: [&str; 8] = [
    "window",
    "seqbits",
    "clockbits",
    "life",
    "rate",
    "seq",
    "sclock",
    "rclock",
];

/// The number of a line that could not be read.
#[derive(Clone, Copy, PartialEq, Eq, Debug)]
pub struct BadLine(pub usize);

/// A script that is read from its front, one line at a time.
pub struct Script<'a> {
    rest: &'a [u8],
    /// How many lines were read.
    lines: usize,
}

impl<'a> Script<'a> {
    pub fn new(bytes: &'a [u8]) -> Self {
        Script {
            rest: bytes,
            lines: 0,
        }
    }

    /// The eight setup lines. None if a value is too large for its field.
    pub fn setup(&mut self) -> Result<Option<Setup>, BadLine> {
        let mut values = [0; SETUP_KEYS.len()];
        for (key, value) in SETUP_KEYS.iter().zip(&mut values) {
            *value = self.setup_line(key)?;
        }
        Ok(setup_of(values))
    }

    /// The next event, or none at the end of the script.
    pub fn event(&mut self) -> Option<Result<Event, BadLine>> {
        if self.rest.is_empty() {
            return None;
        }
        let event = self
            .next_line()
            .and_then(|(key, value)| event_of(key, value));
        Some(event.ok_or(BadLine(self.lines)))
    }

    fn setup_line(&mut self, key: &str) -> Result<u64, BadLine> {
        match self.next_line() {
            Some((found, value)) if found == key.as_bytes() => Ok(value),
            _ => Err(BadLine(self.lines)),
        }
    }

    /// Key and value of the next line; none if it is bad or missing. Either
    /// way the line is counted.
    fn next_line(&mut self) -> Option<(&'a [u8], u64)> {
        self.lines += 1;
        let end = self.rest.iter().position(|&byte| byte == b'\n')?;
        let line = &self.rest[..end];
        self.rest = &self.rest[end + 1..];
        let equals = line.iter().position(|&byte| byte == b'=')?;
        Some((&line[..equals], value_of(&line[equals + 1..])?))
    }
}

/// 1 to 20 decimal digits below 2^64.
fn value_of(digits: &[u8]) -> Option<u64> {
    if digits.is_empty() || digits.len() > 20 {
        return None;
    }
    let mut value: u64 = 0;
    for digit in digits {
        if !digit.is_ascii_digit() {
            return None;
        }
        value = value
            .checked_mul(10)?
            .checked_add(u64::from(digit - b'0'))?;
    }
    Some(value)
}

/// The setup of eight values; none if one does not fit 32 bits.
fn setup_of(values: [u64; SETUP_KEYS.len()]) -> Option<Setup> {
    let field = |place: usize| u32::try_from(values[place]).ok();
    Some(Setup {
        rw: field(0)?,
        seqbits: field(1)?,
        clockbits: field(2)?,
        life: field(3)?,
        rate: field(4)?,
        seq: field(5)?,
        sclock: field(6)?,
        rclock: field(7)?,
    })
}

/// The values of a setup in the order of its lines.
pub fn setup_values(setup: &Setup) -> [u64; SETUP_KEYS.len()] {
    [
        setup.rw,
        setup.seqbits,
        setup.clockbits,
        setup.life,
        setup.rate,
        setup.seq,
        setup.sclock,
        setup.rclock,
    ]
    .map(u64::from)
}

/// The event of a key and a value; none if there is no such event.
fn event_of(key: &[u8], value: u64) -> Option<Event> {
    match (key, value) {
        (b"accept", unit) => Some(Event::Accept(unit)),
        (b"send", k) => Some(Event::Send(k)),
        (b"data", place) => Some(Event::Data(place)),
        (b"hear", place) => Some(Event::Hear(place)),
        (b"dropd", place) => Some(Event::DropData(place)),
        (b"dropa", place) => Some(Event::DropAck(place)),
        (b"dupd", place) => Some(Event::DuplicateData(place)),
        (b"dupa", place) => Some(Event::DuplicateAck(place)),
        (b"room", 1) => Some(Event::Room),
        (b"ack", 1) => Some(Event::Ack),
        (b"tick", 1) => Some(Event::Tick),
        _ => None,
    }
}

/// Key and value of the line that means an event.
pub fn event_words(event: Event) -> (&'static str, u64) {
    match event {
        Event::Accept(unit) => ("accept", unit),
        Event::Send(k) => ("send", k),
        Event::Data(place) => ("data", place),
        Event::Hear(place) => ("hear", place),
        Event::DropData(place) => ("dropd", place),
        Event::DropAck(place) => ("dropa", place),
        Event::DuplicateData(place) => ("dupd", place),
        Event::DuplicateAck(place) => ("dupa", place),
        Event::Room => ("room", 1),
        Event::Ack => ("ack", 1),
        Event::Tick => ("tick", 1),
    }
}
