//! Demand 3 as a test: the same script on wrapped and on whole numbers.
//!
//! Both benches take every event side by side. After each one the answers and
//! the delivered units must be the same, the wrapped state must be the whole
//! one taken round its ranges, neither may be malformed, the delivered units
//! must be the first so many of the accepted ones, and on whole numbers una,
//! nxt, the sender's next and the end of the granted window must stand in this
//! order.

use crate::answers::{delivered, number, Answer};
use crate::bench::{Bench, Event};
use crate::listing::{listing, Row};
use crate::makers::{script, Kind};
use crate::malformed::Malformed;
use crate::numbers::{Number, Whole, Wrapped};
use crate::recent::Recent;
use crate::script::{Script, LARGEST_SCRIPT};
use crate::sender::SLOTS;
use crate::setup::Setup;
use std::fmt;

/// How many answer numbers there are, 0 included.
const ANSWERS: usize = 14;

/// What was seen over many scripts.
#[derive(Default)]
pub struct Summary {
    pub scripts: u64,
    pub admitted: u64,
    pub events: u64,
    pub accepted: u64,
    pub delivered: u64,
    /// How often a sequence number or a clock went round its range.
    pub laps: u64,
    pub clock_laps: u64,
    pub answers: [u64; ANSWERS],
    pub failures: Vec<String>,
}

impl fmt::Display for Summary {
    fn fmt(&self, out: &mut fmt::Formatter) -> fmt::Result {
        for failure in &self.failures {
            writeln!(out, "{failure}")?;
        }
        writeln!(
            out,
            "scripts {}, of which {} have an admitted setup",
            self.scripts, self.admitted
        )?;
        writeln!(
            out,
            "events {}, units accepted {}, delivered {}",
            self.events, self.accepted, self.delivered
        )?;
        writeln!(
            out,
            "laps of sequence numbers {}, of clocks {}",
            self.laps, self.clock_laps
        )?;
        write!(out, "answers")?;
        for (number, count) in self.answers.iter().enumerate().filter(|seen| *seen.1 > 0) {
            write!(out, "  {number}: {count}")?;
        }
        writeln!(out)?;
        let failed = self.failures.len() as u64;
        write!(out, "{} passed, {failed} failed", self.admitted - failed)
    }
}

/// Runs the scripts of all these seeds.
pub fn agree(from: u64, count: u64) -> Summary {
    let mut summary = Summary::default();
    for seed in from..from + count {
        let kind = Kind::of_seed(seed);
        let script = script(seed, kind);
        summary.scripts += 1;
        if let Err(failure) = compare_script(&script, &mut summary) {
            let failure = format!("seed {seed} ({}): {failure}", kind.name());
            summary.failures.push(failure);
        }
    }
    summary
}

/// Runs one script on both kinds of number. One without an admitted setup has
/// nothing to run and passes.
pub fn compare_script(bytes: &[u8], summary: &mut Summary) -> Result<(), String> {
    if bytes.len() > LARGEST_SCRIPT {
        return Ok(());
    }
    let mut script = Script::new(bytes);
    let Ok(Some(setup)) = script.setup() else {
        return Ok(());
    };
    let Some(mut pair) = Pair::start(setup) else {
        return Ok(());
    };
    summary.admitted += 1;
    let result = pair.run(&mut script, summary);
    pair.count_laps(summary);
    result?;
    if listing::<Wrapped>(bytes) == listing::<Whole>(bytes) {
        return Ok(());
    }
    Err("the listings differ".to_string())
}

/// Both benches and the units that went in and came out.
struct Pair {
    setup: Setup,
    wrapped: Bench<Wrapped>,
    whole: Bench<Whole>,
    accepted: Vec<u64>,
    delivered: usize,
}

impl Pair {
    fn start(setup: Setup) -> Option<Self> {
        Some(Pair {
            setup,
            wrapped: Bench::start(setup).ok()?,
            whole: Bench::start(setup).ok()?,
            accepted: Vec::new(),
            delivered: 0,
        })
    }

    /// Every event up to the end or a bad line.
    fn run(&mut self, script: &mut Script, summary: &mut Summary) -> Result<(), String> {
        let mut count = 0;
        while let Some(Ok(event)) = script.event() {
            count += 1;
            let answer = self
                .event(event)
                .map_err(|failure| format!("event {count}, {event:?}: {failure}"))?;
            summary.events += 1;
            summary.answers[number(answer) as usize] += 1;
        }
        summary.accepted += self.accepted.len() as u64;
        summary.delivered += self.delivered as u64;
        Ok(())
    }

    /// One event on both benches, with everything that must then hold.
    fn event(&mut self, event: Event) -> Result<Answer, String> {
        let mut row = [0; SLOTS];
        let mut whole_row = [0; SLOTS];
        let answer = self.wrapped.event(event, &mut row);
        let whole_answer = self.whole.event(event, &mut whole_row);
        if (answer, row) != (whole_answer, whole_row) {
            return Err(format!("wrapped {answer:?}, whole {whole_answer:?}"));
        }
        self.note_units(event, answer, &row)?;
        if self.wrapped.malformed() || self.whole.malformed() {
            return Err("the state is malformed".to_string());
        }
        if !self.same_shown() {
            return Err("the states differ".to_string());
        }
        if !self.in_order() {
            return Err("una, nxt, next and window are out of order".to_string());
        }
        Ok(answer)
    }

    /// Delivered units go on where the delivered ones before them ended.
    fn note_units(&mut self, event: Event, answer: Answer, row: &Row) -> Result<(), String> {
        if let (Event::Accept(unit), Ok(_)) = (event, answer) {
            self.accepted.push(unit);
        }
        let units = &row[..delivered(answer)];
        let end = self.delivered + units.len();
        if self.accepted.get(self.delivered..end) != Some(units) {
            return Err("the delivered units are not those accepted".to_string());
        }
        self.delivered = end;
        Ok(())
    }

    /// una ≤ nxt ≤ next ≤ una + granted.
    fn in_order(&self) -> bool {
        let sender = &self.whole.sender;
        let una = sender.una.0;
        let nxt = self.whole.receiver.nxt.0;
        let next = una + u64::from(sender.outstanding);
        una <= nxt && nxt <= next && next <= una + u64::from(sender.granted)
    }

    /// Every number of the wrapped state is the whole one taken round.
    fn same_shown(&self) -> bool {
        let (ns, nc) = (self.setup.ns(), self.setup.nc());
        let (wrapped, whole) = (&self.wrapped, &self.whole);
        let ends = shown(wrapped.sender.una, ns) == shown(whole.sender.una, ns)
            && shown(wrapped.receiver.nxt, ns) == shown(whole.receiver.nxt, ns)
            && shown(wrapped.sender.clock, nc) == shown(whole.sender.clock, nc)
            && shown(wrapped.receiver.clock, nc) == shown(whole.receiver.clock, nc)
            && shown_recent(&wrapped.sender.recent, nc) == shown_recent(&whole.sender.recent, nc)
            && shown_recent(&wrapped.receiver.recent, nc)
                == shown_recent(&whole.receiver.recent, nc);
        ends && self.same_counts()
    }

    /// What is no number is the same in both states.
    fn same_counts(&self) -> bool {
        let (wrapped, whole) = (&self.wrapped, &self.whole);
        wrapped.sender.outstanding == whole.sender.outstanding
            && wrapped.sender.granted == whole.sender.granted
            && wrapped.sender.accepted == whole.sender.accepted
            && wrapped.sender.slots == whole.sender.slots
            && wrapped.receiver.window == whole.receiver.window
            && wrapped.receiver.marks == whole.receiver.marks
            && wrapped.receiver.slots == whole.receiver.slots
            && wrapped.data.count == whole.data.count
            && wrapped.acks.count == whole.acks.count
    }

    fn count_laps(&self, summary: &mut Summary) {
        summary.laps += self.whole.receiver.nxt.0 / self.setup.ns();
        summary.clock_laps += self.whole.sender.clock.0 / self.setup.nc();
        summary.clock_laps += self.whole.receiver.clock.0 / self.setup.nc();
    }
}

fn shown<N: Number>(number: N, range: u64) -> u32 {
    number.shown(range)
}

fn shown_recent<N: Number>(recent: &Recent<N>, nc: u64) -> (bool, u32, u32) {
    (recent.known, recent.value.shown(nc), recent.age)
}
