//! From the bytes of a script to the bytes of its listing.

use crate::answers::{delivered, number, Answer, Refusal};
use crate::bench::{Bench, Event};
use crate::malformed::checked;
use crate::numbers::Number;
use crate::script::{BadLine, Script, LARGEST_SCRIPT};
use crate::sender::SLOTS;
use crate::setup::Setup;

/// The row that the script program lends; never shorter than RW.
pub type Row = [u64; SLOTS];

/// Something that takes a bench's events and answers them.
pub trait Engine {
    fn event(&mut self, event: Event, row: &mut Row) -> Answer;
}

impl<N: Number> Engine for Bench<N> {
    fn event(&mut self, event: Event, row: &mut Row) -> Answer {
        Bench::event(self, event, row)
    }
}

/// A bench with the malformed test in front of every event.
pub struct CheckedBench<N>(pub Bench<N>);

impl<N: Number> Engine for CheckedBench<N> {
    fn event(&mut self, event: Event, row: &mut Row) -> Answer {
        checked(&mut self.0, |bench| bench.event(event, row))
    }
}

/// The listing of a script by the rules on numbers of kind `N`.
pub fn listing<N: Number>(script: &[u8]) -> Vec<u8> {
    listing_by(script, Bench::<N>::start)
}

/// The same listing, made with the malformed test at every event.
pub fn checked_listing<N: Number>(script: &[u8]) -> Vec<u8> {
    listing_by(script, |setup| Bench::<N>::start(setup).map(CheckedBench))
}

/// The listing of a script by any engine, which `start` makes of the setup.
pub fn listing_by<E: Engine>(
    script: &[u8],
    start: impl FnOnce(Setup) -> Result<E, Refusal>,
) -> Vec<u8> {
    if script.len() > LARGEST_SCRIPT {
        return b"bad input\n".to_vec();
    }
    let mut script = Script::new(script);
    let setup = match script.setup() {
        Ok(setup) => setup,
        Err(bad) => return bad_line(bad).into_bytes(),
    };
    match setup.ok_or(Refusal::SetupNotAdmitted).and_then(start) {
        Ok(mut engine) => run(&mut script, &mut engine).into_bytes(),
        Err(_) => b"setup 1\n".to_vec(),
    }
}

/// Every event's line, up to the end of the script or its first bad line.
fn run(script: &mut Script, engine: &mut impl Engine) -> String {
    let mut out = String::from("setup 0\n");
    let mut row = [0; SLOTS];
    let mut count = 0;
    while let Some(line) = script.event() {
        match line {
            Ok(event) => {
                count += 1;
                let answer = engine.event(event, &mut row);
                push_event(&mut out, count, answer, &row);
            }
            Err(bad) => {
                out.push_str(&bad_line(bad));
                break;
            }
        }
    }
    out
}

fn push_event(out: &mut String, count: usize, answer: Answer, row: &Row) {
    out.push_str(&format!("{count} {}", number(answer)));
    for unit in &row[..delivered(answer)] {
        out.push_str(&format!(" {unit}"));
    }
    out.push('\n');
}

fn bad_line(bad: BadLine) -> String {
    format!("bad line {}\n", bad.0)
}
