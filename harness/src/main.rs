//! The static library and the second program side by side, in one process:
//! long runs and listings compared, and the time of long runs.

mod count;
mod kinds;
mod library;
mod listings;
mod soaking;
mod timing;

use second::makers::Kind;
use std::process::ExitCode;

const USAGE: &str = "\
usage:
  harness soak SEEDS EVENTS
      long runs of SEEDS seeds, of EVENTS, 2 EVENTS, .. events: every kind of
      run must come to the same checksum
  harness listings FROM COUNT [KIND]
      the listings of COUNT seeds from FROM on, in rows with room and in short
      ones; KIND is one of the second program's, and without it the seed decides
  harness timing SEED EVENTS TURNS
      the time of each kind of run, the least of TURNS, as a table
  harness once KIND SEED EVENTS
      one run, for a profiler: rust, rust-checked, bench or bench-checked
Exit status 0 if all went well, 1 if something differs, 2 for wrong use.
";

fn main() -> ExitCode {
    let words: Vec<String> = std::env::args().skip(1).collect();
    let words: Vec<&str> = words.iter().map(String::as_str).collect();
    match command(&words) {
        Some(true) => ExitCode::SUCCESS,
        Some(false) => ExitCode::from(1),
        None => {
            eprint!("{USAGE}");
            ExitCode::from(2)
        }
    }
}

/// Whether all went well; none for wrong use.
fn command(words: &[&str]) -> Option<bool> {
    match words {
        ["soak", seeds, events] => Some(soaking::compare(value(seeds)?, value(events)?).finish()),
        ["listings", from, count] => listings(from, count, None),
        ["listings", from, count, kind] => listings(from, count, Some(Kind::named(kind)?)),
        ["timing", seed, events, turns] => {
            timing::table(value(seed)?, value(events)?, turns.parse().ok()?);
            Some(true)
        }
        ["once", kind, seed, events] => {
            let kind = kinds::named(kind)?;
            println!("{}", (kind.run)(value(seed)?, value(events)?));
            Some(true)
        }
        _ => None,
    }
}

fn listings(from: &str, count: &str, kind: Option<Kind>) -> Option<bool> {
    let (from, count) = (value(from)?, value(count)?);
    from.checked_add(count)?;
    Some(listings::compare(from, count, kind).finish())
}

fn value(word: &str) -> Option<u64> {
    word.parse().ok()
}
