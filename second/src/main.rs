//! The commands of the second program: listings of scripts by the rules on
//! wrapped numbers or on whole ones, random scripts, and comparisons: the two
//! kinds of number with each other, another program with this one, and this
//! one with planted slips. The rules and all else are in the library.

use second::compare::Comparison;
use second::makers::{self, Kind};
use second::numbers::{Whole, Wrapped};
use second::{agree, listing, script, slips};
use std::io::{self, Read, Write};
use std::process::ExitCode;

const USAGE: &str = "\
usage:
  second listing [--whole] [--checked]
      listing of the script on standard input; by the rules on whole numbers;
      with the malformed test at every event
  second make SEED [KIND]
      the random script of a seed; KIND is useful, tight, refusals, damaged,
      limits or noise, and without it the seed decides
  second agree FROM COUNT
      runs COUNT seeds from FROM on wrapped and on whole numbers
  second compare PROGRAM FROM COUNT [--verbose]
      compares PROGRAM's listings of COUNT seeds with the ones made here
  second compare-files PROGRAM FILE...
      the same for stored scripts
  second slips FROM COUNT
      counts, for each planted slip, the seeds that show it
Exit status 0 if all went well, 1 if something failed, 2 for wrong use.
";

/// Why a command did not end well.
enum Trouble {
    WrongUse,
    CouldNot(String),
}

/// Whether everything that was looked at was right, or trouble.
type Outcome = Result<bool, Trouble>;

fn main() -> ExitCode {
    let words: Vec<String> = std::env::args().skip(1).collect();
    let words: Vec<&str> = words.iter().map(String::as_str).collect();
    match command(&words) {
        Ok(true) => ExitCode::SUCCESS,
        Ok(false) => ExitCode::from(1),
        Err(Trouble::WrongUse) => {
            eprint!("{USAGE}");
            ExitCode::from(2)
        }
        Err(Trouble::CouldNot(what)) => {
            eprintln!("second: {what}");
            ExitCode::from(2)
        }
    }
}

fn command(words: &[&str]) -> Outcome {
    match words {
        ["listing", flags @ ..] => list(flags),
        ["make", seed] => {
            let seed = value(seed)?;
            make(seed, Kind::of_seed(seed))
        }
        ["make", seed, kind] => make(value(seed)?, Kind::named(kind).ok_or(Trouble::WrongUse)?),
        ["agree", from, count] => agree(seeds(from, count)?),
        ["compare", program, from, count] => compare(program, seeds(from, count)?, false),
        ["compare", program, from, count, "--verbose"] => {
            compare(program, seeds(from, count)?, true)
        }
        ["compare-files", program, files @ ..] if !files.is_empty() => {
            compare_files(program, files)
        }
        ["slips", from, count] => find_slips(seeds(from, count)?),
        _ => Err(Trouble::WrongUse),
    }
}

fn value(word: &str) -> Result<u64, Trouble> {
    word.parse().map_err(|_| Trouble::WrongUse)
}

/// The first seed and the count of seeds, of which the last is below 2^64.
fn seeds(from: &str, count: &str) -> Result<(u64, u64), Trouble> {
    let (from, count) = (value(from)?, value(count)?);
    from.checked_add(count).ok_or(Trouble::WrongUse)?;
    Ok((from, count))
}

fn list(flags: &[&str]) -> Outcome {
    let make = match flags {
        [] => listing::listing::<Wrapped>,
        ["--whole"] => listing::listing::<Whole>,
        ["--checked"] => listing::checked_listing::<Wrapped>,
        ["--whole", "--checked"] => listing::checked_listing::<Whole>,
        _ => return Err(Trouble::WrongUse),
    };
    let mut bytes = Vec::new();
    let enough = script::LARGEST_SCRIPT as u64 + 1;
    let read = io::stdin().lock().take(enough).read_to_end(&mut bytes);
    read.map_err(|error| Trouble::CouldNot(format!("standard input: {error}")))?;
    put(&make(&bytes))
}

fn make(seed: u64, kind: Kind) -> Outcome {
    put(&makers::script(seed, kind))
}

/// Bytes on standard output, no more and no less.
fn put(bytes: &[u8]) -> Outcome {
    let mut out = io::stdout().lock();
    let written = out.write_all(bytes).and_then(|()| out.flush());
    written.map_err(|error| Trouble::CouldNot(format!("standard output: {error}")))?;
    Ok(true)
}

fn agree((from, count): (u64, u64)) -> Outcome {
    let summary = agree::agree(from, count);
    println!("{summary}");
    Ok(summary.failures.is_empty())
}

fn compare(program: &str, (from, count): (u64, u64), verbose: bool) -> Outcome {
    let mut comparison = Comparison::new(program, verbose);
    for seed in from..from + count {
        let kind = Kind::of_seed(seed);
        let name = format!("seed {seed} ({})", kind.name());
        comparison
            .script(&name, &makers::script(seed, kind))
            .map_err(|error| Trouble::CouldNot(format!("{program}: {error}")))?;
    }
    Ok(comparison.finish())
}

fn compare_files(program: &str, files: &[&str]) -> Outcome {
    let mut comparison = Comparison::new(program, false);
    for file in files {
        let script = std::fs::read(file);
        let script = script.map_err(|error| Trouble::CouldNot(format!("{file}: {error}")))?;
        comparison
            .script(file, &script)
            .map_err(|error| Trouble::CouldNot(format!("{program}: {error}")))?;
    }
    Ok(comparison.finish())
}

/// Every slip that can show must be seen, and no other.
fn find_slips((from, count): (u64, u64)) -> Outcome {
    let showing = slips::found(from, count, &slips::SHOWING);
    let silent = slips::found(from, count, &slips::SILENT);
    println!("slips that must show in some of {count} scripts");
    for (slip, shown) in &showing {
        println!("{shown:8}  {slip:?}");
    }
    println!("slips that must not show");
    for (slip, shown) in &silent {
        println!("{shown:8}  {slip:?}");
    }
    let seen = showing.iter().filter(|entry| entry.1 > 0).count();
    let unseen = silent.iter().filter(|entry| entry.1 == 0).count();
    let passed = seen + unseen;
    let failed = showing.len() + silent.len() - passed;
    println!("{passed} passed, {failed} failed");
    Ok(failed == 0)
}
