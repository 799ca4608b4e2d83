//! Another program's listings against the ones made here, byte for byte.

use crate::listing::listing;
use crate::numbers::Wrapped;
use std::io::{self, IsTerminal, Write};
use std::process::{Command, ExitStatus, Stdio};
use std::thread;

/// How many scripts pass between two signs of progress, when so many are done.
fn progress_step(done: u64) -> u64 {
    if done < 1_000 {
        100
    } else {
        1_000
    }
}

/// How the scripts so far came out.
pub struct Comparison<'a> {
    program: &'a str,
    progress: bool,
    pub passed: u64,
    pub failed: u64,
}

impl<'a> Comparison<'a> {
    /// Progress is shown on standard error, unasked only on a terminal.
    pub fn new(program: &'a str, verbose: bool) -> Self {
        Comparison {
            program,
            progress: verbose || io::stderr().is_terminal(),
            passed: 0,
            failed: 0,
        }
    }

    /// Runs the program on one script and prints how its listing differs, if
    /// it does. An error means that the program could not be run at all.
    pub fn script(&mut self, name: &str, script: &[u8]) -> io::Result<()> {
        let (status, given) = run(self.program, script)?;
        match complaint(&listing::<Wrapped>(script), &given, status) {
            Some(complaint) => {
                self.failed += 1;
                println!("{name}: {complaint}");
            }
            None => self.passed += 1,
        }
        self.show_progress();
        Ok(())
    }

    /// Prints the last line, and says whether all passed.
    pub fn finish(&self) -> bool {
        println!("{} passed, {} failed", self.passed, self.failed);
        self.failed == 0
    }

    fn show_progress(&self) {
        let done = self.passed + self.failed;
        if self.progress && done.is_multiple_of(progress_step(done)) {
            eprintln!("{done} done, {} failed", self.failed);
        }
    }
}

/// Runs a program on a script. The script is written by a thread of its own,
/// so that neither pipe can block the other; a program that stops reading
/// early is no error.
fn run(program: &str, script: &[u8]) -> io::Result<(ExitStatus, Vec<u8>)> {
    let mut child = Command::new(program)
        .stdin(Stdio::piped())
        .stdout(Stdio::piped())
        .stderr(Stdio::null())
        .spawn()?;
    let stdin = child.stdin.take();
    let output = thread::scope(|scope| {
        scope.spawn(move || stdin.map(|mut pipe| pipe.write_all(script)));
        child.wait_with_output()
    })?;
    Ok((output.status, output.stdout))
}

/// What is wrong with a listing; nothing if it is the expected one and the
/// program ended well.
fn complaint(expected: &[u8], given: &[u8], status: ExitStatus) -> Option<String> {
    if let Some(difference) = difference(expected, given) {
        return Some(difference);
    }
    (!status.success()).then(|| format!("right listing, but {status}"))
}

/// The first line in which two listings differ, told of both sides.
pub fn difference(expected: &[u8], given: &[u8]) -> Option<String> {
    if expected == given {
        return None;
    }
    let mut expected = expected.split_inclusive(|&byte| byte == b'\n');
    let mut given = given.split_inclusive(|&byte| byte == b'\n');
    for line in 1u64.. {
        let (right, other) = (expected.next(), given.next());
        if right != other {
            let (right, other) = (quoted(right), quoted(other));
            return Some(format!("line {line}: expected {right}, given {other}"));
        }
    }
    None
}

fn quoted(line: Option<&[u8]>) -> String {
    match line {
        Some(line) => format!("\"{}\"", line.escape_ascii()),
        None => "no line".to_string(),
    }
}
