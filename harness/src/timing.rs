//! The time of each kind of run, as a ratio to the first, in Markdown.

use crate::kinds::{Kind, KINDS};
use std::hint::black_box;
use std::time::{Duration, Instant};

/// Times every kind in turn, again and again, and prints the least of each.
pub fn table(seed: u64, events: u64, turns: u32) {
    let mut least = [Duration::MAX; KINDS.len()];
    for _ in 0..turns {
        for (kind, least) in KINDS.iter().zip(&mut least) {
            *least = time(kind, seed, events).min(*least);
        }
    }
    println!("| {events} mixed events, least of {turns} | ns for an event | ratio |");
    println!("|---|---|---|");
    for (kind, time) in KINDS.iter().zip(least) {
        let each = time.as_nanos() as f64 / events as f64;
        let ratio = time.as_secs_f64() / least[0].as_secs_f64();
        println!("| {} | {each:.1} | {ratio:.2} |", kind.title);
    }
}

fn time(kind: &Kind, seed: u64, events: u64) -> Duration {
    let start = Instant::now();
    black_box((kind.run)(black_box(seed), black_box(events)));
    start.elapsed()
}
