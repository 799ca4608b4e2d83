//! The makers: what a seed gives is always the same, and each kind is what it
//! is for.

use super::{listed, text};
use crate::makers::{script, Kind};
use crate::random::Random;

const KINDS: [Kind; 6] = [
    Kind::Useful,
    Kind::Tight,
    Kind::Refusals,
    Kind::Damaged,
    Kind::Limits,
    Kind::Noise,
];

#[test]
fn splitmix_gives_its_known_numbers() {
    let mut random = Random::new(1_234_567);
    assert_eq!(random.draw(), 6_457_827_717_110_365_317);
    assert_eq!(random.draw(), 3_203_168_211_198_807_973);
}

#[test]
fn a_seed_always_gives_the_same_script() {
    for kind in KINDS {
        assert_eq!(script(7, kind), script(7, kind));
        assert_ne!(script(7, kind), script(8, kind));
        assert_eq!(Kind::named(kind.name()), Some(kind));
    }
}

#[test]
fn useful_scripts_deliver_units() {
    let delivering = (0..40)
        .map(|seed| listed(&script(seed, Kind::Useful)))
        .filter(|listing| listing.lines().any(|line| line.split(' ').count() > 2))
        .count();
    assert!(delivering >= 35, "{delivering}");
}

#[test]
fn tight_scripts_are_inside_and_outside_the_bounds() {
    let listings: Vec<String> = (0..60)
        .map(|seed| listed(&script(seed, Kind::Tight)))
        .collect();
    let refused = listings.iter().filter(|text| *text == "setup 1\n").count();
    let run = listings
        .iter()
        .filter(|text| text.starts_with("setup 0\n"))
        .count();
    assert!(refused > 0 && run > refused);
    assert_eq!(refused + run, listings.len());
}

#[test]
fn damaged_scripts_come_out_in_every_way() {
    let listings: Vec<String> = (0..200)
        .map(|seed| listed(&script(seed, Kind::Damaged)))
        .collect();
    let some = |test: fn(&str) -> bool| listings.iter().any(|listing| test(listing));
    assert!(some(|listing| listing == "setup 1\n"));
    assert!(some(|listing| listing == "bad line 1\n"));
    assert!(some(
        |listing| listing.starts_with("setup 0\n") && listing.contains("bad line")
    ));
    assert!(some(
        |listing| listing.starts_with("setup 0\n") && !listing.contains("bad line")
    ));
}

#[test]
fn damaged_scripts_have_a_bad_line_after_a_value_too_large() {
    let paired = (0..1_000)
        .map(|seed| script(seed, Kind::Damaged))
        .filter(|script| {
            let listing = listed(script);
            let bad = listing.strip_prefix("bad line ");
            let bad: Option<usize> = bad.and_then(|line| line.trim_end().parse().ok());
            let lines = script.split(|&byte| byte == b'\n');
            let mut before = lines.take(bad.map_or(0, |line| line - 1));
            before.any(|line| line.ends_with(b"=4294967296"))
        });
    assert!(paired.count() > 10);
}

#[test]
fn limit_scripts_have_the_sizes_about_the_limit() {
    let scripts: Vec<Vec<u8>> = (0..60).map(|seed| script(seed, Kind::Limits)).collect();
    for size in [65_536, 65_537] {
        assert!(scripts.iter().any(|script| script.len() == size));
    }
    for script in scripts {
        let too_long = script.len() > 65_536;
        assert!(script.len() >= 64_000);
        assert_eq!(listed(&script) == "bad input\n", too_long);
    }
}

#[test]
fn scripts_that_are_not_damaged_are_plain_text() {
    for kind in [Kind::Useful, Kind::Tight, Kind::Refusals, Kind::Limits] {
        assert!(text(script(3, kind)).starts_with("window="));
    }
}

#[test]
fn noise_comes_out_in_every_way() {
    let listings: Vec<String> = (0..200)
        .map(|seed| listed(&script(seed, Kind::Noise)))
        .collect();
    let some = |test: fn(&str) -> bool| listings.iter().any(|listing| test(listing));
    assert!(some(|listing| listing == "bad input\n"));
    assert!(some(|listing| listing == "bad line 1\n"));
    assert!(some(|listing| listing == "setup 0\nbad line 9\n"));
    assert!(some(
        |listing| listing.starts_with("setup 0\n1 ") && listing.contains("bad line")
    ));
}
