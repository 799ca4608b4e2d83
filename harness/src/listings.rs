//! Listings compared: the library's, in this process, and the second
//! program's, of one random script after another.

use crate::count::Count;
use crate::library::{listing, Listed};
use second::compare::difference;
use second::makers::{self, Kind};
use second::numbers::Wrapped;
use second::random::Random;
use second::script::LARGEST_SCRIPT;

/// What stands in a row before a listing is written into it.
const FILLER: u8 = 0xa5;

/// The scripts of so many seeds, each of one kind or of the kind that its
/// seed decides: once into a row with room, once into one that may be short.
pub fn compare(from: u64, seeds: u64, kind: Option<Kind>) -> Count {
    let mut count = Count::default();
    for seed in from..from + seeds {
        let kind = kind.unwrap_or(Kind::of_seed(seed));
        let script = makers::script(seed, kind);
        let expected = second::listing::listing::<Wrapped>(&script);
        let short = Random::new(seed).below(expected.len() as u64 + 2) as usize;
        for room in [2 * LARGEST_SCRIPT, short] {
            let complaint = complaint(&script, &expected, room);
            count.note(complaint.is_none(), || {
                let (name, complaint) = (kind.name(), complaint.unwrap_or_default());
                format!("seed {seed} ({name}), a row of {room}: {complaint}")
            });
        }
        count.events += events(&expected);
    }
    count
}

/// What is wrong with the listing that the library writes into such a row.
fn complaint(script: &[u8], expected: &[u8], room: usize) -> Option<String> {
    let mut row = vec![FILLER; room];
    let Listed { len, whole } = listing(script, &mut row);
    let expected_whole = expected.len() <= room;
    if len > room {
        return Some(format!("{len} bytes are said to be written"));
    }
    if whole != expected_whole {
        return Some(format!("whole: expected {expected_whole}, given {whole}"));
    }
    if row[len..].iter().any(|&byte| byte != FILLER) {
        return Some("a place behind the listing was written".to_string());
    }
    difference(fitting(expected, room), &row[..len])
}

/// The lines of a listing that fit whole into a row.
fn fitting(listing: &[u8], room: usize) -> &[u8] {
    let most = &listing[..room.min(listing.len())];
    let end = most.iter().rposition(|&byte| byte == b'\n');
    &most[..end.map_or(0, |end| end + 1)]
}

/// How many lines of a listing are an event's.
fn events(listing: &[u8]) -> u64 {
    let lines = listing.split_inclusive(|&byte| byte == b'\n');
    lines.filter(|line| line[0].is_ascii_digit()).count() as u64
}
