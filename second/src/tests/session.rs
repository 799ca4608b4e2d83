//! The session, byte for byte, on both kinds of number.

use super::{lines, text, SESSION_WORDS};
use crate::listing::{checked_listing, listing};
use crate::numbers::{Whole, Wrapped};

const EVENTS: &str = "accept=500 room=1 room=1 room=1 ack=1 hear=0 accept=500 accept=740 \
    accept=760 send=1 send=0 dupd=1 data=0 data=0 data=0 data=0";

const LISTING: &str = "setup 0
1 6
2 0
3 0
4 13
5 0
6 0
7 0
8 0
9 6
10 0
11 0
12 0
13 0
14 0 500 740
15 10
16 4
";

#[test]
fn session_on_wrapped_numbers() {
    let script = lines(&format!("{SESSION_WORDS} {EVENTS}"));
    assert_eq!(text(listing::<Wrapped>(&script)), LISTING);
    assert_eq!(text(checked_listing::<Wrapped>(&script)), LISTING);
}

#[test]
fn session_on_whole_numbers() {
    let script = lines(&format!("{SESSION_WORDS} {EVENTS}"));
    assert_eq!(text(listing::<Whole>(&script)), LISTING);
    assert_eq!(text(checked_listing::<Whole>(&script)), LISTING);
}
