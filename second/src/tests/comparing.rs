//! The first difference between two listings.

use crate::compare::difference;

#[test]
fn equal_listings_do_not_differ() {
    assert_eq!(difference(b"setup 0\n1 0\n", b"setup 0\n1 0\n"), None);
    assert_eq!(difference(b"", b""), None);
}

#[test]
fn the_first_differing_line_is_told() {
    let told = difference(b"setup 0\n1 0\n2 4\n", b"setup 0\n1 6\n2 5\n");
    let expected = r#"line 2: expected "1 0\n", given "1 6\n""#;
    assert_eq!(told.as_deref(), Some(expected));
}

#[test]
fn missing_and_surplus_lines_and_line_feeds_differ() {
    let told = difference(b"setup 0\n1 0\n", b"setup 0\n");
    let expected = r#"line 2: expected "1 0\n", given no line"#;
    assert_eq!(told.as_deref(), Some(expected));
    let told = difference(b"setup 0\n", b"setup 0\n1 0\n");
    let expected = r#"line 2: expected no line, given "1 0\n""#;
    assert_eq!(told.as_deref(), Some(expected));
    let told = difference(b"setup 0\n", b"setup 0");
    let expected = r#"line 1: expected "setup 0\n", given "setup 0""#;
    assert_eq!(told.as_deref(), Some(expected));
}
