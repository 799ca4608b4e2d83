//! The script's text: what is a bad line, what is a refused setup, what is
//! neither.

use super::{lines, listed, SESSION_WORDS};

/// The session's setup lines followed by these bytes.
fn after_setup(events: &[u8]) -> Vec<u8> {
    [lines(SESSION_WORDS), events.to_vec()].concat()
}

fn lists(events: &[u8], expected: &str) {
    let name = events.escape_ascii();
    assert_eq!(listed(&after_setup(events)), expected, "{name}");
}

/// The session's setup lines with one of them replaced.
fn with_setup_line(line: &str, replaced: &str) -> Vec<u8> {
    lines(&SESSION_WORDS.replace(line, replaced))
}

#[test]
fn a_last_line_without_its_line_feed_is_bad() {
    lists(b"room=1", "setup 0\nbad line 9\n");
    lists(b"room=1\nroom=1", "setup 0\n1 0\nbad line 10\n");
    lists(b"r", "setup 0\nbad line 9\n");
}

#[test]
fn no_line_follows_the_last_line_feed() {
    lists(b"", "setup 0\n");
    lists(b"room=1\n", "setup 0\n1 0\n");
}

#[test]
fn an_empty_line_is_bad() {
    lists(b"\n", "setup 0\nbad line 9\n");
    lists(b"room=1\n\n", "setup 0\n1 0\nbad line 10\n");
    let before = [b"\n".to_vec(), lines(SESSION_WORDS)].concat();
    assert_eq!(listed(&before), "bad line 1\n");
}

#[test]
fn a_bad_event_line_ends_the_run_after_the_events_before_it() {
    lists(
        b"room=1\nack=1\nroom=2\nroom=1\n",
        "setup 0\n1 0\n2 0\nbad line 11\n",
    );
}

#[test]
fn a_refused_setup_ends_everything() {
    let refused = with_setup_line("rate=2", "rate=3");
    assert_eq!(listed(&refused), "setup 1\n");
    let followed = [refused, b"nonsense\n\n".to_vec()].concat();
    assert_eq!(listed(&followed), "setup 1\n");
}

#[test]
fn a_bad_setup_line_wins_over_a_refusal() {
    let script = SESSION_WORDS
        .replace("rate=2", "rate=3")
        .replace("rclock=2", "rclock=x");
    assert_eq!(listed(&lines(&script)), "bad line 8\n");
}

#[test]
fn a_missing_setup_line_has_the_number_it_would_have_had() {
    assert_eq!(listed(b""), "bad line 1\n");
    let words: Vec<&str> = SESSION_WORDS.split(' ').collect();
    for count in 0..8 {
        let script = lines(&words[..count].join(" "));
        assert_eq!(listed(&script), format!("bad line {}\n", count + 1));
    }
}

#[test]
fn a_setup_line_without_its_line_feed_is_bad() {
    let whole = lines(SESSION_WORDS);
    let cut = &whole[..whole.len() - 1];
    assert_eq!(listed(cut), "bad line 8\n");
    assert_eq!(listed(b"window=2"), "bad line 1\n");
}

#[test]
fn setup_lines_in_another_order_are_bad() {
    let script = with_setup_line("window=2 seqbits=3", "seqbits=3 window=2");
    assert_eq!(listed(&script), "bad line 1\n");
    let script = with_setup_line("seq=7 ", "");
    assert_eq!(listed(&script), "bad line 6\n");
}

#[test]
fn a_script_may_have_65536_bytes_and_no_more() {
    let setup = lines(SESSION_WORDS);
    let mut script = setup.clone();
    while script.len() + 12 <= 65_536 {
        script.extend_from_slice(b"ack=1\n");
    }
    let zeros = 65_536 - script.len() - b"ack=1\n".len();
    script.extend_from_slice(format!("ack={}1\n", "0".repeat(zeros)).as_bytes());
    assert_eq!(script.len(), 65_536);
    let whole = listed(&script);
    assert!(whole.starts_with("setup 0\n1 0\n"));
    assert!(whole.ends_with(" 5\n"));
    script.push(b'\n');
    assert_eq!(listed(&script), "bad input\n");
    assert_eq!(listed(&[b'x'; 65_537]), "bad input\n");
    assert_eq!(listed(&[b'x'; 65_536]), "bad line 1\n");
}

#[test]
fn values_have_up_to_twenty_digits_below_two_to_64() {
    lists(b"accept=18446744073709551615\n", "setup 0\n1 6\n");
    lists(b"accept=18446744073709551616\n", "setup 0\nbad line 9\n");
    lists(b"accept=99999999999999999999\n", "setup 0\nbad line 9\n");
    lists(b"accept=00000000000000000001\n", "setup 0\n1 6\n");
    lists(b"accept=000000000000000000001\n", "setup 0\nbad line 9\n");
    lists(b"accept=000000000000000000000\n", "setup 0\nbad line 9\n");
    lists(b"accept=00000000000000000000\n", "setup 0\n1 6\n");
    lists(b"accept=\n", "setup 0\nbad line 9\n");
}

#[test]
fn a_setup_value_too_large_for_its_field_is_refused() {
    let large = ["4294967296", "18446744073709551615", "4294967298"];
    for word in SESSION_WORDS.split(' ') {
        let key = word.split('=').next().unwrap_or_default();
        for value in large {
            let script = with_setup_line(word, &format!("{key}={value}"));
            assert_eq!(listed(&script), "setup 1\n", "{key}={value}");
        }
        let script = with_setup_line(word, &format!("{key}=18446744073709551616"));
        assert!(listed(&script).starts_with("bad line "), "{key}");
    }
}

#[test]
fn a_setup_value_that_is_not_allowed_is_refused() {
    for (word, replaced) in [
        ("window=2", "window=3"),
        ("seqbits=3", "seqbits=1"),
        ("clockbits=3", "clockbits=2"),
        ("life=1", "life=0"),
        ("rate=2", "rate=0"),
        (" seq=7", " seq=8"),
        ("sclock=7", "sclock=8"),
        ("rclock=2", "rclock=8"),
    ] {
        let script = with_setup_line(word, replaced);
        assert_eq!(listed(&script), "setup 1\n", "{replaced}");
    }
}

#[test]
fn a_place_too_large_is_no_such_place() {
    for key in ["send", "data", "hear", "dropd", "dropa", "dupd", "dupa"] {
        for value in ["0", "4294967296", "18446744073709551615"] {
            let event = format!("{key}={value}\n");
            lists(event.as_bytes(), "setup 0\n1 4\n");
        }
    }
}

#[test]
fn room_ack_and_tick_take_only_one() {
    for key in ["room", "ack", "tick"] {
        for good in ["1", "01", "00000000000000000001"] {
            lists(format!("{key}={good}\n").as_bytes(), "setup 0\n1 0\n");
        }
        for bad in ["0", "2", "11", "4294967297", "18446744073709551615"] {
            lists(format!("{key}={bad}\n").as_bytes(), "setup 0\nbad line 9\n");
        }
    }
}

#[test]
fn keys_and_values_are_exact_bytes() {
    let bad: [&[u8]; 24] = [
        b"room=1\r\n",
        b"room=1 \n",
        b" room=1\n",
        b"room =1\n",
        b"room= 1\n",
        b"room=+1\n",
        b"room=-1\n",
        b"room=1\0\n",
        b"\0room=1\n",
        b"Room=1\n",
        b"ROOM=1\n",
        b"room\n",
        b"room1\n",
        b"room==1\n",
        b"room=1=\n",
        b"=1\n",
        b"=\n",
        b"rooms=1\n",
        b"roo=1\n",
        b"accept=0x1\n",
        b"accept=1.0\n",
        b"accept=\xff\n",
        b"window=2\n",
        b"send=0+1\n",
    ];
    for line in bad {
        lists(line, "setup 0\nbad line 9\n");
    }
    let script = [b"window=2\r\n".to_vec(), lines(SESSION_WORDS)].concat();
    assert_eq!(listed(&script), "bad line 1\n");
}

#[test]
fn leading_zeros_are_allowed_in_setup_lines() {
    let script = with_setup_line("window=2", "window=00000000000000000002");
    assert_eq!(listed(&script), "setup 0\n");
    let script = with_setup_line("window=2", "window=000000000000000000002");
    assert_eq!(listed(&script), "bad line 1\n");
}
