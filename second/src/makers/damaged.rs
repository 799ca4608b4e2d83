//! Damaged text: a short script of another kind with one to three wounds.
//!
//! Some wounds leave a good line (twenty digits, leading zeros), some a bad
//! one, some a setup that must be refused: the two programs must agree which.

use super::{refusals, tight, useful};
use crate::random::Random;
use crate::script::SETUP_KEYS;

/// A script as lines without their line feeds.
type Lines = Vec<Vec<u8>>;

/// Every wound to the lines; the likelier ones more than once.
const WOUNDS: [fn(&mut Random, &mut Lines); 22] = [
    empty_line,
    unseen_ending,
    unseen_ending,
    stray_byte,
    stray_byte,
    signed_value,
    signed_value,
    long_value,
    long_value,
    edge_value,
    edge_value,
    edge_value,
    value_not_one,
    value_not_one,
    odd_key,
    odd_key,
    large_setup_value,
    large_value_before_bad_line,
    swapped_lines,
    lost_line,
    repeated_line,
    foreign_line,
];

/// Every wound to the whole text.
const CUTS: [fn(&mut Random, &mut Vec<u8>); 6] = [
    lost_last_feed,
    lost_last_feed,
    joined_lines,
    truncated,
    truncated_setup,
    spoilt_bytes,
];

pub fn script(mut random: Random) -> Vec<u8> {
    if random.chance(3) {
        return tiny(&mut random);
    }
    let mut lines = short_script(&mut random);
    let mut cuts = 0;
    for _ in 0..random.choose(&[1, 1, 1, 1, 1, 1, 1, 2, 2, 3]) {
        if random.chance(75) {
            let wound = random.choose(&WOUNDS);
            wound(&mut random, &mut lines);
        } else {
            cuts += 1;
        }
    }
    let mut text = joined(&lines);
    for _ in 0..cuts {
        let cut = random.choose(&CUTS);
        cut(&mut random, &mut text);
    }
    text
}

/// The setup and up to forty events of some other script.
fn short_script(random: &mut Random) -> Lines {
    let inner = Random::new(random.draw());
    let text = match random.below(4) {
        0 => tight::script(inner),
        1 => refusals::script(inner),
        _ => useful::script(inner),
    };
    let events = random.below(41) as usize;
    text.split(|&byte| byte == b'\n')
        .take(SETUP_KEYS.len() + events)
        .filter(|line| !line.is_empty())
        .map(<[u8]>::to_vec)
        .collect()
}

fn joined(lines: &Lines) -> Vec<u8> {
    let mut text = Vec::new();
    for line in lines {
        text.extend_from_slice(line);
        text.push(b'\n');
    }
    text
}

/// Next to nothing.
fn tiny(random: &mut Random) -> Vec<u8> {
    let tinies: [&[u8]; 8] = [
        b"",
        b"\n",
        b"=\n",
        b"window=2",
        b"window=2\n",
        b"window=\n",
        b"\0",
        b"\xff\xfe\n",
    ];
    random.choose(&tinies).to_vec()
}

/// The index of a line: among the setup lines as often as among the events.
fn some_line(random: &mut Random, lines: &Lines) -> usize {
    let count = lines.len() as u64;
    let setup = (SETUP_KEYS.len() as u64).min(count);
    let bound = if random.chance(50) { setup } else { count };
    random.below(bound.max(1)) as usize
}

/// Key and value of a line, split at its first equals sign.
fn split(line: &[u8]) -> (Vec<u8>, Vec<u8>) {
    let equals = line.iter().position(|&byte| byte == b'=');
    let equals = equals.unwrap_or(line.len());
    let value = line.get(equals + 1..).unwrap_or_default();
    (line[..equals].to_vec(), value.to_vec())
}

fn line_of(key: &[u8], value: &[u8]) -> Vec<u8> {
    [key, b"=", value].concat()
}

fn empty_line(random: &mut Random, lines: &mut Lines) {
    let index = random.between(0, lines.len() as u64) as usize;
    lines.insert(index, Vec::new());
}

/// A byte that one hardly sees at the end of a line.
fn unseen_ending(random: &mut Random, lines: &mut Lines) {
    if let Some(line) = pick_mut(random, lines) {
        line.push(random.choose(b"\r\r\r\0\0 \t"));
    }
}

/// A blank, zero byte, digit or the like at any place of a line.
fn stray_byte(random: &mut Random, lines: &mut Lines) {
    let Some(line) = pick_mut(random, lines) else {
        return;
    };
    let byte = random.choose(b"\r\0 \t+-=0.,x\x80\xff;");
    let equals = line.iter().position(|&byte| byte == b'=').unwrap_or(0);
    let index = match random.below(4) {
        0 => 0,
        1 => line.len(),
        2 => (equals + 1).min(line.len()),
        _ => random.between(0, line.len() as u64) as usize,
    };
    line.insert(index, byte);
}

fn signed_value(random: &mut Random, lines: &mut Lines) {
    if let Some(line) = pick_mut(random, lines) {
        let (key, value) = split(line);
        let sign = random.choose(b"+-");
        *line = line_of(&key, &[&[sign], &value[..]].concat());
    }
}

/// A value with leading zeros: up to twenty digits, or one too many.
fn long_value(random: &mut Random, lines: &mut Lines) {
    if let Some(line) = pick_mut(random, lines) {
        let (key, value) = split(line);
        let any = random.between(2, 19) as usize;
        let width = random.choose(&[any, 20, 20, 21, 21]);
        let zeros = vec![b'0'; width.saturating_sub(value.len())];
        *line = line_of(&key, &[zeros, value].concat());
    }
}

/// A value at an edge of 32 or 64 bits, or none at all.
fn edge_value(random: &mut Random, lines: &mut Lines) {
    let edges: [&[u8]; 8] = [
        b"18446744073709551615",
        b"18446744073709551616",
        b"018446744073709551615",
        b"99999999999999999999",
        b"4294967295",
        b"4294967296",
        b"0",
        b"",
    ];
    if let Some(line) = pick_mut(random, lines) {
        let (key, _) = split(line);
        *line = line_of(&key, random.choose(&edges));
    }
}

/// An event that takes only 1, with 1 written long or with another value.
fn value_not_one(random: &mut Random, lines: &mut Lines) {
    let keys: [&[u8]; 3] = [b"room", b"ack", b"tick"];
    let values: [&[u8]; 8] = [
        b"01",
        b"00000000000000000001",
        b"0",
        b"0",
        b"2",
        b"10",
        b"4294967297",
        b"18446744073709551615",
    ];
    let line = line_of(random.choose(&keys), random.choose(&values));
    let setup = SETUP_KEYS.len().min(lines.len());
    let index = random.between(setup as u64, lines.len() as u64) as usize;
    lines.insert(index, line);
}

/// Another key: cut, lengthened, in capitals, unknown, or of another line.
fn odd_key(random: &mut Random, lines: &mut Lines) {
    let Some(line) = pick_mut(random, lines) else {
        return;
    };
    let (key, value) = split(line);
    let others: [&[u8]; 12] = [
        b"", b"window", b"seq", b"room", b"drop", b"dup", b"gap", b"next", b"mode", b"rule",
        b"drain", b"unit",
    ];
    let key = match random.below(5) {
        0 => key[..key.len().saturating_sub(1)].to_vec(),
        1 => [&key[..], b"s"].concat(),
        2 => key.to_ascii_uppercase(),
        3 => [b" ", &key[..]].concat(),
        _ => random.choose(&others).to_vec(),
    };
    *line = line_of(&key, &value);
}

/// A setup value that is not allowed, mostly too large for its field; some
/// would be right if cut to 8, 16 or 32 bits.
fn large_setup_value(random: &mut Random, lines: &mut Lines) {
    let setup = SETUP_KEYS.len().min(lines.len());
    if setup == 0 {
        return;
    }
    let index = random.below(setup as u64) as usize;
    let (key, value) = split(&lines[index]);
    let old: u64 = String::from_utf8_lossy(&value).parse().unwrap_or(1);
    let value = match random.below(8) {
        0 => 0,
        1 => old.wrapping_add(1 << 8),
        2 => old.wrapping_add(1 << 16),
        3 | 4 => old.wrapping_add(1 << 32),
        5 => 1 << 32,
        6 => u64::from(u32::MAX),
        _ => u64::MAX,
    };
    lines[index] = line_of(&key, value.to_string().as_bytes());
}

/// A setup value too large for its field, and a bad setup line after it: the
/// bad line wins.
fn large_value_before_bad_line(random: &mut Random, lines: &mut Lines) {
    let setup = SETUP_KEYS.len().min(lines.len()) as u64;
    if setup < 2 {
        return;
    }
    let bad = random.between(1, setup - 1);
    let large = random.below(bad) as usize;
    let (key, _) = split(&lines[large]);
    let value = random.choose(&[1 << 32, 1 << 33, u64::MAX]);
    lines[large] = line_of(&key, value.to_string().as_bytes());
    let line = &mut lines[bad as usize];
    let (key, value) = split(line);
    *line = match random.below(5) {
        0 => Vec::new(),
        1 => key,
        2 => line_of(&key, b""),
        3 => line_of(&key, &[&value[..], b"x"].concat()),
        _ => line_of(b"room", b"1"),
    };
}

fn swapped_lines(random: &mut Random, lines: &mut Lines) {
    if lines.len() >= 2 {
        let one = some_line(random, lines);
        let other = some_line(random, lines);
        lines.swap(one, other);
    }
}

fn lost_line(random: &mut Random, lines: &mut Lines) {
    if !lines.is_empty() {
        let index = some_line(random, lines);
        lines.remove(index);
    }
}

fn repeated_line(random: &mut Random, lines: &mut Lines) {
    if !lines.is_empty() {
        let index = some_line(random, lines);
        let line = lines[index].clone();
        let at = random.between(0, lines.len() as u64) as usize;
        lines.insert(at, line);
    }
}

/// A line that looks like an event or a setup line and is neither.
fn foreign_line(random: &mut Random, lines: &mut Lines) {
    let foreign: [&[u8]; 11] = [
        b"send=0+1",
        b"accept",
        b"accept=",
        b"accept==1",
        b"accept=0x10",
        b"=1",
        b"=",
        b"# room=1",
        b"window=2",
        b"seq=0",
        b"gap=0",
    ];
    let line = random.choose(&foreign).to_vec();
    let index = random.between(0, lines.len() as u64) as usize;
    lines.insert(index, line);
}

fn pick_mut<'a>(random: &mut Random, lines: &'a mut Lines) -> Option<&'a mut Vec<u8>> {
    let index = some_line(random, lines);
    lines.get_mut(index)
}

/// The last line has no line feed.
fn lost_last_feed(_: &mut Random, text: &mut Vec<u8>) {
    text.pop();
}

/// Two lines are one, as the line feed between them is missing.
fn joined_lines(random: &mut Random, text: &mut Vec<u8>) {
    let feeds: Vec<usize> = (0..text.len())
        .filter(|&index| text[index] == b'\n')
        .collect();
    if !feeds.is_empty() {
        text.remove(random.choose(&feeds));
    }
}

fn truncated(random: &mut Random, text: &mut Vec<u8>) {
    let length = random.between(0, text.len() as u64);
    text.truncate(length as usize);
}

/// The text ends somewhere about its setup lines.
fn truncated_setup(random: &mut Random, text: &mut Vec<u8>) {
    let length = random.below(90);
    text.truncate(length as usize);
}

/// One to three bytes have a bit flipped, are lost, or are new.
fn spoilt_bytes(random: &mut Random, text: &mut Vec<u8>) {
    for _ in 0..random.between(1, 3) {
        if text.is_empty() {
            return;
        }
        let index = random.below(text.len() as u64) as usize;
        match random.below(6) {
            0 => text.insert(index, random.draw() as u8),
            1 => {
                text.remove(index);
            }
            _ => text[index] ^= 1 << random.below(8),
        }
    }
}
