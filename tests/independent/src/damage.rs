//! Damage to made files: lines and bytes that are not as they should be.

use crate::frames::{frame_line, read_frame, Frame};
use crate::model::{MOST_ARCS, MOST_NODES};
use crate::random::Random;

pub type Lines = Vec<Vec<u8>>;

/// The kinds of a query.
const QUERY: [&[u8]; 2] = [b"04", b"07"];

/// The lines whose kind is one of these two digits.
fn lines_of_kind(lines: &Lines, kinds: &[&[u8]]) -> Vec<usize> {
    (0..lines.len()).filter(|&at| kinds.iter().any(|kind| lines[at].starts_with(kind))).collect()
}

fn one_of_kind(random: &mut Random, lines: &Lines, kinds: &[&[u8]]) -> Option<usize> {
    let places = lines_of_kind(lines, kinds);
    if places.is_empty() {
        None
    } else {
        Some(random.pick(&places))
    }
}

/// A line of the file, the queries' part as likely as all the rest.
fn any_line(random: &mut Random, lines: &Lines) -> usize {
    let queries = lines_of_kind(lines, &QUERY);
    if !queries.is_empty() && random.chance(40) {
        random.pick(&queries)
    } else {
        random.below(lines.len())
    }
}

/// Damages the file by lines; says how.
pub fn damage_lines(random: &mut Random, lines: &mut Lines) -> &'static str {
    if lines.is_empty() {
        return "empty";
    }
    let at = any_line(random, lines);
    match random.below(27) {
        0 => {
            let other = any_line(random, lines);
            lines.swap(at, other);
            "lines exchanged"
        }
        1 => {
            lines.insert(at, lines[at].clone());
            "line doubled"
        }
        2 => {
            lines.remove(at);
            "line dropped"
        }
        3 | 4 => damage_digit(random, &mut lines[at]),
        5 | 6 => damage_kind(random, &mut lines[at]),
        7 => damage_length(random, &mut lines[at]),
        8 => {
            lines.insert(at, b"\n".to_vec());
            "empty line"
        }
        9 => {
            let last = lines.len() - 1;
            lines[last].pop();
            "last line feed missing"
        }
        10 | 11 => damage_size(random, &mut lines[0]),
        12 => {
            if let Some(at) = one_of_kind(random, lines, &[b"02", b"05"]) {
                lines.remove(at);
            }
            "an arc line too few"
        }
        13 => {
            lines.insert(1, b"020000000000000000\n".to_vec());
            "an arc line too many"
        }
        14 => {
            // The last arc line owes one arc and gives two.
            if let Some(&last) = lines_of_kind(lines, &[b"02"]).last() {
                lines[last][1] = b'5';
            }
            "05 where one arc is owed"
        }
        15 => {
            let a = one_of_kind(random, lines, &[b"03"]).unwrap_or(at);
            let b = one_of_kind(random, lines, &[b"03"]).unwrap_or(at);
            lines.swap(a, b);
            "03 out of order"
        }
        16 => {
            if let Some(&last) = lines_of_kind(lines, &[b"03"]).last() {
                let place = if random.chance(50) { last } else { one_of_kind(random, lines, &[b"03"]).unwrap_or(last) };
                lines.remove(place);
            }
            "03 missing"
        }
        17 => {
            if let Some(place) = one_of_kind(random, lines, &QUERY) {
                let query = lines.remove(place);
                let to = random.below(lines.len() + 1);
                lines.insert(to, query);
            }
            "query moved"
        }
        18 => {
            let size = random.pick(&[&b"0100010000\n"[..], b"0100000000\n", b"01FFFFFFFF\n"]);
            lines.insert(at + 1, size.to_vec());
            "second 01"
        }
        19 => {
            lines.retain(|line| !QUERY.iter().any(|kind| line.starts_with(kind)));
            "no query"
        }
        20 => {
            let extra = random.pick(&[
                &b"020000000000000000\n"[..],
                b"0300000000000000000000\n",
                b"0100010000\n",
                b"050000000000000000\n",
                b"FF0900000000\n",
                b"840000000300000001\n",
                b"850002\n",
                b"hello\n",
                b"\n",
                b"0400000000010",
                b"07000000000000010",
            ]);
            lines.push(extra.to_vec());
            "a line after the queries"
        }
        21 => {
            for line in lines.iter_mut() {
                let before_feed = line.len().saturating_sub(1);
                line.insert(before_feed, b'\r');
            }
            "carriage returns"
        }
        22 => {
            let keep = random.below(lines.len() + 1);
            lines.truncate(keep);
            "cut between lines"
        }
        23 => {
            if let Some(at) = one_of_kind(random, lines, &QUERY) {
                lines[at][1] ^= b'4' ^ b'7';
            }
            "a query of the other kind"
        }
        24 | 25 => long_query(random, lines),
        _ => damage_pattern_length(random, lines),
    }
}

fn damage_digit(random: &mut Random, line: &mut [u8]) -> &'static str {
    if line.is_empty() {
        return "nothing";
    }
    let at = random.below(line.len());
    line[at] = match random.below(7) {
        0 => line[at].to_ascii_lowercase(),
        1 => random.pick(b"abcdef"),
        2 => random.pick(b"/:@G`gZz xX+-"),
        3 => random.pick(&[0, b'\r', b'\n', b'\t', 0x0B, 0x1A]),
        4 => 128 + random.below(128) as u8,
        _ => random.pick(b"0123456789ABCDEF"),
    };
    "a digit changed"
}

fn damage_kind(random: &mut Random, line: &mut [u8]) -> &'static str {
    if line.len() < 2 {
        return "nothing";
    }
    let kind = random.pick(&[
        b"00", b"01", b"02", b"03", b"04", b"05", b"06", b"07", b"08", b"80", b"81", b"82", b"83", b"84", b"85", b"FF",
        b"10", b"20", b"0a",
    ]);
    line[..2].copy_from_slice(kind);
    "the kind changed"
}

/// Makes one line longer or shorter; the line feed stays.
fn damage_length(random: &mut Random, line: &mut Vec<u8>) -> &'static str {
    let feed = line.pop();
    let digit = random.pick(b"01F");
    match random.below(7) {
        0 => line.resize(random.pick(&[268, 272]), digit),
        1 => line.resize(random.pick(&[267, 271]), digit),
        2 => line.resize(70_000, digit),
        3 => line.push(digit),
        4 => line.insert(0, digit),
        5 => {
            line.pop();
        }
        _ => line.truncate(random.below(3)),
    }
    line.extend(feed);
    "another line length"
}

fn damage_size(random: &mut Random, line: &mut Vec<u8>) -> &'static str {
    let Some(Frame::Size { nodes, arcs }) = line.strip_suffix(b"\n").and_then(read_frame) else {
        return "nothing";
    };
    let most = (MOST_NODES, MOST_ARCS);
    let (nodes, arcs) = match random.below(10) {
        0 => (0, arcs),
        1 => (most.0 + 1, arcs),
        2 => (65_535, arcs),
        3 => (nodes, most.1 + 1),
        4 => (nodes, 65_535),
        5 => (0, 65_535),
        6 => (nodes + 1, arcs),
        7 => (nodes.saturating_sub(1), arcs),
        8 => (nodes, arcs + 1),
        _ => (nodes, arcs.saturating_sub(1)),
    };
    *line = frame_line(&Frame::Size { nodes, arcs }).into_bytes();
    "another 01"
}

/// The pattern length of a query no longer says how many entries follow.
fn damage_pattern_length(random: &mut Random, lines: &mut Lines) -> &'static str {
    if let Some(at) = one_of_kind(random, lines, &QUERY) {
        let length = format!("{:02X}", random.below(256));
        let place = if lines[at].starts_with(b"07") { 14 } else { 10 };
        if let Some(digits) = lines[at].get_mut(place..place + 2) {
            digits.copy_from_slice(length.as_bytes());
        }
    }
    "another pattern length"
}

/// A query of 255 entries, as long as its kind can be, or of one more than its pattern length says.
fn long_query(random: &mut Random, lines: &mut Lines) -> &'static str {
    let kind = random.pick(&["0400000001", "07000000010002"]);
    let entries = "01".repeat(128);
    let (count, says) = random.pick(&[(255, "a query of 255 entries"), (256, "a query of 256 entries")]);
    let at = if random.chance(70) { lines.len() } else { random.below(lines.len() + 1) };
    lines.insert(at, format!("{kind}FF{}\n", &entries[..count]).into_bytes());
    says
}

/// Damages the file as bytes; says how.
pub fn damage_bytes(random: &mut Random, bytes: &mut Vec<u8>) -> &'static str {
    match random.below(8) {
        0..=3 => {
            bytes.truncate(random.below(bytes.len() + 1));
            "cut at a byte"
        }
        4 => {
            bytes.clear();
            if random.chance(70) {
                bytes.extend((0..random.below(60)).map(|_| random.below(256) as u8));
            }
            "any bytes"
        }
        5 => {
            bytes.clear();
            for _ in 0..random.below(4) {
                bytes.extend((0..random.below(24)).map(|_| random.pick(b"0123456789ABCDEF")));
                bytes.push(b'\n');
            }
            "any digits"
        }
        6 => {
            // A last line of digits only, without end and without line feed.
            bytes.extend(vec![b'0'; random.pick(&[1, 267, 268, 271, 272, 70_000])]);
            "a long last line"
        }
        _ => {
            let at = random.below(bytes.len() + 1);
            bytes.insert(at, random.pick(&[0, b'\n', b'\r', b' ', 0xEF, b'0']));
            "a byte more"
        }
    }
}
