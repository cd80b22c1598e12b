//! Inputs of any worth, for the tests that lend anything to a call.

use super::damage::damage;
use super::log::{dense_log, faulty_lines, lines_too_long, log_text, longest_line};
use super::path::{good_path, longest_path, put_fault, Path, FAULTS, FRAME_MARKS, NAME_BYTES, TEXT_MARKS};
use super::policy::{good_policy, good_rpc, many_header_lines, nested_object, policy_of_headers, policy_of_length};
use super::policy_fault::faulty_policy;
use super::table::{
    dense_path, dense_table, table_of_length, table_of_members, table_of_rules, table_text, Shape, ORIGINS, USERS,
};
use super::table_fault::LINE_FAULTS;
use crate::limits;
use crate::random::Random;

/// A kind of input.
pub struct Kind {
    /// Good ones for the most part.
    good: fn(&mut Random) -> Vec<u8>,
    /// Those at a limit, or a little past it.
    limit: fn(&mut Random) -> Vec<u8>,
    /// The bytes that mean something in them.
    marks: &'static [u8],
    /// A length somewhat past their limit.
    longest: usize,
}

pub const TABLE: Kind =
    Kind { good: some_table, limit: table_at_limit, marks: b"0123456789abcdef0123456789abcdef\n", longest: 33_000 };
pub const LOG: Kind = Kind { good: some_log, limit: log_at_limit, marks: TABLE.marks, longest: 20_000 };
pub const PATH_TEXT: Kind = Kind {
    good: |random| some_path(random).text(),
    limit: |random| path_at_limit(random).text(),
    marks: TEXT_MARKS,
    longest: 14_000,
};
pub const PATH_BYTES: Kind = Kind {
    good: |random| some_path(random).bytes(),
    limit: |random| path_at_limit(random).bytes(),
    marks: FRAME_MARKS,
    longest: 10_000,
};
pub const POLICY: Kind =
    Kind { good: some_policy, limit: policy_at_limit, marks: b"{}[],:\"\"\\ *ak\n\t\0\x7f", longest: 16_500 };
pub const IDENTITY: Kind = Kind {
    good: |random| good_rpc(random).identity,
    limit: |random| about(random, limits::REQUEST_STRING),
    marks: b" ~a*\x1f\x7f",
    longest: 270,
};
pub const RPC_PATH: Kind = Kind {
    good: |random| good_rpc(random).path,
    limit: |random| about(random, limits::REQUEST_STRING),
    marks: b"/.*a\x1f\x7f",
    longest: 270,
};
pub const HEADERS: Kind =
    Kind { good: |random| good_rpc(random).headers, limit: headers_at_limit, marks: b"k:v,\n\n-K\x7f", longest: 8_300 };
pub const USER: Kind = Kind {
    good: |random| random.pick(&USERS).as_bytes().to_vec(),
    limit: |random| about(random, limits::LONG_STRING),
    marks: NAME_BYTES,
    longest: 80,
};
pub const ORIGIN: Kind = Kind {
    good: |random| random.pick(&ORIGINS).as_bytes().to_vec(),
    limit: |random| about(random, limits::SHORT_STRING),
    marks: NAME_BYTES,
    longest: 40,
};

/// A good input, one at a limit, one that was damaged, two in one, or bytes in no order.
pub fn any(random: &mut Random, kind: &Kind) -> Vec<u8> {
    match random.below(32) {
        0 => Vec::new(),
        1 | 2 => {
            let len = any_length(random, kind.longest);
            (0..len).map(|_| random.byte()).collect()
        }
        3 => {
            let len = any_length(random, kind.longest);
            random.bytes_of(kind.marks, len)
        }
        4 => {
            let (first, second) = ((kind.good)(random), (kind.good)(random));
            [&first[..random.below(first.len() + 1)], &second[random.below(second.len() + 1)..]].concat()
        }
        5 | 6 => (kind.limit)(random),
        7..=10 => {
            let mut bytes = (kind.good)(random);
            damage(random, &mut bytes, kind.marks);
            bytes
        }
        _ => (kind.good)(random),
    }
}

/// Mostly short, now and then up to the longest.
fn any_length(random: &mut Random, longest: usize) -> usize {
    let short = longest.min(if random.one_in(20) { longest } else { 60 });
    random.below(short + 1)
}

pub fn any_mode(random: &mut Random) -> u32 {
    match random.below(16) {
        0 => random.number() as u32,
        1 => *random.pick(&[0, 3, 256, 257, u32::MAX]),
        2 | 3 => 2,
        _ => 1,
    }
}

/// Room for the result of a call that fills a buffer, which has this length: enough for any, as much as it takes, or a byte less.
pub fn any_room(random: &mut Random, len: usize) -> usize {
    match random.below(8) {
        0 => 0,
        1 => random.below(len + 1),
        2 => len.saturating_sub(1),
        3 => len,
        4 => len + 1,
        _ => limits::PATH_TEXT + 480,
    }
}

fn some_table(random: &mut Random) -> Vec<u8> {
    let mut lines = dense_table(random);
    if random.one_in(4) {
        random.pick(&LINE_FAULTS).put_somewhere(random, &mut lines);
    }
    table_text(&lines)
}

/// A log for any of those tables.
fn some_log(random: &mut Random) -> Vec<u8> {
    let count = random.below(12);
    let log = dense_log(random, &[], &DENSE, count);
    let mut text = log_text(&log);
    if let Some(line) = log.first().filter(|_| random.one_in(6)) {
        let faulty = faulty_lines(random, line);
        text.extend(&random.pick(&faulty).1);
    }
    text
}

fn some_policy(random: &mut Random) -> Vec<u8> {
    if random.one_in(4) {
        faulty_policy(random)
    } else {
        good_policy(random).text(random)
    }
}

/// Requests as deep, and out of as many names and values, as the rules of those tables.
const DENSE: Shape = Shape { depth: 4, key_names: 3, values: 4, ..Shape::SMALL };

fn some_path(random: &mut Random) -> Path {
    if random.one_in(8) {
        good_path(random)
    } else {
        dense_path(random, &DENSE)
    }
}

/// A string one byte short of a limit, at it, or one past it.
fn about(random: &mut Random, limit: usize) -> Vec<u8> {
    vec![b'u'; random.between(limit - 1, limit + 1)]
}

fn path_at_limit(random: &mut Random) -> Path {
    let mut path = if random.one_in(2) { longest_path() } else { good_path(random) };
    if random.one_in(2) {
        let fault = *random.pick(&FAULTS);
        put_fault(random, &mut path, fault);
    }
    path
}

fn table_at_limit(random: &mut Random) -> Vec<u8> {
    let over = random.below(2);
    match random.below(4) {
        0 => table_of_length(random, limits::TABLE_TEXT + over, 160),
        1 => table_of_members(limits::GROUPS + over, 100),
        2 => table_of_members(limits::GROUPS, limits::MEMBERS + over),
        _ => table_of_rules(random, limits::RULES + over, 40),
    }
}

fn log_at_limit(random: &mut Random) -> Vec<u8> {
    if random.one_in(2) {
        longest_line().text()
    } else {
        let too_long = lines_too_long(20_000);
        random.pick(&too_long).1.clone()
    }
}

fn policy_at_limit(random: &mut Random) -> Vec<u8> {
    match random.below(4) {
        0 => {
            let mut policy = policy_of_length(limits::POLICY_TEXT);
            policy.resize(random.between(limits::POLICY_TEXT - 1, limits::POLICY_TEXT + 1), b' ');
            policy
        }
        1 => policy_of_headers(),
        2 => nested_object(500, random.between(limits::JSON_DEPTH - 1, limits::JSON_DEPTH + 1)),
        _ => nested_object(limits::POLICY_TEXT, limits::JSON_DEPTH),
    }
}

fn headers_at_limit(random: &mut Random) -> Vec<u8> {
    let mut lines = many_header_lines();
    match random.below(3) {
        0 => {}
        1 => lines.insert(2, b'v'),
        _ => drop(lines.pop()),
    }
    lines
}
