//! A large table as a yard might have it, with users, groups and several trees of paths, and logs for it.

use super::log::LogLine;
use super::path::{Element, Key, Path};
use super::table::{table_text, Line, Rule};
use crate::limits;
use crate::random::Random;

const GROUPS: [&str; 8] = ["admin", "eng", "noc", "drivers", "dryers", "audit", "field", "lab"];
const USERS: usize = 40;
/// How many numbers the names of interfaces, peers and so on have.
const NUMBERS: usize = 32;

/// 256 rules, each about one user of 40 or one group of 8, in trees that begin in seven ways.
pub fn yard_table() -> Vec<u8> {
    let mut lines = vec![Line::version("2026-11")];
    lines.extend(GROUPS.map(Line::group));
    for number in 0..USERS {
        for group in [number % GROUPS.len(), (number + 1 + number / GROUPS.len()) % GROUPS.len()] {
            lines.push(Line::member(GROUPS[group], &user(number)));
        }
    }
    lines.extend((0..limits::RULES).map(|number| Line::Rule(rule(number))));
    table_text(&lines)
}

fn rule(number: usize) -> Rule {
    let by_user = number.is_multiple_of(3);
    let subject = if by_user { user(number % USERS) } else { GROUPS[number / 3 % GROUPS.len()].into() };
    Rule {
        action: u8::from(!number.is_multiple_of(5)),
        mode: if number.is_multiple_of(4) { 2 } else { 1 },
        subject_kind: u8::from(!by_user),
        subject: subject.into_bytes(),
        id: format!("r{number:03}").into_bytes(),
        origin: origin(number.is_multiple_of(16)),
        path: path(number % TREES, number / TREES),
    }
}

fn user(number: usize) -> String {
    format!("u{number:02}")
}

fn origin(named: bool) -> Vec<u8> {
    if named {
        b"oc".to_vec()
    } else {
        Vec::new()
    }
}

const TREES: usize = 8;

/// A path in one of the trees, about the thing with this number.
fn path(tree: usize, number: usize) -> Path {
    let name = format!("et-{number}");
    let elements = match tree {
        0 => vec![element("interfaces", &[]), element("interface", &[("name", &name)])],
        1 => vec![element("interfaces", &[]), element("interface", &[("name", &name)]), element("state", &[])],
        2 => vec![element("system", &[]), element("users", &[]), element("user", &[("name", &user(number))])],
        3 => vec![element("acl", &[]), element("set", &[("name", "in")]), element("entry", &[("id", &name[3..])])],
        4 => vec![element("bgp", &[]), element("peer", &[("address", &format!("10.0.{number}.1"))])],
        5 => vec![element("qos", &[]), element("queue", &[("if", &name), ("id", "3")]), element("config", &[])],
        6 => vec![element("lldp", &[]), element("port", &[("id", "*")])],
        _ => vec![element("system", &[])],
    };
    Path { elements }
}

fn element(name: &str, keys: &[(&str, &str)]) -> Element {
    let key = |(name, value): &(&str, &str)| Key { name: (*name).into(), value: (*value).into() };
    Element { name: name.into(), keys: keys.iter().map(key).collect() }
}

/// Requests by its users for its paths and those beneath them; another user, mode and origin after each run.
pub fn yard_log(random: &mut Random, count: usize, run: usize) -> Vec<u8> {
    let mut text = Vec::new();
    let mut asker = LogLine::read("", Path::default());
    for at in 0..count {
        if at.is_multiple_of(run) {
            asker.user = user(random.below(USERS)).into_bytes();
            asker.mode = if random.one_in(4) { 2 } else { 1 };
            asker.origin = origin(random.one_in(16));
        }
        asker.path = path(random.below(TREES), random.below(NUMBERS));
        if random.one_in(2) {
            asker.path.elements.extend([element("state", &[]), element("counters", &[])]);
        }
        text.extend(asker.text());
    }
    text
}

/// The same requests, each by another user, whom the table does not name.
pub fn log_of_strangers(random: &mut Random, count: usize) -> Vec<u8> {
    let request = |number| LogLine::read(&format!("v{number}"), path(random.below(TREES), random.below(NUMBERS)));
    (0..count).map(request).flat_map(|line| line.text()).collect()
}
