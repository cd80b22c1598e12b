//! Rule tables: their lines as parts, and good tables dense in overlaps.

use std::collections::HashSet;

use super::path::{good_path, push_string, Element, Key, Path};
use crate::random::Random;

#[derive(Clone, PartialEq, Eq, Debug)]
pub struct Rule {
    pub action: u8,
    pub mode: u8,
    pub subject_kind: u8,
    pub subject: Vec<u8>,
    pub id: Vec<u8>,
    pub origin: Vec<u8>,
    pub path: Path,
}

/// A line as its parts; the encoder takes it as it is, good or not.
#[derive(Clone, PartialEq, Eq, Debug)]
pub enum Line {
    Version {
        version: Vec<u8>,
        time: [u8; 8],
    },
    Group {
        name: Vec<u8>,
    },
    Member {
        group: Vec<u8>,
        user: Vec<u8>,
    },
    Rule(Rule),
    /// Frame bytes that may be no frame.
    Frame(Vec<u8>),
    /// Text that may be no hex line, with its LF if it has one.
    Text(Vec<u8>),
}

impl Line {
    pub fn frame(&self) -> Vec<u8> {
        let mut frame = Vec::new();
        match self {
            Line::Version { version, time } => {
                frame.push(1);
                push_string(&mut frame, version);
                frame.extend(time);
            }
            Line::Group { name } => {
                frame.push(2);
                push_string(&mut frame, name);
            }
            Line::Member { group, user } => {
                frame.push(3);
                push_string(&mut frame, group);
                push_string(&mut frame, user);
            }
            Line::Rule(rule) => {
                frame.extend([4, rule.action, rule.mode, rule.subject_kind]);
                push_string(&mut frame, &rule.subject);
                push_string(&mut frame, &rule.id);
                push_string(&mut frame, &rule.origin);
                frame.extend(rule.path.bytes());
            }
            Line::Frame(bytes) => frame.extend(bytes),
            Line::Text(_) => panic!("a line of text has no frame"),
        }
        frame
    }

    pub fn text(&self) -> Vec<u8> {
        match self {
            Line::Text(text) => text.clone(),
            line => hex_line(&line.frame()),
        }
    }

    /// 0 for a line that may be none.
    pub fn kind(&self) -> u8 {
        match self {
            Line::Version { .. } => 1,
            Line::Group { .. } => 2,
            Line::Member { .. } => 3,
            Line::Rule(_) => 4,
            Line::Frame(_) | Line::Text(_) => 0,
        }
    }

    pub fn as_rule(&self) -> Option<&Rule> {
        match self {
            Line::Rule(rule) => Some(rule),
            _ => None,
        }
    }

    pub fn version(version: &str) -> Line {
        Line::Version { version: version.into(), time: [0, 0, 0, 0, 0, 0, 0, 1] }
    }

    pub fn group(name: &str) -> Line {
        Line::Group { name: name.into() }
    }

    pub fn member(group: &str, user: &str) -> Line {
        Line::Member { group: group.into(), user: user.into() }
    }
}

pub fn hex_line(frame: &[u8]) -> Vec<u8> {
    let digit = |value: u8| b"0123456789abcdef"[usize::from(value)];
    let mut line: Vec<u8> = frame.iter().flat_map(|b| [digit(b >> 4), digit(b & 15)]).collect();
    line.push(b'\n');
    line
}

pub fn table_text(lines: &[Line]) -> Vec<u8> {
    lines.iter().flat_map(Line::text).collect()
}

/// Puts the lines of a good table in another order, each among its own kind.
pub fn shuffle_each_kind(random: &mut Random, lines: &mut [Line]) {
    for same in lines.chunk_by_mut(|one, next| one.kind() == next.kind()) {
        random.shuffle(same);
    }
}

/// The sizes and the bytes of a generated table.
#[derive(Clone, Copy)]
pub struct Shape {
    pub groups: usize,
    pub members: usize,
    pub rules: usize,
    /// How long rule paths get.
    pub depth: usize,
    /// Out of how many key names the keys are taken, and how many values.
    pub key_names: usize,
    pub values: usize,
}

impl Shape {
    /// Few groups and members; the rest is to be chosen.
    pub const SMALL: Shape = Shape { groups: 2, members: 4, rules: 6, depth: 3, key_names: 2, values: 2 };
}

pub const GROUP_NAMES: [&str; 6] = ["g", "h", "admin", "engineers", "u", "g "];
pub const USERS: [&str; 6] = ["u", "v", "stevie", "g", "*", "u~"];
pub const ORIGINS: [&str; 3] = ["", "oc", "o"];
const ELEMENT_NAMES: [&str; 3] = ["a", "b", "ab"];
const KEY_NAMES: [&str; 3] = ["k", "l", "..."];
const VALUES: [&str; 4] = ["1", "2", "]", "x/y"];

fn some_shape(random: &mut Random) -> Shape {
    Shape {
        groups: random.below(7),
        members: random.below(30),
        rules: random.below(14),
        depth: 4,
        key_names: 3,
        values: 4,
    }
}

/// A small good table whose rules overlap often.
pub fn dense_table(random: &mut Random) -> Vec<Line> {
    let shape = some_shape(random);
    table_of_shape(random, shape)
}

pub fn table_of_shape(random: &mut Random, shape: Shape) -> Vec<Line> {
    let mut lines = vec![Line::Version { version: b"v1".to_vec(), time: random.number().to_be_bytes() }];
    let groups = &GROUP_NAMES[..shape.groups];
    lines.extend(groups.iter().map(|name| Line::group(name)));

    let mut members = HashSet::new();
    for _ in 0..shape.members {
        if !groups.is_empty() {
            let (group, user) = (*random.pick(groups), *random.pick(&USERS));
            if members.insert((group, user)) {
                lines.push(Line::member(group, user));
            }
        }
    }

    let mut ids = HashSet::new();
    for _ in 0..shape.rules {
        let id = some_id(random);
        if ids.insert(id.clone()) {
            lines.push(Line::Rule(some_rule(random, groups, id, &shape)));
        }
    }
    lines
}

/// A table whose rules are all about reading by user `u` with an empty origin: by
/// name, or by one of two groups that hold `u`.
pub fn focused_table(random: &mut Random, shape: Shape) -> Vec<Line> {
    let mut lines = vec![Line::version("v1")];
    lines.extend(["g", "h"].map(Line::group));
    lines.extend(["g", "h"].map(|group| Line::member(group, "u")));
    let mut ids = HashSet::new();
    while ids.len() < shape.rules {
        let id = some_id(random);
        if ids.insert(id.clone()) {
            let (subject_kind, subject) = *random.pick(&[(0, b"u"), (1, b"g"), (1, b"h")]);
            let action = random.below(2) as u8;
            let path = dense_path(random, &shape);
            let subject = subject.to_vec();
            lines.push(Line::Rule(Rule { action, mode: 1, subject_kind, subject, id, origin: Vec::new(), path }));
        }
    }
    lines
}

/// A path to ask about: out of the same names and values, or near that of a rule.
pub fn path_near(random: &mut Random, lines: &[Line], shape: &Shape) -> Path {
    let rules: Vec<&Rule> = lines.iter().filter_map(Line::as_rule).collect();
    if rules.is_empty() || random.one_in(3) {
        return dense_path(random, shape);
    }
    let mut path = random.pick(&rules).path.clone();
    match random.below(5) {
        0 => path.elements.truncate(random.below(path.elements.len() + 1)),
        1 if path.elements.len() < shape.depth => path.elements.push(dense_element(random, shape)),
        2 if !path.elements.is_empty() => {
            let at = random.below(path.elements.len());
            path.elements[at].keys.pop();
        }
        3 if !path.elements.is_empty() => {
            let at = random.below(path.elements.len());
            path.elements[at] = dense_element(random, shape);
        }
        _ => {}
    }
    path
}

/// Short ids, many of them a beginning of another.
fn some_id(random: &mut Random) -> Vec<u8> {
    let len = random.between(1, 5);
    random.bytes_of(b"r0 ", len)
}

fn some_rule(random: &mut Random, groups: &[&str], id: Vec<u8>, shape: &Shape) -> Rule {
    let by_group = !groups.is_empty() && random.one_in(2);
    let subject = if by_group { random.pick(groups) } else { random.pick(&USERS) };
    Rule {
        action: random.below(2) as u8,
        mode: if random.one_in(8) { 2 } else { 1 },
        subject_kind: u8::from(by_group),
        subject: subject.as_bytes().to_vec(),
        id,
        origin: some_origin(random).as_bytes().to_vec(),
        path: if random.one_in(40) { good_path(random) } else { dense_path(random, shape) },
    }
}

/// The empty origin mostly.
pub fn some_origin(random: &mut Random) -> &'static str {
    let choices = if random.one_in(8) { ORIGINS.len() } else { 1 };
    ORIGINS[random.below(choices)]
}

/// A path out of a few names and values.
pub fn dense_path(random: &mut Random, shape: &Shape) -> Path {
    let depth = random.below(shape.depth + 1);
    Path { elements: (0..depth).map(|_| dense_element(random, shape)).collect() }
}

fn dense_element(random: &mut Random, shape: &Shape) -> Element {
    let name = if random.one_in(3) { *random.pick(&ELEMENT_NAMES) } else { "a" };
    let mut keys = Vec::new();
    for key in &KEY_NAMES[..shape.key_names] {
        if random.one_in(2) {
            let value = if random.one_in(3) { "*" } else { random.pick(&VALUES[..shape.values]) };
            keys.push(Key { name: key.as_bytes().to_vec(), value: value.as_bytes().to_vec() });
        }
    }
    random.shuffle(&mut keys);
    Element { name: name.as_bytes().to_vec(), keys }
}

/// A good table of exactly `len` bytes, from about 300 to 32,768, with up to 256
/// rules of about `rule_len` bytes of text each, 50 to 200.
pub fn table_of_length(random: &mut Random, len: usize, rule_len: usize) -> Vec<u8> {
    let mut text = table_text(&[Line::version("v1"), Line::group("g"), Line::member("g", "u")]);
    let mut number = 0;
    while len - text.len() > rule_len + 200 {
        let size = (rule_len + 2 * random.below(9)) / 2;
        text.extend(padded_rule(random, number, size));
        number += 1;
    }
    // Every line has an odd number of bytes: one or two more make up the rest.
    let rest = len - text.len();
    let last = if rest.is_multiple_of(2) { vec![rest / 4, rest / 2 - 1 - rest / 4] } else { vec![rest / 2] };
    for size in last {
        text.extend(padded_rule(random, number, size));
        number += 1;
    }
    assert_eq!(text.len(), len);
    assert!(number <= 256);
    text
}

/// A good table with this many rules of `size` bytes of frame each, 24 or more.
pub fn table_of_rules(random: &mut Random, rules: usize, size: usize) -> Vec<u8> {
    let mut text = table_text(&[Line::version("v1"), Line::group("g"), Line::member("g", "u")]);
    for number in 0..rules {
        text.extend(padded_rule(random, number, size));
    }
    text
}

/// A good table with this many groups and members, the members in the order of their groups.
pub fn table_of_members(groups: usize, members: usize) -> Vec<u8> {
    let names: Vec<String> = (0..groups).map(|g| format!("group-{g:02}")).collect();
    table_text(&lines_of_members(&names, &numbered_members(&names, members)))
}

/// The same with its members in any order.
pub fn table_of_shuffled_members(random: &mut Random, groups: usize, members: usize) -> Vec<u8> {
    let names: Vec<String> = (0..groups).map(|g| format!("group-{g:02}")).collect();
    let mut members = numbered_members(&names, members);
    random.shuffle(&mut members);
    table_text(&lines_of_members(&names, &members))
}

/// The same with groups whose names have one hash in the proved library, and begin alike.
pub fn table_of_colliding_groups(common: &str, groups: usize, members: usize) -> Vec<u8> {
    let names = colliding_names("", common, groups);
    table_text(&lines_of_members(&names, &numbered_members(&names, members)))
}

/// A good table of one group, whose members have one hash in the proved library, and begin alike; `down` from the last name to the first.
pub fn table_of_colliding_members(common: &str, members: usize, down: bool) -> Vec<u8> {
    let group = String::from("g");
    // A member's hash is that of its bytes in the frame: S group, S user.
    let before = format!("\u{1}g{}", char::from((common.len() + 4) as u8));
    let mut users = colliding_names(&before, common, members);
    if down {
        users.reverse();
    }
    let members: Vec<_> = users.into_iter().map(|user| (group.clone(), user)).collect();
    table_text(&lines_of_members(&[group], &members))
}

/// A good table of rules whose ids have one hash in the proved library, and begin alike.
pub fn table_of_colliding_ids(common: &str, rules: usize) -> Vec<u8> {
    let mut lines = vec![Line::version("v1")];
    lines.extend(colliding_names("", common, rules).iter().rev().map(|id| rule_of_u(1, id, Path::default())));
    table_text(&lines)
}

fn numbered_members(groups: &[String], members: usize) -> Vec<(String, String)> {
    let member = |m: usize| (groups[m * groups.len() / members].clone(), format!("user-{:03}", m % 100));
    (0..members).map(member).collect()
}

fn lines_of_members(groups: &[String], members: &[(String, String)]) -> Vec<Line> {
    let mut lines = vec![Line::version("v1")];
    lines.extend(groups.iter().map(|name| Line::group(name)));
    lines.extend(members.iter().map(|(group, user)| Line::member(group, user)));
    lines
}

/// Different names of one length, rising, that begin alike and have one hash after the bytes before them, found by trial.
fn colliding_names(before: &str, common: &str, count: usize) -> Vec<String> {
    let letter = |n: usize, at: usize| char::from(b'0' + (n >> (6 * at) & 63) as u8);
    let name = |n: usize| format!("{common}{}", (0..4).rev().map(|at| letter(n, at)).collect::<String>());
    let hash = |name: &str| proved_hash(&format!("{before}{name}"));
    let first = hash(&name(0));
    (0..1 << 24).map(name).filter(|name| hash(name) == first).take(count).collect()
}

/// The proved library's hash of a name.
fn proved_hash(name: &str) -> u64 {
    let middle = |product: u64| product >> 16 & 0xFFFF_FFFF;
    let word = |bytes: &[u8]| bytes.iter().rev().fold(0, |word, b| word << 8 | u64::from(*b));
    let turn = |(x, y), bytes| {
        let x = middle((x + word(bytes)) * 1_201_626_857);
        (x, middle((y + x) * 1_150_305_587))
    };
    name.as_bytes().chunks(4).fold((0, 0), turn).1 >> 19
}

/// A rule line with a frame of exactly `size` bytes, which is 24 or more.
fn padded_rule(random: &mut Random, number: usize, size: usize) -> Vec<u8> {
    let mut rule = Rule {
        action: random.below(2) as u8,
        mode: 1,
        subject_kind: random.below(2) as u8,
        subject: Vec::new(),
        id: format!("rule-{number:03}").into_bytes(),
        origin: Vec::new(),
        path: Path::default(),
    };
    rule.subject = if rule.subject_kind == 1 { b"g".to_vec() } else { b"u".to_vec() };
    let head = Line::Rule(rule.clone()).frame().len();
    rule.path = padded_path(random, size - head);
    let line = Line::Rule(rule);
    assert_eq!(line.frame().len(), size);
    line.text()
}

/// A path whose bytes are `size` more than the root's.
fn padded_path(random: &mut Random, mut size: usize) -> Path {
    let mut path = Path::default();
    while size > 0 {
        // An element without keys takes 2 bytes and its name, a key 2 and its strings.
        let take = if size <= 40 { size } else { random.between(20, 36) };
        let name_len = if take >= 8 { random.between(1, take - 6) } else { take - 2 };
        let mut element = Element { name: random.bytes_of(b"abcdefgh-", name_len), keys: Vec::new() };
        let left = take - 2 - name_len;
        if left > 0 {
            let value = random.bytes_of(b"abcdef/0123456789", left - 3);
            element.keys.push(Key { name: b"k".to_vec(), value });
        }
        path.elements.push(element);
        size -= take;
    }
    path
}

/// A rule about reading by user `u` with an empty origin.
pub(super) fn rule_of_u(action: u8, id: &str, path: Path) -> Line {
    let (subject, id) = (b"u".to_vec(), id.as_bytes().to_vec());
    Line::Rule(Rule { action, mode: 1, subject_kind: 0, subject, id, origin: Vec::new(), path })
}

/// A table for trees: `/` permitted for `u`, and `rules` further rules about elements
/// of `/interfaces` that all fit the root, permitted too but for the last where
/// `mixed`; all denied where not `permit`.
pub fn table_of_interfaces(rules: usize, permit: bool, mixed: bool) -> Vec<u8> {
    let element = |name: &str| Element { name: name.as_bytes().to_vec(), keys: Vec::new() };
    let mut lines = vec![Line::version("v1"), rule_of_u(u8::from(permit), "r", Path::default())];
    for number in 1..rules {
        let name = format!("et-{}/0/{}", number / 16, number % 16);
        let key = Key { name: b"name".to_vec(), value: name.into_bytes() };
        let mut path = Path { elements: vec![element("interfaces"), element("interface"), element("state")] };
        path.elements[1].keys.push(key);
        let opposite = mixed && number + 1 == rules;
        lines.push(rule_of_u(u8::from(permit != opposite), &format!("r{number:03}"), path));
    }
    table_text(&lines)
}
