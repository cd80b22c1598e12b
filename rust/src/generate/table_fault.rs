//! Single faults put into a chosen line of a good table, each with the number that
//! paper 01 gives it.

use super::path::{put_fault, Fault, Path, FAULTS};
use super::table::{Line, Rule};
use crate::limits;
use crate::random::Random;

/// Puts a fault into the line with this index; false where it can't have it.
type Put = fn(&mut Random, &mut [Line], usize) -> bool;

#[derive(Clone, Copy)]
pub struct LineFault {
    pub number: u8,
    pub name: &'static str,
    put: Put,
}

impl LineFault {
    pub fn put(&self, random: &mut Random, lines: &mut [Line], at: usize) -> bool {
        (self.put)(random, lines, at)
    }

    /// Puts the fault into some line that can have it, and gives its index.
    pub fn put_somewhere(&self, random: &mut Random, lines: &mut [Line]) -> Option<usize> {
        let mut places: Vec<usize> = (0..lines.len()).collect();
        random.shuffle(&mut places);
        places.into_iter().find(|at| self.put(random, lines, *at))
    }
}

const fn fault(number: u8, name: &'static str, put: Put) -> LineFault {
    LineFault { number, name, put }
}

pub const LINE_FAULTS: [LineFault; 38] = [
    fault(2, "odd digits", |_, lines, at| spoil_text(lines, at, |text| text.insert(0, b'0'))),
    fault(2, "upper case", upper_case),
    fault(2, "no digit", no_digit),
    fault(2, "empty line", |_, lines, at| spoil_text(lines, at, |text| *text = b"\n".to_vec())),
    fault(2, "carriage return", |_, lines, at| spoil_text(lines, at, |text| text.insert(text.len() - 1, b'\r'))),
    fault(2, "last line without LF", no_line_feed),
    fault(3, "unknown kind", |random, lines, at| {
        spoil_frame(lines, at, |frame| frame[0] = *random.pick(&[0, 5, 6, 16, 255]))
    }),
    fault(3, "too short", |random, lines, at| {
        spoil_frame(lines, at, |frame| frame.truncate(frame.len() - random.between(1, 2)))
    }),
    fault(3, "too long", |random, lines, at| spoil_frame(lines, at, |frame| frame.push(random.byte()))),
    fault(3, "action", |random, lines, at| on_rule(lines, at, |rule| rule.action = *random.pick(&[2, 3, 255]))),
    fault(3, "mode", |random, lines, at| on_rule(lines, at, |rule| rule.mode = *random.pick(&[0, 3, 255]))),
    fault(3, "subject", |random, lines, at| on_rule(lines, at, |rule| rule.subject_kind = *random.pick(&[2, 4, 255]))),
    fault(4, "first line no version", first_no_version),
    fault(4, "second version", |_, lines, at| {
        at > 0 && {
            lines[at] = Line::version("v2");
            true
        }
    }),
    fault(4, "group after a later kind", |_, lines, at| {
        at > 0 && lines[at - 1].kind() > 2 && {
            lines[at] = Line::group("new group");
            true
        }
    }),
    fault(4, "member after a rule", member_after_rule),
    fault(5, "empty string", |random, lines, at| on_string(random, lines, at, false, |string, _| string.clear())),
    fault(5, "long string", |random, lines, at| {
        on_string(random, lines, at, true, |string, limit| *string = vec![b's'; limit + 1])
    }),
    fault(6, "byte in a string", byte_in_string),
    fault(5, "elements", |random, lines, at| in_path(random, lines, at, Fault::ElementCount)),
    fault(5, "keys", |random, lines, at| in_path(random, lines, at, Fault::KeyCount)),
    fault(5, "name empty", |random, lines, at| in_path(random, lines, at, Fault::NameEmpty)),
    fault(5, "name long", |random, lines, at| in_path(random, lines, at, Fault::NameLong)),
    fault(5, "key name empty", |random, lines, at| in_path(random, lines, at, Fault::KeyNameEmpty)),
    fault(5, "key name long", |random, lines, at| in_path(random, lines, at, Fault::KeyNameLong)),
    fault(5, "value empty", |random, lines, at| in_path(random, lines, at, Fault::ValueEmpty)),
    fault(5, "value long", |random, lines, at| in_path(random, lines, at, Fault::ValueLong)),
    fault(6, "name byte", |random, lines, at| in_path(random, lines, at, Fault::NameByte)),
    fault(6, "key name byte", |random, lines, at| in_path(random, lines, at, Fault::KeyNameByte)),
    fault(6, "value byte", |random, lines, at| in_path(random, lines, at, Fault::ValueByte)),
    fault(7, "name star", |random, lines, at| in_path(random, lines, at, Fault::NameStar)),
    fault(7, "key name star", |random, lines, at| in_path(random, lines, at, Fault::KeyNameStar)),
    fault(7, "value star", |random, lines, at| in_path(random, lines, at, Fault::ValueStar)),
    fault(7, "dots", |random, lines, at| in_path(random, lines, at, Fault::Dots)),
    fault(8, "key twice", |random, lines, at| in_path(random, lines, at, Fault::KeyTwice)),
    fault(8, "line twice", line_twice),
    fault(9, "member of no group", |_, lines, at| match &mut lines[at] {
        Line::Member { group, .. } => {
            *group = b"nobody".to_vec();
            true
        }
        _ => false,
    }),
    fault(9, "rule of no group", |_, lines, at| {
        on_rule(lines, at, |rule| {
            rule.subject_kind = 1;
            rule.subject = b"nobody".to_vec();
        })
    }),
];

fn spoil_text(lines: &mut [Line], at: usize, spoil: impl FnOnce(&mut Vec<u8>)) -> bool {
    let mut text = lines[at].text();
    if text.len() < 3 {
        return false;
    }
    spoil(&mut text);
    lines[at] = Line::Text(text);
    true
}

fn spoil_frame(lines: &mut [Line], at: usize, spoil: impl FnOnce(&mut Vec<u8>)) -> bool {
    if matches!(lines[at], Line::Text(_)) {
        return false;
    }
    let mut frame = lines[at].frame();
    if frame.len() < 4 {
        return false;
    }
    spoil(&mut frame);
    lines[at] = Line::Frame(frame);
    true
}

fn upper_case(_: &mut Random, lines: &mut [Line], at: usize) -> bool {
    let text = lines[at].text();
    text.iter().any(u8::is_ascii_lowercase) && spoil_text(lines, at, |text| text.make_ascii_uppercase())
}

fn no_digit(random: &mut Random, lines: &mut [Line], at: usize) -> bool {
    spoil_text(lines, at, |text| {
        let place = random.below(text.len() - 1);
        text[place] = *random.pick(b"g/:@`GxX \t\0\x80\xff.");
    })
}

fn no_line_feed(_: &mut Random, lines: &mut [Line], at: usize) -> bool {
    at + 1 == lines.len() && spoil_text(lines, at, |text| text.truncate(text.len() - 1))
}

fn first_no_version(random: &mut Random, lines: &mut [Line], at: usize) -> bool {
    if at != 0 {
        return false;
    }
    let rule = Rule {
        action: 1,
        mode: 1,
        subject_kind: 0,
        subject: b"u".to_vec(),
        id: b"first".to_vec(),
        origin: Vec::new(),
        path: Path::default(),
    };
    lines[0] = random.pick(&[Line::group("first"), Line::member("first", "u"), Line::Rule(rule)]).clone();
    true
}

fn member_after_rule(_: &mut Random, lines: &mut [Line], at: usize) -> bool {
    let group = lines.iter().find_map(|line| match line {
        Line::Group { name } => Some(name.clone()),
        _ => None,
    });
    match group {
        Some(group) if at > 0 && lines[at - 1].kind() == 4 => {
            lines[at] = Line::Member { group, user: b"new user".to_vec() };
            true
        }
        _ => false,
    }
}

fn on_rule(lines: &mut [Line], at: usize, change: impl FnOnce(&mut Rule)) -> bool {
    match &mut lines[at] {
        Line::Rule(rule) => {
            change(rule);
            true
        }
        _ => false,
    }
}

/// Changes one string of a line, with its limit at hand. The names of groups that a
/// member or a rule refers to stay as they are, so that there is one fault only.
fn on_string(
    random: &mut Random,
    lines: &mut [Line],
    at: usize,
    origin_too: bool,
    change: impl FnOnce(&mut Vec<u8>, usize),
) -> bool {
    let mut strings: Vec<(&mut Vec<u8>, usize)> = match &mut lines[at] {
        Line::Version { version, .. } => vec![(version, limits::SHORT_STRING)],
        Line::Group { name } => vec![(name, limits::LONG_STRING)],
        Line::Member { user, .. } => vec![(user, limits::LONG_STRING)],
        Line::Rule(rule) => {
            let mut strings = vec![(&mut rule.id, limits::SHORT_STRING)];
            if origin_too {
                strings.push((&mut rule.origin, limits::SHORT_STRING));
            }
            if rule.subject_kind == 0 {
                strings.push((&mut rule.subject, limits::LONG_STRING));
            }
            strings
        }
        Line::Frame(_) | Line::Text(_) => return false,
    };
    let chosen = random.below(strings.len());
    let (string, limit) = strings.swap_remove(chosen);
    change(string, limit);
    true
}

fn byte_in_string(random: &mut Random, lines: &mut [Line], at: usize) -> bool {
    let byte = *random.pick(b"\x00\x0a\x1f\x7f\x80\xff");
    let first = random.one_in(2);
    on_string(random, lines, at, true, |string, _| match string.first_mut() {
        Some(start) if first => *start = byte,
        _ => string.push(byte),
    })
}

fn in_path(random: &mut Random, lines: &mut [Line], at: usize, fault: Fault) -> bool {
    debug_assert!(FAULTS.contains(&fault));
    on_rule(lines, at, |rule| put_fault(random, &mut rule.path, fault))
}

/// A group name, a member in a group, or a rule id that an earlier line has.
fn line_twice(random: &mut Random, lines: &mut [Line], at: usize) -> bool {
    let earlier: Vec<usize> = (0..at).filter(|i| lines[*i].kind() == lines[at].kind()).collect();
    if earlier.is_empty() {
        return false;
    }
    let source = lines[*random.pick(&earlier)].clone();
    match (&mut lines[at], source) {
        (Line::Rule(rule), Line::Rule(source)) => rule.id = source.id,
        (Line::Group { name }, Line::Group { name: source }) => *name = source,
        (line @ Line::Member { .. }, source) => *line = source,
        _ => return false,
    }
    true
}
