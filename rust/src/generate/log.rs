//! Logs of path requests: good ones for a generated table, and lines with a single fault.

use super::path::{longest_path, push_string, put_fault, Path, FAULTS};
use super::table::{dense_table, hex_line, path_near, some_origin, Line, Shape, USERS};
use crate::limits;
use crate::path::path_bytes;
use crate::random::Random;

/// A line as its parts; the encoder takes it as it is, good or not.
#[derive(Clone, PartialEq, Eq, Debug)]
pub struct LogLine {
    pub mode: u8,
    pub user: Vec<u8>,
    pub origin: Vec<u8>,
    pub path: Path,
}

impl LogLine {
    /// A request to read with an empty origin.
    pub fn read(user: &str, path: Path) -> LogLine {
        LogLine { mode: 1, user: user.into(), origin: Vec::new(), path }
    }

    pub fn frame(&self) -> Vec<u8> {
        frame_of(self.mode, &self.user, &self.origin, &self.path.bytes())
    }

    pub fn text(&self) -> Vec<u8> {
        hex_line(&self.frame())
    }
}

pub fn log_text(lines: &[LogLine]) -> Vec<u8> {
    lines.iter().flat_map(LogLine::text).collect()
}

/// A good line with an empty origin, for a path text.
pub fn line_for(user: &str, mode: u8, path: &str) -> Vec<u8> {
    let path = path_bytes(path.as_bytes()).expect("a good path");
    hex_line(&frame_of(mode, user.as_bytes(), b"", &path))
}

/// Mode, S user, S origin, path bytes.
pub(super) fn frame_of(mode: u8, user: &[u8], origin: &[u8], path: &[u8]) -> Vec<u8> {
    let mut frame = vec![mode];
    push_string(&mut frame, user);
    push_string(&mut frame, origin);
    frame.extend(path);
    frame
}

/// A small good table whose rules overlap often, as many of them about writing as about reading.
pub fn dense_table_for_logs(random: &mut Random) -> Vec<Line> {
    let mut lines = dense_table(random);
    for line in &mut lines {
        if let Line::Rule(rule) = line {
            rule.mode = random.between(1, 2) as u8;
        }
    }
    lines
}

/// Good lines near the rules of a table: some in runs of one user, mode and origin, some each by another.
pub fn dense_log(random: &mut Random, table: &[Line], shape: &Shape, count: usize) -> Vec<LogLine> {
    let mut lines = Vec::new();
    while lines.len() < count {
        let user = if random.one_in(12) { "nobody" } else { random.pick(&USERS) };
        let (mode, origin) = (random.between(1, 2) as u8, some_origin(random));
        let run = if random.one_in(2) { 1 } else { random.between(2, 8) };
        for _ in 0..run.min(count - lines.len()) {
            let path = path_near(random, table, shape);
            lines.push(LogLine { mode, user: user.into(), origin: origin.into(), path });
        }
    }
    lines
}

/// The good line that is the longest.
pub fn longest_line() -> LogLine {
    let (user, origin) = (vec![b'u'; limits::LONG_STRING], vec![b'o'; limits::SHORT_STRING]);
    LogLine { mode: 2, user, origin, path: longest_path() }
}

/// The text of the line with each single fault that a line can have, and a name for it.
pub fn faulty_lines(random: &mut Random, good: &LogLine) -> Vec<(String, Vec<u8>)> {
    let mut faulty = spoilt_texts(random, good);
    faulty.extend(spoilt_frames(random, good).into_iter().map(|(name, frame)| (name.into(), hex_line(&frame))));
    faulty.extend(spoilt_parts(random, good).into_iter().map(|(name, line)| (name.into(), line.text())));
    for fault in FAULTS {
        let mut line = good.clone();
        put_fault(random, &mut line.path, fault);
        faulty.push((format!("{fault:?}"), line.text()));
    }
    faulty
}

/// What is not "an even, nonzero count of digits `0-9a-f`, then LF".
fn spoilt_texts(random: &mut Random, good: &LogLine) -> Vec<(String, Vec<u8>)> {
    let text = good.text();
    let end = text.len() - 1;
    let mut faulty = vec![
        ("empty line".into(), b"\n".to_vec()),
        ("a digit more".into(), [b"0", &text[..]].concat()),
        ("a digit less".into(), text[1..].to_vec()),
        ("no LF".into(), text[..end].to_vec()),
        ("carriage return".into(), [&text[..end], b"\r\n"].concat()),
        ("capital digits".into(), LogLine { user: b"no".to_vec(), ..good.clone() }.text().to_ascii_uppercase()),
    ];
    for byte in b"g/:@`GA \t\r\0\x7f\x80\xff" {
        let mut text = text.clone();
        text[random.below(end)] = *byte;
        faulty.push((format!("byte {byte:#04x}"), text));
    }
    faulty
}

/// What has a byte too few or too many. No frame is the beginning of another.
fn spoilt_frames(random: &mut Random, good: &LogLine) -> Vec<(&'static str, Vec<u8>)> {
    let frame = good.frame();
    vec![
        ("mode alone", frame[..1].to_vec()),
        ("without a path", frame[..3 + good.user.len() + good.origin.len()].to_vec()),
        ("a byte short", frame[..frame.len() - 1].to_vec()),
        ("some bytes short", frame[..random.between(1, frame.len() - 1)].to_vec()),
        ("a byte long", [&frame[..], &[random.byte()]].concat()),
        ("twice", [&frame[..], &frame].concat()),
    ]
}

/// A mode, a user or an origin that gets 20 or 21.
fn spoilt_parts(random: &mut Random, good: &LogLine) -> Vec<(&'static str, LogLine)> {
    let stray = |random: &mut Random, string: &[u8]| {
        let mut string = string.to_vec();
        string.insert(random.below(string.len() + 1), *random.pick(b"\x00\x0a\x1f\x7f\x80\xff"));
        string.truncate(limits::SHORT_STRING);
        string
    };
    let user = |user: Vec<u8>| LogLine { user, ..good.clone() };
    let origin = |origin: Vec<u8>| LogLine { origin, ..good.clone() };
    vec![
        ("mode 0", LogLine { mode: 0, ..good.clone() }),
        ("mode 3", LogLine { mode: 3, ..good.clone() }),
        ("mode 255", LogLine { mode: 255, ..good.clone() }),
        ("user empty", user(Vec::new())),
        ("user long", user(vec![b'u'; limits::LONG_STRING + 1])),
        ("user of 255 bytes", user(vec![b'u'; 255])),
        ("user byte", user(stray(random, b"user"))),
        ("origin long", origin(vec![b'o'; limits::SHORT_STRING + 1])),
        ("origin of 255 bytes", origin(vec![b'o'; 255])),
        ("origin byte", origin(stray(random, b"oc"))),
    ]
}

/// Lines a byte longer than the longest good one, each for another reason, and one of many bytes.
pub fn lines_too_long(many: usize) -> Vec<(&'static str, Vec<u8>)> {
    let longest = longest_line();
    let more = |string: &[u8]| [string, b"x"].concat();
    vec![
        ("a user byte more", LogLine { user: more(&longest.user), ..longest.clone() }.text()),
        ("an origin byte more", LogLine { origin: more(&longest.origin), ..longest.clone() }.text()),
        ("a byte behind the path", hex_line(&[longest.frame(), vec![0]].concat())),
        ("many bytes behind the path", hex_line(&[longest.frame(), vec![0; many]].concat())),
        ("many digits without LF", vec![b'0'; many]),
    ]
}
