//! The frames of a rule table. Reading a frame knows no limits: counts and lengths
//! past theirs still read where their bytes are there.

use std::ops::Range;

/// Takes counts and strings from the start of some bytes.
pub struct Taker<'b> {
    rest: &'b [u8],
}

impl<'b> Taker<'b> {
    pub fn new(bytes: &'b [u8]) -> Taker<'b> {
        Taker { rest: bytes }
    }

    pub fn byte(&mut self) -> Option<u8> {
        let (first, rest) = self.rest.split_first()?;
        self.rest = rest;
        Some(*first)
    }

    pub fn bytes(&mut self, len: usize) -> Option<&'b [u8]> {
        if len > self.rest.len() {
            return None;
        }
        let (bytes, rest) = self.rest.split_at(len);
        self.rest = rest;
        Some(bytes)
    }

    /// "S is one length byte, then that many bytes."
    pub fn string(&mut self) -> Option<&'b [u8]> {
        let len = self.byte()?;
        self.bytes(usize::from(len))
    }

    /// What is left to take.
    pub fn rest(&self) -> &'b [u8] {
        self.rest
    }

    pub fn is_at_end(&self) -> bool {
        self.rest.is_empty()
    }
}

#[derive(Clone, Copy, PartialEq, Eq, Debug)]
pub struct Key<'b> {
    pub name: &'b [u8],
    pub value: &'b [u8],
}

impl Key<'_> {
    /// "each definite key of the rule (value other than `*`)"
    pub fn is_definite(&self) -> bool {
        self.value != b"*"
    }
}

#[derive(Clone, Debug)]
pub struct Element<'b> {
    pub name: &'b [u8],
    keys: Range<u32>,
}

/// The elements and keys of paths, one path after another in two arrays.
#[derive(Default)]
pub struct Paths<'b> {
    elements: Vec<Element<'b>>,
    keys: Vec<Key<'b>>,
}

/// A path in `Paths`.
#[derive(Clone, Debug)]
pub struct PathAt(Range<u32>);

impl<'b> Paths<'b> {
    /// Takes one path: "a count of elements, then for each: S name, a count of keys,
    /// and for each key S name, S value".
    pub fn take(&mut self, taker: &mut Taker<'b>) -> Option<PathAt> {
        let start = self.elements.len() as u32;
        for _ in 0..taker.byte()? {
            let name = taker.string()?;
            let first_key = self.keys.len() as u32;
            for _ in 0..taker.byte()? {
                self.keys.push(Key { name: taker.string()?, value: taker.string()? });
            }
            self.elements.push(Element { name, keys: first_key..self.keys.len() as u32 });
        }
        Some(PathAt(start..self.elements.len() as u32))
    }

    /// Puts in, alone, the joined path of two: "as many elements as the longer of the
    /// two, and the definite keys of both". The names agree as far as both go.
    pub fn join(&mut self, one: (&Paths<'b>, &PathAt), other: (&Paths<'b>, &PathAt)) -> PathAt {
        self.elements.clear();
        self.keys.clear();
        let (ones, others) = (one.0.elements(one.1), other.0.elements(other.1));
        for at in 0..ones.len().max(others.len()) {
            let first_key = self.keys.len() as u32;
            let (from_one, from_other) = (ones.get(at), others.get(at));
            self.keys.extend(from_one.into_iter().flat_map(|e| one.0.definite_keys(e)));
            self.keys.extend(from_other.into_iter().flat_map(|e| other.0.definite_keys(e)));
            let name = from_one.or(from_other).map_or(&[][..], |e| e.name);
            self.elements.push(Element { name, keys: first_key..self.keys.len() as u32 });
        }
        PathAt(0..self.elements.len() as u32)
    }

    /// No paths, in the same memory, which may then hold those of other bytes.
    pub fn emptied<'c>(mut self) -> Paths<'c> {
        self.elements.clear();
        self.keys.clear();
        Paths {
            elements: self.elements.into_iter().map(|_| unreachable!("no elements")).collect(),
            keys: self.keys.into_iter().map(|_| unreachable!("no keys")).collect(),
        }
    }

    pub fn elements(&self, path: &PathAt) -> &[Element<'b>] {
        &self.elements[path.0.start as usize..path.0.end as usize]
    }

    pub fn keys(&self, element: &Element) -> &[Key<'b>] {
        &self.keys[element.keys.start as usize..element.keys.end as usize]
    }

    pub fn definite_keys<'s>(&'s self, element: &Element) -> impl Iterator<Item = Key<'b>> + use<'s, 'b> {
        self.keys(element).iter().copied().filter(Key::is_definite)
    }
}

#[derive(Clone, Copy, PartialEq, Eq, Debug)]
pub enum Action {
    Deny,
    Permit,
}

#[derive(Clone, Copy, PartialEq, Eq, Debug)]
pub enum Mode {
    Read,
    Write,
}

#[derive(Clone, Copy, PartialEq, Eq, Debug)]
pub enum SubjectKind {
    User,
    Group,
}

/// A rule as its frame has it.
pub struct RuleFrame<'b> {
    pub action: Action,
    pub mode: Mode,
    pub subject_kind: SubjectKind,
    pub subject: &'b [u8],
    pub id: &'b [u8],
    pub origin: &'b [u8],
    pub path: PathAt,
}

pub enum Frame<'b> {
    Version { version: &'b [u8] },
    Group { name: &'b [u8] },
    Member { group: &'b [u8], user: &'b [u8] },
    Rule(RuleFrame<'b>),
}

impl<'b> Frame<'b> {
    /// Reads a whole frame; none for an "unknown kind or code byte, frame too short
    /// or long". The path of a rule goes into `paths`.
    pub fn read(frame: &'b [u8], paths: &mut Paths<'b>) -> Option<Frame<'b>> {
        let mut taker = Taker::new(frame);
        let read = match taker.byte()? {
            1 => read_version(&mut taker),
            2 => Some(Frame::Group { name: taker.string()? }),
            3 => Some(Frame::Member { group: taker.string()?, user: taker.string()? }),
            4 => read_rule(&mut taker, paths),
            _ => None,
        };
        read.filter(|_| taker.is_at_end())
    }

    pub fn kind(&self) -> u8 {
        match self {
            Frame::Version { .. } => 1,
            Frame::Group { .. } => 2,
            Frame::Member { .. } => 3,
            Frame::Rule(_) => 4,
        }
    }
}

/// "S version, 8 bytes creation time"
fn read_version<'b>(taker: &mut Taker<'b>) -> Option<Frame<'b>> {
    let version = taker.string()?;
    taker.bytes(8)?;
    Some(Frame::Version { version })
}

fn read_rule<'b>(taker: &mut Taker<'b>, paths: &mut Paths<'b>) -> Option<Frame<'b>> {
    let action = match taker.byte()? {
        0 => Action::Deny,
        1 => Action::Permit,
        _ => return None,
    };
    let mode = match taker.byte()? {
        1 => Mode::Read,
        2 => Mode::Write,
        _ => return None,
    };
    let subject_kind = match taker.byte()? {
        0 => SubjectKind::User,
        1 => SubjectKind::Group,
        _ => return None,
    };
    let (subject, id, origin) = (taker.string()?, taker.string()?, taker.string()?);
    let path = paths.take(taker)?;
    Some(Frame::Rule(RuleFrame { action, mode, subject_kind, subject, id, origin, path }))
}

#[cfg(test)]
mod tests {
    use super::*;

    fn reads(frame: &[u8]) -> bool {
        Frame::read(frame, &mut Paths::default()).is_some()
    }

    #[test]
    fn a_frame_reads_whole_or_not_at_all() {
        let good: [&[u8]; 5] = [
            b"\x01\x02v1\0\0\0\0\0\0\0\x01",
            b"\x02\x01g",
            b"\x03\x01g\x01u",
            b"\x04\x01\x01\x01\x01g\x01r\x00\x01\x01a\x01\x01k\x01*",
            b"\x04\x00\x02\x00\x00\x00\x00\x00",
        ];
        for frame in good {
            assert!(reads(frame));
            assert!(!reads(&[frame, b"\0"].concat()));
            for end in 0..frame.len() {
                assert!(!reads(&frame[..end]));
            }
        }
    }

    #[test]
    fn unknown_kinds_and_codes_do_not_read() {
        assert!(!reads(b"\x00") && !reads(b"\x05\x01g"));
        for (at, codes) in [(1, [0u8, 1]), (2, [1, 2]), (3, [0, 1])] {
            for code in 0..=255 {
                let mut frame = *b"\x04\x01\x01\x01\x01g\x01r\x00\x00";
                frame[at] = code;
                assert_eq!(reads(&frame), codes.contains(&code), "byte {at} is {code}");
            }
        }
    }

    #[test]
    fn counts_past_their_limits_read() {
        let path = [&[255u8], &b"\x01a\x00".repeat(255)[..]].concat();
        assert!(reads(&[&b"\x04\x01\x01\x00\x01u\x01r\x00"[..], &path].concat()));
        let name = [&b"\x02\x41"[..], &[b'g'; 65]].concat();
        assert!(reads(&name) && !reads(&name[..name.len() - 1]));
    }
}
