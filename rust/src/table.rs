//! The rule table: reading its text, and the groups of a user.

use std::collections::{HashMap, HashSet};

use crate::charset::{is_name_byte, is_printable};
use crate::fault::Faults;
use crate::frame::{Action, Frame, Key, Mode, PathAt, Paths, RuleFrame, SubjectKind};
use crate::hex::HexLines;
use crate::limits;
use crate::refusal::{line, Refusal, TABLE_LONG, USER_OR_MODE};

/// A group's number in text order; never a rule's.
#[derive(Clone, Copy, PartialEq, Eq, Debug)]
pub struct GroupNumber(pub u8);

/// A rule's number in text order; never a group's.
#[derive(Clone, Copy, PartialEq, Eq, Debug)]
pub struct RuleNumber(pub u8);

/// "each user's memberships are a set over at most 64 groups"
#[derive(Clone, Copy, PartialEq, Eq, Debug, Default)]
pub struct Memberships(u64);

impl Memberships {
    /// False where the group is there already.
    fn insert(&mut self, group: GroupNumber) -> bool {
        let bit = 1 << group.0;
        let is_new = self.0 & bit == 0;
        self.0 |= bit;
        is_new
    }

    pub fn contains(self, group: GroupNumber) -> bool {
        self.0 & 1 << group.0 != 0
    }

    pub fn count(self) -> u8 {
        self.0.count_ones() as u8
    }

    /// The group with the smallest number.
    pub fn first(self) -> Option<GroupNumber> {
        (self.0 != 0).then(|| GroupNumber(self.0.trailing_zeros() as u8))
    }
}

#[derive(Clone, Copy, PartialEq, Eq, Debug)]
pub enum Subject<'t> {
    User(&'t [u8]),
    Group(GroupNumber),
}

#[derive(Clone, Debug)]
pub struct Rule<'t> {
    pub action: Action,
    pub mode: Mode,
    pub subject: Subject<'t>,
    pub id: &'t [u8],
    pub origin: &'t [u8],
    pub path: PathAt,
}

/// A table without faults.
#[derive(Default)]
pub struct Table<'t> {
    groups: HashMap<&'t [u8], GroupNumber>,
    users: HashMap<&'t [u8], Memberships>,
    pub rules: Vec<Rule<'t>>,
    pub paths: Paths<'t>,
}

/// Checks a table text.
pub fn check_table(text: &[u8]) -> Result<(), Refusal> {
    with_table(text, |_| ())
}

/// Reads a table text, and hands the table on where it has no fault.
pub fn with_table<R>(text: &[u8], then: impl FnOnce(&Table) -> R) -> Result<R, Refusal> {
    if text.len() > limits::TABLE_TEXT {
        return Err(TABLE_LONG);
    }
    if text.is_empty() {
        return Err(Refusal { number: line::ORDER, line: 1 });
    }
    let lines = HexLines::decode(text);
    let table = read_lines(&lines)?;
    Ok(then(&table))
}

/// How many groups hold a user, and the first of them.
#[derive(Clone, Copy, PartialEq, Eq, Debug)]
pub struct GroupCount {
    pub count: u8,
    pub first: Option<GroupNumber>,
}

pub fn group_count(text: &[u8], user: &[u8]) -> Result<GroupCount, Refusal> {
    let memberships = with_table(text, |table| table.memberships(user))?;
    if !is_user(user) {
        return Err(USER_OR_MODE);
    }
    Ok(GroupCount { count: memberships.count(), first: memberships.first() })
}

/// A user as a table allows: 1 to 64 bytes of 0x20 to 0x7E.
pub fn is_user(user: &[u8]) -> bool {
    (1..=limits::LONG_STRING).contains(&user.len()) && user.iter().all(|b| is_printable(*b))
}

impl<'t> Table<'t> {
    pub fn memberships(&self, user: &[u8]) -> Memberships {
        self.users.get(user).copied().unwrap_or_default()
    }

    /// The users who are members of a group.
    pub fn members(&self) -> impl Iterator<Item = &'t [u8]> + use<'_, 't> {
        self.users.keys().copied()
    }

    /// Whether a rule for this subject is about the user, whose memberships are given.
    pub fn is_about(subject: Subject, user: &[u8], memberships: Memberships) -> bool {
        match subject {
            Subject::User(name) => name == user,
            Subject::Group(group) => memberships.contains(group),
        }
    }
}

fn read_lines(lines: &HexLines) -> Result<Table<'_>, Refusal> {
    let mut reader = Reader::default();
    for (index, frame) in lines.frames().enumerate() {
        reader.read_line(frame).map_err(|number| Refusal { number, line: index as u32 + 1 })?;
    }
    match lines.broken_after() {
        Some(lines) => Err(Refusal { number: line::HEX, line: lines as u32 + 1 }),
        None => Ok(reader.table),
    }
}

/// Reads a table line by line, each judged against the lines before it.
#[derive(Default)]
struct Reader<'t> {
    table: Table<'t>,
    ids: HashSet<&'t [u8]>,
    members: usize,
    /// The kind of the line before; 0 before the first.
    kind: u8,
}

impl<'t> Reader<'t> {
    fn read_line(&mut self, frame: &'t [u8]) -> Result<(), u8> {
        let frame = Frame::read(frame, &mut self.table.paths).ok_or(line::FRAME)?;
        let mut faults = Faults::default();
        faults.add_if(!self.is_in_order(frame.kind()), line::ORDER);
        self.kind = frame.kind();
        match frame {
            Frame::Version { version } => judge_string(version, 1, limits::SHORT_STRING, &mut faults),
            Frame::Group { name } => self.group(name, &mut faults),
            Frame::Member { group, user } => self.member(group, user, &mut faults),
            Frame::Rule(rule) => self.rule(rule, &mut faults),
        }
        faults.verdict()
    }

    /// "Exactly one 01 line, the first; kinds never fall from line to line."
    fn is_in_order(&self, kind: u8) -> bool {
        match self.kind {
            0 => kind == 1,
            before => kind != 1 && kind >= before,
        }
    }

    fn group(&mut self, name: &'t [u8], faults: &mut Faults) {
        judge_string(name, 1, limits::LONG_STRING, faults);
        let number = self.table.groups.len();
        if number == limits::GROUPS {
            faults.add(line::LIMIT);
            return;
        }
        let known = self.table.groups.insert(name, GroupNumber(number as u8));
        faults.add_if(known.is_some(), line::TWICE);
    }

    fn member(&mut self, group: &'t [u8], user: &'t [u8], faults: &mut Faults) {
        judge_string(group, 1, limits::LONG_STRING, faults);
        judge_string(user, 1, limits::LONG_STRING, faults);
        faults.add_if(self.members == limits::MEMBERS, line::LIMIT);
        self.members += 1;
        match self.table.groups.get(group) {
            Some(number) => {
                let is_new = self.table.users.entry(user).or_default().insert(*number);
                faults.add_if(!is_new, line::TWICE);
            }
            None => faults.add(line::UNLISTED),
        }
    }

    fn rule(&mut self, rule: RuleFrame<'t>, faults: &mut Faults) {
        judge_string(rule.subject, 1, limits::LONG_STRING, faults);
        judge_string(rule.id, 1, limits::SHORT_STRING, faults);
        judge_string(rule.origin, 0, limits::SHORT_STRING, faults);
        judge_path(&self.table.paths, &rule.path, faults);
        faults.add_if(self.table.rules.len() == limits::RULES, line::LIMIT);
        faults.add_if(!self.ids.insert(rule.id), line::TWICE);
        let subject = match rule.subject_kind {
            SubjectKind::User => Subject::User(rule.subject),
            SubjectKind::Group => match self.table.groups.get(rule.subject) {
                Some(number) => Subject::Group(*number),
                None => return faults.add(line::UNLISTED),
            },
        };
        let RuleFrame { action, mode, id, origin, path, .. } = rule;
        self.table.rules.push(Rule { action, mode, subject, id, origin, path });
    }
}

/// A string of bytes 0x20 to 0x7E whose length has the given limits.
fn judge_string(string: &[u8], shortest: usize, longest: usize, faults: &mut Faults) {
    faults.add_if(!(shortest..=longest).contains(&string.len()), line::LIMIT);
    faults.add_if(!string.iter().all(|b| is_printable(*b)), line::BYTE);
}

fn judge_path(paths: &Paths, path: &PathAt, faults: &mut Faults) {
    let elements = paths.elements(path);
    faults.add_if(elements.len() > limits::ELEMENTS, line::LIMIT);
    for element in elements {
        judge_name(element.name, faults);
        faults.add_if(element.name == b"...", line::WILDCARD);
        let keys = paths.keys(element);
        for key in keys {
            judge_name(key.name, faults);
            judge_value(key.value, faults);
        }
        // More than 4 keys are a 5 already, which is smaller than 8.
        if keys.len() > limits::KEYS {
            faults.add(line::LIMIT);
        } else {
            faults.add_if(has_name_twice(keys), line::TWICE);
        }
    }
}

/// An element or key name: a `*` in it is 7, any other byte outside the set 6.
fn judge_name(name: &[u8], faults: &mut Faults) {
    faults.add_if(!(1..=limits::LONG_STRING).contains(&name.len()), line::LIMIT);
    for byte in name.iter().filter(|b| !is_name_byte(**b)) {
        faults.add(if *byte == b'*' { line::WILDCARD } else { line::BYTE });
    }
}

/// "A value that is exactly `*` is a wildcard; any other value holds no `*`."
fn judge_value(value: &[u8], faults: &mut Faults) {
    judge_string(value, 1, limits::LONG_STRING, faults);
    faults.add_if(value.len() != 1 && value.contains(&b'*'), line::WILDCARD);
}

fn has_name_twice(keys: &[Key]) -> bool {
    (1..keys.len()).any(|i| keys[..i].iter().any(|key| key.name == keys[i].name))
}

#[cfg(test)]
mod tests {
    use super::*;
    use crate::vectors::{EXAMPLES_E_TO_K, VERSION_ONLY};

    fn refusal(text: &str) -> Option<(u8, u32)> {
        check_table(text.as_bytes()).err().map(|r| (r.number, r.line))
    }

    #[test]
    fn accepts_the_tables_of_the_paper() {
        assert_eq!(refusal(EXAMPLES_E_TO_K), None);
        assert_eq!(refusal(VERSION_ONLY), None);
    }

    #[test]
    fn settled_readings() {
        let t0 = VERSION_ONLY;
        assert_eq!(refusal(""), Some((4, 1)));
        assert_eq!(refusal("\n"), Some((2, 1)));
        assert_eq!(refusal(t0.trim_end()), Some((2, 1)));
        assert_eq!(refusal(&format!("{t0}0201")), Some((2, 2)));
        assert_eq!(refusal(&format!("{t0}0241{}\n", "67".repeat(65))), Some((5, 2)));
        assert_eq!(refusal(&format!("{t0}0241{}\n", "67".repeat(64))), Some((3, 2)));
        assert_eq!(refusal("020167\n"), Some((4, 1)));
        assert_eq!(refusal(&format!("{t0}{t0}")), Some((4, 2)));
        assert_eq!(refusal(&format!("{t0}0301670175\n020167\n")), Some((9, 2)));
        // An id twice in a rule whose origin has a bad byte.
        assert_eq!(refusal(&format!("{t0}04010100017501720000\n0401010001750172017f00\n")), Some((6, 3)));
        assert_eq!(refusal(&format!("{t0}04010100017501720000\n04010100017501720000\n")), Some((8, 3)));
        // `*` in a name with another bad byte, and alone; then as a user.
        assert_eq!(refusal(&format!("{t0}0401010001750172000102202a00\n")), Some((6, 2)));
        assert_eq!(refusal(&format!("{t0}04010100017501720001012a00\n")), Some((7, 2)));
        assert_eq!(refusal(&format!("{t0}04010100012a0172000101610000\n")), Some((3, 2)));
        assert_eq!(refusal(&format!("{t0}04010100012a01720001016100\n")), None);
    }

    #[test]
    fn a_text_too_long_is_refused_without_a_line() {
        assert_eq!(refusal(&"0".repeat(32_769)), Some((1, 0)));
        assert_eq!(refusal(&"0".repeat(32_768)), Some((2, 1)));
    }

    #[test]
    fn counts_the_groups_of_a_user() {
        let text = format!("{VERSION_ONLY}020161\n020162\n020163\n0301620175\n0301630175\n");
        let count = |user: &[u8]| group_count(text.as_bytes(), user);
        assert_eq!(count(b"u"), Ok(GroupCount { count: 2, first: Some(GroupNumber(1)) }));
        assert_eq!(count(b"v"), Ok(GroupCount { count: 0, first: None }));
        assert_eq!(count(b""), Err(USER_OR_MODE));
        assert_eq!(count(&[b'u'; 65]), Err(USER_OR_MODE));
        assert_eq!(count(b"\x7f"), Err(USER_OR_MODE));
        assert_eq!(group_count(b"", b""), Err(Refusal { number: 4, line: 1 }));
    }
}
