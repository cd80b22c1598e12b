//! A typing slip: what the command line tells on standard error about a user whom an accepted table does not name.

use crate::frame::{Frame, Paths, SubjectKind};
use crate::hex::HexLines;
use crate::table::{check_table, is_user};

/// The line, or nothing where the table names the user, or where the table or the user is refused.
pub fn slip_line(table: &[u8], user: &[u8]) -> String {
    if check_table(table).is_err() || !is_user(user) {
        return String::new();
    }
    let (lines, mut paths) = (HexLines::decode(table), Paths::default());
    let (mut has_group, mut users) = (false, Vec::new());
    for frame in lines.frames() {
        match Frame::read(frame, &mut paths).expect("a frame of an accepted table") {
            Frame::Group { name } => has_group |= name == user,
            Frame::Member { user, .. } => users.push(user),
            Frame::Rule(rule) if rule.subject_kind == SubjectKind::User => users.push(rule.subject),
            Frame::Version { .. } | Frame::Rule(_) => {}
        }
    }
    if users.contains(&user) {
        return String::new();
    }
    let mut alike = Vec::new();
    for name in users {
        if name.eq_ignore_ascii_case(user) && !alike.contains(&printed(name)) {
            alike.push(printed(name));
        }
    }
    let group = if has_group { "; a group has that name" } else { "" };
    let names = if alike.is_empty() { String::new() } else { format!("; it names {}", alike.join(", ")) };
    format!("burgee: the table names no user {}{group}{names}\n", printed(user))
}

/// A name, which in an accepted table has only bytes that print.
fn printed(name: &[u8]) -> String {
    String::from_utf8(name.to_vec()).expect("bytes that print")
}

#[cfg(test)]
mod tests {
    use super::*;
    use crate::vectors::{EXAMPLES_E_TO_K, VERSION_ONLY};

    fn said(table: &str, user: &str) -> String {
        slip_line(table.as_bytes(), user.as_bytes())
    }

    #[test]
    fn users_that_are_named_or_refused_are_not_told() {
        assert_eq!(said(EXAMPLES_E_TO_K, "u"), "");
        assert_eq!(said(EXAMPLES_E_TO_K, ""), "");
        assert_eq!(said(EXAMPLES_E_TO_K, "\x7f"), "");
        assert_eq!(said("", "u"), "");
        assert_eq!(said(&format!("{VERSION_ONLY}0401010001750172000\n"), "v"), "");
        assert_eq!(said(&format!("{VERSION_ONLY}04010100017501720000\n"), "u"), "");
    }

    #[test]
    fn other_users_are() {
        assert_eq!(said(VERSION_ONLY, "u"), "burgee: the table names no user u\n");
        assert_eq!(said(EXAMPLES_E_TO_K, "g"), "burgee: the table names no user g; a group has that name\n");
        assert_eq!(said(EXAMPLES_E_TO_K, "G"), "burgee: the table names no user G\n");
        assert_eq!(said(EXAMPLES_E_TO_K, "U"), "burgee: the table names no user U; it names u\n");
    }
}
