//! Log lines on which a verdict takes long: every rule concerns the user, and is to be compared with the request to its end.

use super::log::{frame_of, longest_line, LogLine};
use super::table::{hex_line, table_text, Line, Rule};
use super::worst_tree::worst_trees;
use crate::frame::Taker;
use crate::hex::HexLines;

pub struct WorstLog {
    pub name: String,
    pub table: Vec<u8>,
    pub line: Vec<u8>,
}

/// On each table on which a tree takes long a request for the path of its last rule but for the last byte; and the
/// longest line, alone and beside a rule that shares most of its path.
pub fn worst_logs() -> Vec<WorstLog> {
    let trees = worst_trees().into_iter();
    let mut logs: Vec<WorstLog> = trees.map(|tree| nearly_the_last_rule(tree.name, tree.table)).collect();
    let longest = longest_line();
    for elements in [0, 12] {
        let (name, line) = (format!("longest line, a rule of {elements} of its elements"), longest.text());
        logs.push(WorstLog { name, table: table_of_one_rule(&longest, elements), line });
    }
    logs
}

fn nearly_the_last_rule(name: &str, table: Vec<u8>) -> WorstLog {
    let lines = HexLines::decode(&table);
    let mut path = path_of_rule(lines.frames().last().expect("a rule")).to_vec();
    // A path ends with a value, or with a name and a count of no keys.
    let last = if path.ends_with(&[0]) { path.len() - 2 } else { path.len() - 1 };
    path[last] = if path[last] == b'y' { b'x' } else { b'y' };
    WorstLog { name: name.into(), line: hex_line(&frame_of(1, b"u", b"", &path)), table }
}

/// The path bytes of a rule's frame.
fn path_of_rule(frame: &[u8]) -> &[u8] {
    let mut taker = Taker::new(&frame[4..]);
    for _ in ["subject", "id", "origin"] {
        taker.string().expect("a frame that reads");
    }
    taker.rest()
}

/// A denial of what the line asks, with so many of its elements.
fn table_of_one_rule(line: &LogLine, elements: usize) -> Vec<u8> {
    let mut path = line.path.clone();
    path.elements.truncate(elements);
    let (subject, origin) = (line.user.clone(), line.origin.clone());
    let rule = Rule { action: 0, mode: line.mode, subject_kind: 0, subject, id: b"r".to_vec(), origin, path };
    table_text(&[Line::version("v1"), Line::Rule(rule)])
}
