//! The command line: the program that `bin/burgee` runs, and what it has to print.

use std::ffi::OsStr;
use std::io::Write;
use std::os::unix::ffi::OsStrExt;
use std::process::{Command, Stdio};

use crate::frame::Action;
use crate::policy::read_policy;
use crate::refusal::Refusal;
use crate::rotation::{Record, NONE};
use crate::rpc::RpcVerdict;
use crate::table::{with_table, RuleNumber};
use crate::verdict::{PathVerdict, TreeVerdict};

/// The program of this clone: cargo runs tests in `rust/`.
const PROGRAM: &str = "../target/bin/cli";

/// What the program prints for these words and this standard input: its answer, or a refusal, which `show` and `pack`
/// tell on standard error. It says nothing else there.
pub fn burgee(words: &[&[u8]], input: &[u8]) -> String {
    burgee_saying("", words, input)
}

/// The same where it says that on standard error.
pub fn burgee_saying(said: &str, words: &[&[u8]], input: &[u8]) -> String {
    let mut child = Command::new(PROGRAM)
        .args(words.iter().map(|word| OsStr::from_bytes(word)))
        .stdin(Stdio::piped())
        .stdout(Stdio::piped())
        .stderr(Stdio::piped())
        .spawn()
        .expect("target/bin/cli, which `tools/build.sh cli` builds");
    // It may end before it has read all.
    let _ = child.stdin.take().expect("piped").write_all(input);
    let output = child.wait_with_output().expect("an end");
    let shown = || words.iter().map(|word| word.escape_ascii().to_string()).collect::<Vec<_>>().join(" ");
    let is_text = matches!(words.first(), Some(&b"show" | &b"pack"));
    let is_aside = is_text && output.stderr.starts_with(b"refused");
    let (told, other) = if is_aside { (output.stderr, output.stdout) } else { (output.stdout, output.stderr) };
    assert!(other == said.as_bytes(), "{}: {}, not {said}", shown(), other.escape_ascii());
    // Its status is 1 for a refusal and 0 for an answer.
    let status = i32::from(told.starts_with(b"refused"));
    assert!(output.status.code() == Some(status), "{}: {}", shown(), output.status);
    String::from_utf8(told).expect("bytes that print")
}

/// Line n of a text, counted from 1, with bytes that do not print in hex.
fn quoted(text: &[u8], n: usize) -> String {
    let line = text.split(|byte| *byte == b'\n').nth(n - 1).expect("a line of the text");
    let quoted = |byte: &u8| match byte {
        b' '..=b'~' => char::from(*byte).to_string(),
        _ => format!("\\x{byte:02x}"),
    };
    line.iter().map(quoted).collect()
}

/// A refusal is told by its number and, of a table, its line, which is quoted where the text is at hand.
pub fn assert_refused(printed: &str, refusal: Refusal, text: Option<&[u8]>) -> u64 {
    let Refusal { number, line } = refusal;
    let told = if line == 0 { format!("refused {number}: ") } else { format!("refused {number} at line {line}: ") };
    assert!(printed.starts_with(&told), "{printed}, not {told}");
    if let (Some(text), 1..) = (text, line) {
        let quote = format!("line: {}", quoted(text, line as usize));
        assert_eq!(printed.lines().nth(1), Some(&quote[..]));
    }
    u64::from(number)
}

/// The line of a policy's fault is in no rule, but it is a line of the text, and quoted.
pub fn assert_policy_refused(printed: &str, number: u8, text: &[u8]) -> u64 {
    let Some(told) = printed.strip_prefix(&format!("refused {number} at line ")) else {
        return assert_refused(printed, Refusal::plain(number), None);
    };
    let line = told.split(':').next().and_then(|line| line.parse().ok()).expect("a line's number");
    assert_eq!(printed.lines().nth(1), Some(&format!("line: {}", quoted(text, line))[..]));
    u64::from(number)
}

/// What is told of a verdict; `else_by` where no rule decides.
pub fn path_lines(table: &[u8], verdict: PathVerdict, else_by: &str) -> String {
    let decided = verdict.rule.map_or(format!("{else_by}\n"), |rule| rule_lines(table, rule));
    format!("{}\n{decided}", action_word(verdict.action))
}

/// What is told of a tree verdict.
pub fn tree_lines(table: &[u8], verdict: TreeVerdict) -> String {
    match verdict {
        TreeVerdict::None => "NONE\n".into(),
        TreeVerdict::All => "ALL\n".into(),
        TreeVerdict::Mixed(rule) => format!("MIXED\n{}", rule_lines(table, rule)),
    }
}

/// What is told of an RPC verdict.
pub fn rpc_lines(policy: &[u8], verdict: RpcVerdict, else_by: &str) -> String {
    let named = |rule: u8| {
        let policy = read_policy(policy).expect("an accepted policy");
        let (list, rules) = match verdict.action {
            Action::Deny => ("deny_rules", policy.deny_rules),
            Action::Permit => ("allow_rules", policy.allow_rules),
        };
        let name = str::from_utf8(rules[usize::from(rule)].name).expect("bytes that print");
        format!("list {list}\nrule {rule}\nname {name}\n")
    };
    let decided = verdict.rule.map_or(format!("{else_by}\n"), named);
    format!("{}\n{decided}", action_word(verdict.action))
}

/// What is told of a record.
pub fn record_lines(record: &Record) -> String {
    let kind = if record.kind == 1 { "policy" } else { "table" };
    let rotation = if record.rotating == 0 { "off" } else { "on" };
    let length = |len| if len == NONE { "none".into() } else { u32::to_string(&len) };
    format!(
        "kind {kind}\nslot {}\nlive {}\nrotation {rotation}\ncandidate {}\n",
        record.live_slot,
        length(record.live_len),
        length(record.candidate_len)
    )
}

/// A rule's number and its id.
fn rule_lines(table: &[u8], rule: RuleNumber) -> String {
    let id = with_table(table, |table| table.rules[usize::from(rule.0)].id.to_vec()).expect("an accepted table");
    format!("rule {}\nid {}\n", rule.0, String::from_utf8(id).expect("bytes that print"))
}

fn action_word(action: Action) -> &'static str {
    match action {
        Action::Deny => "deny",
        Action::Permit => "permit",
    }
}
