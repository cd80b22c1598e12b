//! The command line on any files and words, beside the Rust implementation: what it prints
//! is tested, not proved. It takes the program that `tools/build.sh cli` builds.

use std::fs;
use std::os::unix::ffi::OsStrExt;
use std::path::Path;

use burgee_rust::command_line::{
    assert_policy_refused, assert_refused, burgee, burgee_saying, path_lines, rpc_lines, tree_lines,
};
use burgee_rust::generate::any::{
    any, Kind, HEADERS, IDENTITY, ORIGIN, PATH_BYTES, PATH_TEXT, POLICY, RPC_PATH, TABLE, USER,
};
use burgee_rust::generate::damage::damage;
use burgee_rust::path::{path_bytes, path_text};
use burgee_rust::policy::read_policy;
use burgee_rust::random::Random;
use burgee_rust::request::PathRequest;
use burgee_rust::rpc::{rpc_verdict, RpcRequest};
use burgee_rust::slip::slip_line;
use burgee_rust::table::{check_table, group_count};
use burgee_rust::tally::Tally;
use burgee_rust::verdict::{path_verdict, tree_verdict};

const ROUNDS: usize = 200;

/// A word has no NUL.
fn word(random: &mut Random, kind: &Kind) -> Vec<u8> {
    any(random, kind).into_iter().map(|byte| byte.max(1)).collect()
}

fn hex(bytes: &[u8]) -> String {
    bytes.iter().map(|byte| format!("{byte:02x}")).collect()
}

fn count_lines(text: &[u8], start: &[u8]) -> usize {
    text.split(|byte| *byte == b'\n').filter(|line| line.starts_with(start)).count()
}

#[test]
fn tables_are_checked_and_shown() {
    let (mut random, mut tally) = (Random::new(0x91), Tally::default());
    for _ in 0..ROUNDS {
        let text = any(&mut random, &TABLE);
        let (checked, shown) = (burgee(&[b"table", b"-"], &text), burgee(&[b"show", b"-"], &text));
        tally.count(match check_table(&text) {
            Ok(()) => {
                let [groups, members, rules] = [b"02", b"03", b"04"].map(|kind| count_lines(&text, kind));
                assert_eq!(checked, format!("accepted\ngroups {groups}\nmembers {members}\nrules {rules}\n"));
                assert_eq!(burgee(&[b"pack", b"-"], shown.as_bytes()).as_bytes(), text);
                0
            }
            Err(refusal) => {
                assert_eq!(shown, checked);
                assert_refused(&checked, refusal, Some(&text))
            }
        });
    }
    tally.assert_at_least(&[(0, ROUNDS / 4), (2, 10), (3, 3), (5, 3)]);
}

/// Readable text that is packed is what the packed table shows.
#[test]
fn readable_texts_are_packed() {
    let (mut random, mut packed, mut refused) = (Random::new(0x92), 0, 0);
    while packed + refused < ROUNDS {
        let table = any(&mut random, &TABLE);
        if check_table(&table).is_err() {
            continue;
        }
        let mut readable = burgee(&[b"show", b"-"], &table).into_bytes();
        damage(&mut random, &mut readable, b"[]\\ /\n=*aru0");
        let answer = burgee(&[b"pack", b"-"], &readable);
        if answer.starts_with("refused ") {
            refused += 1;
        } else {
            assert_eq!(burgee(&[b"show", b"-"], answer.as_bytes()).as_bytes(), readable);
            packed += 1;
        }
    }
    assert!(packed >= 10 && refused >= 10, "{packed} packed, {refused} refused");
}

#[test]
fn verdicts_are_told() {
    let (mut random, mut tally) = (Random::new(0x93), Tally::default());
    for _ in 0..ROUNDS {
        let table = any(&mut random, &TABLE);
        let [user, origin, path] = [USER, ORIGIN, PATH_TEXT].map(|kind| word(&mut random, &kind));
        let mode = random.between(1, 2) as u32;
        let mode_word: &[u8] = if mode == 1 { b"read" } else { b"write" };
        let said = slip_line(&table, &user);
        let ask = |command: &[u8]| burgee_saying(&said, &[command, b"-", &user, mode_word, &origin, &path], &table);
        let request = PathRequest { user: &user, mode, origin: &origin, path: &path };

        let (told, explained) = (ask(b"verdict"), ask(b"explain"));
        tally.count(match path_verdict(&table, &request) {
            Ok(verdict) => {
                assert_eq!(told, path_lines(&table, verdict, "default"));
                let first =
                    verdict.rule.map_or("no rule matches\n".into(), |rule| format!("1 decides: rule {}, ", rule.0));
                assert!(explained.starts_with(&format!("{told}{first}")), "{explained}");
                0
            }
            Err(refusal) => {
                assert_eq!(told, explained);
                assert_refused(&told, refusal, Some(&table))
            }
        });
        let told = ask(b"tree");
        match tree_verdict(&table, &request) {
            Ok(verdict) => assert_eq!(told, tree_lines(&table, verdict)),
            Err(refusal) => drop(assert_refused(&told, refusal, Some(&table))),
        }
    }
    tally.assert_at_least(&[(0, ROUNDS / 8), (2, 5), (20, 5), (21, 3), (22, 5)]);
}

#[test]
fn groups_are_told() {
    let (mut random, mut tally) = (Random::new(0x94), Tally::default());
    for _ in 0..ROUNDS {
        let (table, user) = (any(&mut random, &TABLE), word(&mut random, &USER));
        let told = burgee_saying(&slip_line(&table, &user), &[b"groups", b"-", &user], &table);
        tally.count(match group_count(&table, &user) {
            Ok(groups) => {
                let mut lines = told.lines();
                assert_eq!(lines.next(), Some(&format!("groups {}", groups.count)[..]));
                let rest: Vec<&str> = lines.collect();
                assert_eq!(rest.len(), usize::from(groups.count));
                if let Some(first) = groups.first {
                    assert!(rest[0].starts_with(&format!("group {} ", first.0)), "{told}");
                }
                0
            }
            Err(refusal) => assert_refused(&told, refusal, Some(&table)),
        });
    }
    tally.assert_at_least(&[(0, ROUNDS / 4), (2, 5), (20, 5)]);
}

#[test]
fn policies_are_checked_and_asked() {
    let (mut random, mut tally) = (Random::new(0x95), Tally::default());
    let file = Path::new(env!("CARGO_TARGET_TMPDIR")).join("policy");
    for _ in 0..ROUNDS {
        let policy = any(&mut random, &POLICY);
        let told = burgee(&[b"policy", b"-"], &policy);
        match read_policy(&policy) {
            Ok(policy) => {
                let [deny, allow] = [policy.deny_rules, policy.allow_rules].map(|rules| rules.len());
                assert_eq!(told, format!("accepted\ndeny_rules {deny}\nallow_rules {allow}\n"));
            }
            Err(refusal) => drop(assert_policy_refused(&told, refusal.number, &policy)),
        }

        fs::write(&file, &policy).expect("a file");
        let [identity, path] = [IDENTITY, RPC_PATH].map(|kind| word(&mut random, &kind));
        let headers = any(&mut random, &HEADERS);
        let told = burgee(&[b"rpc", file.as_os_str().as_bytes(), &identity, &path, b"-"], &headers);
        let request = RpcRequest { identity: &identity, path: &path, headers: &headers };
        tally.count(match rpc_verdict(&policy, &request) {
            Ok(verdict) => {
                assert_eq!(told, rpc_lines(&policy, verdict, "default"));
                0
            }
            Err(refusal) => assert_policy_refused(&told, refusal.number, &policy),
        });
    }
    tally.assert_at_least(&[(0, ROUNDS / 8), (31, 5), (40, 5), (41, 5)]);
}

#[test]
fn paths_are_read_and_written() {
    let (mut random, mut tally) = (Random::new(0x96), Tally::default());
    for _ in 0..ROUNDS {
        let text = word(&mut random, &PATH_TEXT);
        let told = burgee(&[b"path", b"read", &text], b"");
        tally.count(match path_bytes(&text) {
            Ok(bytes) => {
                assert_eq!(told, hex(&bytes) + "\n");
                0
            }
            Err(refusal) => assert_refused(&told, refusal, None),
        });
        let bytes = any(&mut random, &PATH_BYTES);
        if bytes.is_empty() {
            continue;
        }
        let told = burgee(&[b"path", b"write", hex(&bytes).as_bytes()], b"");
        tally.count(match path_text(&bytes) {
            Ok(text) => {
                assert_eq!(told, String::from_utf8(text).expect("bytes that print") + "\n");
                0
            }
            Err(refusal) => assert_refused(&told, refusal, None),
        });
    }
    tally.assert_at_least(&[(0, ROUNDS / 2), (22, ROUNDS / 8)]);
}
