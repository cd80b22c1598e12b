//! How much stack each public call takes, on full inputs: measured on a painted stack, and compared with what
//! `docs/DAEMON.md` says and with the budget of `CONTRIBUTING.md`.

use std::collections::BTreeMap;

use burgee_rust::boundary::declared_calls;
use burgee_rust::generate::log::LogLine;
use burgee_rust::generate::path::longest_path;
use burgee_rust::generate::policy::{
    list_of_objects, many_header_lines, nested_object, object_of_members, policy_of_headers, policy_of_length, Names,
};
use burgee_rust::generate::table::{
    table_of_colliding_groups, table_of_colliding_ids, table_of_colliding_members, table_of_length, table_of_members,
};
use burgee_rust::generate::worst_log::worst_logs;
use burgee_rust::generate::worst_tree::worst_trees;
use burgee_rust::generate::yard::{log_of_strangers, yard_log, yard_table};
use burgee_rust::limits;
use burgee_rust::painted_stack::{Function, PaintedStack};
use burgee_rust::random::Random;
use burgee_rust::rotation::{Record, NONE};
use burgee_rust::word::{length, refusal_number};

macro_rules! exported {
    ($($function:ident)*) => {
        extern "C" {
            $(fn $function();)*
        }
        const EXPORTED: &[(&str, Function)] = &[$((stringify!($function), $function)),*];
    };
}

exported! {
    burgee_path_read burgee_path_write burgee_table_check burgee_group_count burgee_path_verdict burgee_tree_verdict
    burgee_policy_check burgee_rpc_verdict burgee_start burgee_upload burgee_finalize burgee_close burgee_probe_path
    burgee_probe_tree burgee_probe_rpc burgee_season_report
}

/// What is to be left for a thread and its functions, in KB, where a call takes its whole budget.
const OF_A_THREAD: usize = 32;

/// Of each call the most that it took.
struct Peaks {
    stack: PaintedStack,
    peaks: BTreeMap<&'static str, usize>,
}

impl Peaks {
    fn call(&mut self, name: &str, arguments: &[&[u64]]) -> u64 {
        let (name, function) = EXPORTED.iter().find(|(exported, _)| *exported == name).expect("an exported call");
        // SAFETY: the arguments are those of the header, in its order, and borrowed until after the call.
        let (answer, depth) = unsafe { self.stack.call(*function, &arguments.concat()) };
        let peak = self.peaks.entry(name).or_default();
        *peak = depth.max(*peak);
        answer
    }
}

fn slice(bytes: &[u8]) -> [u64; 2] {
    [bytes.as_ptr() as u64, bytes.len() as u64]
}

fn buffer(bytes: &mut [u8]) -> [u64; 2] {
    [bytes.as_mut_ptr() as u64, bytes.len() as u64]
}

fn lent(record: &mut Record) -> [u64; 1] {
    [record as *mut Record as u64]
}

fn numbers(record: &Record) -> [u64; 5] {
    [record.kind, record.live_slot, record.live_len, record.rotating, record.candidate_len].map(u64::from)
}

/// Tables with which a table is loaded, compared and judged in full.
fn tables() -> Vec<Vec<u8>> {
    let mut tables = vec![
        table_of_length(&mut Random::new(0x81), limits::TABLE_TEXT, 160),
        table_of_members(64, 512),
        table_of_colliding_groups("common-", limits::GROUPS, limits::MEMBERS),
        table_of_colliding_members("common-", limits::MEMBERS, true),
        table_of_colliding_ids("common-", limits::RULES),
    ];
    tables.extend(worst_trees().into_iter().map(|worst| worst.table));
    tables
}

/// Good policies, and others of every depth.
fn policies() -> Vec<Vec<u8>> {
    let mut policies = vec![
        policy_of_length(limits::POLICY_TEXT),
        policy_of_headers(),
        nested_object(limits::POLICY_TEXT, limits::JSON_DEPTH),
        object_of_members(limits::POLICY_TEXT, Names::Falling),
        list_of_objects(limits::POLICY_TEXT),
    ];
    for (open, close, levels) in [("[", "]", 1), ("{\"a\":", "}", 1), ("{\"a\":[", "]}", 2), ("[{\"a\":", "}]", 2)] {
        for times in [limits::JSON_DEPTH / levels, limits::JSON_DEPTH / levels + 1] {
            policies.push([open.repeat(times), "1".into(), close.repeat(times)].concat().into_bytes());
        }
        // Where a policy has a value of a header, its deepest string.
        let inside = [open.repeat(9 / levels), "1".into(), close.repeat(9 / levels)].concat();
        for value in [inside.as_str(), "\"a\\n\"", "\"a*b\"", "\"*\"", "\"a\",\"*b\",\"c*\""] {
            let headers = format!(r#"[{{"key":"k","values":[{value}]}}]"#);
            let rules = format!(r#"[{{"name":"r","request":{{"headers":{headers}}}}}]"#);
            policies.push(format!(r#"{{"name":"p","deny_rules":{rules},"allow_rules":{rules}}}"#).into_bytes());
        }
    }
    policies
}

fn on_paths(to: &mut Peaks) {
    let (mut bytes, mut text) = (vec![0; limits::PATH_BYTES], vec![0; limits::PATH_TEXT]);
    let longest = longest_path().text();
    let read = to.call("burgee_path_read", &[&slice(&longest), &buffer(&mut bytes)]);
    assert_eq!(length(read), limits::PATH_BYTES);
    let written = to.call("burgee_path_write", &[&slice(&bytes), &buffer(&mut text)]);
    assert_eq!(length(written), limits::PATH_TEXT);
}

fn on_tables(to: &mut Peaks, store: &mut [u8]) {
    let longest = longest_path().text();
    for table in tables() {
        assert_eq!(to.call("burgee_table_check", &[&slice(&table)]), 0);
        assert_eq!(refusal_number(to.call("burgee_group_count", &[&slice(&table), &slice(b"u")])), 0);
        let mut record = Record::factory(2);
        rotate(to, &mut record, store, &table, 0);
        for path in [&longest[..], b"/"] {
            let request: &[u64] = &[&slice(b"u")[..], &[1], &slice(b""), &slice(path)].concat();
            for (verdict, probe) in
                [("burgee_path_verdict", "burgee_probe_path"), ("burgee_tree_verdict", "burgee_probe_tree")]
            {
                let answer = to.call(verdict, &[&slice(&table), request]);
                assert_eq!(refusal_number(answer), 0);
                assert_eq!(to.call(probe, &[&numbers(&record), &slice(store), request]), answer);
            }
        }
    }
}

/// A log with the longest line, with lines that are to be compared with every rule, and with those of a yard; then with
/// one more that is bad.
fn on_logs(to: &mut Peaks) {
    let (mut random, mut out) = (Random::new(0x82), vec![0; limits::REPORT]);
    let mut log: Vec<u8> = worst_logs().into_iter().flat_map(|worst| worst.line).collect();
    log.extend(LogLine::read("u", longest_path()).text());
    log.extend(yard_log(&mut random, 100, 5));
    log.extend(log_of_strangers(&mut random, 10));
    for table in tables().into_iter().chain([yard_table()]) {
        let answer = to.call("burgee_season_report", &[&slice(&table), &slice(&log), &buffer(&mut out)]);
        assert_eq!(refusal_number(answer), 0);
        let log = [&log[..], b"\n"].concat();
        let answer = to.call("burgee_season_report", &[&slice(&table), &slice(&log), &buffer(&mut out)]);
        assert_eq!(refusal_number(answer), 51);
    }
}

fn on_policies(to: &mut Peaks, store: &mut [u8]) {
    let headers = many_header_lines();
    for policy in policies() {
        let refusal = to.call("burgee_policy_check", &[&slice(&policy)]);
        let mut record = Record::factory(1);
        rotate(to, &mut record, store, &policy, refusal);
        let request: &[u64] = &[slice(&[b'i'; 256]), slice(&[b'p'; 256]), slice(&headers)].concat();
        let answer = to.call("burgee_rpc_verdict", &[&slice(&policy), request]);
        if refusal == 0 {
            assert_eq!(to.call("burgee_probe_rpc", &[&numbers(&record), &slice(store), request]), answer);
        } else {
            assert_eq!(answer, refusal);
            // A store that holds what no upload would have stored.
            store[..policy.len()].copy_from_slice(&policy);
            let record = Record { live_len: policy.len() as u32, ..Record::factory(1) };
            assert_eq!(to.call("burgee_probe_rpc", &[&numbers(&record), &slice(store), request]), refusal);
        }
    }
}

/// Start, upload, and finalize or, where the upload is refused, close.
fn rotate(to: &mut Peaks, record: &mut Record, store: &mut [u8], text: &[u8], refusal: u64) {
    assert_eq!(to.call("burgee_start", &[&lent(record), &slice(store)]), 0);
    assert_eq!(to.call("burgee_upload", &[&lent(record), &buffer(store), &slice(text)]), refusal);
    let end = if refusal == 0 { "burgee_finalize" } else { "burgee_close" };
    assert_eq!(to.call(end, &[&lent(record), &slice(store)]), 0);
    assert_eq!(record.live_len, if refusal == 0 { text.len() as u32 } else { NONE });
}

/// The KB that the table of `docs/DAEMON.md` says: rows of names in backticks, and a number.
fn documented() -> BTreeMap<&'static str, usize> {
    let mut said = BTreeMap::new();
    let document = include_str!("../../docs/DAEMON.md");
    let table = document.lines().skip_while(|line| *line != "| call | stack, KB |").skip(2);
    for row in table.take_while(|line| line.starts_with('|')) {
        let (names, number) = row.trim_matches(['|', ' ']).split_once(" | ").expect("two columns");
        let number = number.parse().expect("a number");
        said.extend(names.split('`').filter(|name| name.starts_with("burgee_")).map(|name| (name, number)));
    }
    said
}

/// The number that follows these words in a document.
fn number_after(document: &str, words: &str) -> usize {
    let (_, after) = document.split_once(words).expect("a sentence of the document");
    let number = after.split(' ').next().expect("a word").replace(',', "");
    number.parse().expect("a number")
}

#[test]
fn the_stack_of_each_call() {
    let mut to = Peaks { stack: PaintedStack::default(), peaks: BTreeMap::new() };
    let mut store = vec![0; 2 * limits::SLOT];
    on_paths(&mut to);
    on_tables(&mut to, &mut store);
    on_logs(&mut to);
    on_policies(&mut to, &mut store);

    let mut declared: Vec<String> = declared_calls().iter().map(|name| format!("burgee_{name}")).collect();
    declared.sort();
    assert_eq!(to.peaks.keys().copied().collect::<Vec<_>>(), declared, "calls that were measured");

    for (name, peak) in &to.peaks {
        println!("{name}: {peak} bytes");
    }
    let (daemon, decisions) = (include_str!("../../docs/DAEMON.md"), include_str!("../../docs/DECISIONS.md"));
    let budget = number_after(include_str!("../../CONTRIBUTING.md"), "| the stack of an exported call | ");
    let measured: BTreeMap<&str, usize> = to.peaks.iter().map(|(name, peak)| (*name, peak.div_ceil(1024))).collect();
    assert!(measured.values().all(|peak| *peak <= budget), "over the budget of {budget} KB: {measured:?}");
    assert_eq!(measured, documented(), "measured, and in the table of docs/DAEMON.md");
    assert_eq!(to.peaks["burgee_upload"], number_after(daemon, "An upload takes "));
    assert_eq!(to.peaks["burgee_season_report"], number_after(daemon, "and a season report "));
    assert_eq!(to.peaks["burgee_upload"], number_after(decisions, "an upload takes "));

    assert_eq!(number_after(daemon, "The calls may come to take "), budget);
    let thread = number_after(daemon, "Give a thread that calls a stack of at least ");
    assert!(budget + OF_A_THREAD <= thread, "{thread} KB are not enough for a thread");
}
