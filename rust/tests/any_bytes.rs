//! Every public call with any bytes: it answers as the Rust one does and touches nothing
//! outside what it is lent. A short run each time; for a longer one say for how many
//! seconds, and from which seed:
//!
//! ```sh
//! BURGEE_FUZZ_SECONDS=600 BURGEE_FUZZ_SEED=7 cargo test --release --test any_bytes
//! ```

use std::env;
use std::ops::RangeInclusive;
use std::time::{Duration, Instant};

use burgee_rust::boundary::declared_calls;
use burgee_rust::compare;
use burgee_rust::generate::any::{
    any, any_mode, any_room, HEADERS, IDENTITY, LOG, ORIGIN, PATH_BYTES, PATH_TEXT, POLICY, RPC_PATH, TABLE, USER,
};
use burgee_rust::generate::policy::Rpc;
use burgee_rust::generate::rotation::{some_record, spoil_record, Ask, Call};
use burgee_rust::hosts::Hosts;
use burgee_rust::lent::EDGES;
use burgee_rust::limits::{LOG_LINES, REPORT, SLOT};
use burgee_rust::path::{path_bytes, path_text};
use burgee_rust::random::Random;
use burgee_rust::request::PathRequest;
use burgee_rust::season;
use burgee_rust::tally::Tally;

/// The kinds of record, for a step, for a probe of a policy and for one of a table.
const EITHER: &[u32] = &[1, 2];
const MOSTLY_POLICY: &[u32] = &[1, 1, 1, 1, 1, 2];
const MOSTLY_TABLE: &[u32] = &[2, 2, 2, 2, 2, 1];

/// How often each call is made in the short run.
const ROUNDS: usize = 6_000;

/// The shortest good line of a log.
const SHORT_LINE: &[u8] = b"0101750000\n";

struct Target {
    name: &'static str,
    call: fn(&mut Random) -> u64,
    /// The numbers with which it refuses.
    refusals: &'static [RangeInclusive<u8>],
}

const TARGETS: [Target; 16] = [
    Target { name: "path_read", call: path_read, refusals: &[22..=23] },
    Target { name: "path_write", call: path_write, refusals: &[22..=23] },
    Target { name: "table_check", call: |random| compare::table_check(&any(random, &TABLE)), refusals: &[1..=9] },
    Target {
        name: "group_count",
        call: |random| compare::group_count(&any(random, &TABLE), &any(random, &USER)),
        refusals: &[1..=9, 20..=20],
    },
    Target { name: "path_verdict", call: |random| verdict(random, compare::path_verdict), refusals: &[1..=9, 20..=22] },
    Target { name: "tree_verdict", call: |random| verdict(random, compare::tree_verdict), refusals: &[1..=9, 20..=22] },
    Target { name: "season_report", call: season_report, refusals: &[1..=9, 23..=23, 50..=51] },
    Target { name: "policy_check", call: |random| compare::policy_check(&any(random, &POLICY)), refusals: &[30..=38] },
    Target { name: "rpc_verdict", call: rpc_verdict, refusals: &[30..=38, 40..=41] },
    Target {
        name: "start",
        call: |random| on_a_host(random, EITHER, |_, _| Call::Start),
        refusals: &[11..=12, 15..=15],
    },
    Target {
        name: "upload",
        call: |random| on_a_host(random, EITHER, any_upload),
        refusals: &[1..=9, 11..=11, 13..=13, 15..=15, 30..=38],
    },
    Target {
        name: "finalize",
        call: |random| on_a_host(random, EITHER, |_, _| Call::Finalize),
        refusals: &[11..=11, 13..=15],
    },
    Target {
        name: "close",
        call: |random| on_a_host(random, EITHER, |_, _| Call::Close),
        refusals: &[11..=11, 13..=13, 15..=15],
    },
    Target {
        name: "probe_path",
        call: |random| on_a_host(random, MOSTLY_TABLE, |random, _| Call::ProbePath(any_ask(random))),
        refusals: &[2..=9, 11..=11, 15..=16, 20..=22],
    },
    Target {
        name: "probe_tree",
        call: |random| on_a_host(random, MOSTLY_TABLE, |random, _| Call::ProbeTree(any_ask(random))),
        refusals: &[2..=9, 11..=11, 15..=16, 20..=22],
    },
    Target {
        name: "probe_rpc",
        call: |random| on_a_host(random, MOSTLY_POLICY, |random, _| Call::ProbeRpc(any_rpc(random))),
        refusals: &[11..=11, 15..=16, 30..=38, 40..=41],
    },
];

fn path_read(random: &mut Random) -> u64 {
    let text = any(random, &PATH_TEXT);
    let room = any_room(random, path_bytes(&text).map_or(text.len(), |bytes| bytes.len()));
    compare::path_read(&text, room).0
}

fn path_write(random: &mut Random) -> u64 {
    let bytes = any(random, &PATH_BYTES);
    let room = any_room(random, path_text(&bytes).map_or(bytes.len(), |text| text.len()));
    compare::path_write(&bytes, room).0
}

fn any_ask(random: &mut Random) -> Ask {
    Ask {
        user: any(random, &USER),
        mode: any_mode(random),
        origin: any(random, &ORIGIN),
        path: any(random, &PATH_TEXT),
    }
}

fn any_rpc(random: &mut Random) -> Rpc {
    Rpc { identity: any(random, &IDENTITY), path: any(random, &RPC_PATH), headers: any(random, &HEADERS) }
}

fn verdict(random: &mut Random, compare: fn(&[u8], &PathRequest) -> u64) -> u64 {
    compare(&any(random, &TABLE), &any_ask(random).request())
}

/// Now and then with a line too many, each of them good.
fn season_report(random: &mut Random) -> u64 {
    let table = any(random, &TABLE);
    let log = if random.one_in(1_500) { SHORT_LINE.repeat(LOG_LINES + 1) } else { any(random, &LOG) };
    let mut out = [0; REPORT];
    let report = season::season_report(&table, &log, &mut out);
    compare::season_report(&table, &log, any_room(random, report.unwrap_or(REPORT))).0
}

fn rpc_verdict(random: &mut Random) -> u64 {
    compare::rpc_verdict(&any(random, &POLICY), &any_rpc(random).request())
}

/// Any record and store, one of them at fault now and then.
fn on_a_host(random: &mut Random, kinds: &[u32], call: fn(&mut Random, u32) -> Call) -> u64 {
    let mut store = vec![random.byte(); 2 * SLOT];
    let kind = *random.pick(kinds);
    let mut record = some_record(random, kind, &mut store);
    if random.one_in(8) {
        spoil_record(random, &mut record);
    }
    if random.one_in(8) {
        store.resize(*random.pick(&[2 * SLOT + 1, 2 * SLOT - 1, SLOT, 0]), 0xEE);
    }
    Hosts::new(record, store, *random.pick(&EDGES)).call(&call(random, kind))
}

/// A text for a record of this kind, now and then of the other.
fn any_upload(random: &mut Random, kind: u32) -> Call {
    let is_policy = (kind == 1) != random.one_in(8);
    Call::Upload(any(random, if is_policy { &POLICY } else { &TABLE }))
}

fn setting(name: &str) -> Option<u64> {
    env::var(name).ok().map(|value| value.parse().expect("a number"))
}

#[test]
fn every_declared_call_is_a_target() {
    assert_eq!(TARGETS.map(|target| target.name)[..], declared_calls());
}

/// Each call accepts, and refuses with each of its numbers, and with no other.
#[test]
fn any_bytes_to_every_call() {
    let mut random = Random::new(setting("BURGEE_FUZZ_SEED").unwrap_or(0x61));
    let (start, time) = (Instant::now(), setting("BURGEE_FUZZ_SECONDS").map(Duration::from_secs));
    let mut made = 0;
    let mut tallies: [Tally; TARGETS.len()] = Default::default();
    while time.map_or(made < ROUNDS, |time| start.elapsed() < time) {
        for (target, tally) in TARGETS.iter().zip(&mut tallies) {
            tally.count((target.call)(&mut random));
        }
        made += 1;
    }
    for (target, tally) in TARGETS.iter().zip(tallies) {
        println!("{}: {made} calls, {} accepted", target.name, tally.of(0));
        if made >= ROUNDS {
            let numbers: Vec<u8> = [0].into_iter().chain(target.refusals.iter().cloned().flatten()).collect();
            assert_eq!(tally.numbers(), numbers, "the numbers of {}", target.name);
            assert!(tally.of(0) >= made / 8, "{} accepts too rarely", target.name);
        }
    }
}
