//! Each public call of the proved library on the same input as the Rust one: the answer
//! and every lent byte are compared, with the slices lent at each edge of memory.

use crate::boundary::{path, policy, rpc, season, table, verdict};
use crate::lent::{lend, Lent, EDGES};
use crate::path::{read_path_text, write_path_text};
use crate::refusal::Refusal;
use crate::request::PathRequest;
use crate::rpc::RpcRequest;
use crate::word;

/// Path text to path bytes: the answer and what was filled.
pub fn path_read(text: &[u8], room: usize) -> (u64, Vec<u8>) {
    filled([text], room, |[text], out| read_path_text(text, out), |[text], out| path::path_read(text, out))
}

/// Path bytes to path text, likewise.
pub fn path_write(bytes: &[u8], room: usize) -> (u64, Vec<u8>) {
    filled([bytes], room, |[bytes], out| write_path_text(bytes, out), |[bytes], out| path::path_write(bytes, out))
}

pub fn table_check(table: &[u8]) -> u64 {
    let answer = word::checked(crate::table::check_table(table));
    answered([table], answer, |[table]| table::table_check(table))
}

pub fn group_count(table: &[u8], user: &[u8]) -> u64 {
    let answer = word::group_count(crate::table::group_count(table, user));
    answered([table, user], answer, |[table, user]| table::group_count(table, user))
}

pub fn path_verdict(table: &[u8], request: &PathRequest) -> u64 {
    let answer = word::path_verdict(crate::verdict::path_verdict(table, request));
    asked(table, request, answer, verdict::path_verdict)
}

pub fn tree_verdict(table: &[u8], request: &PathRequest) -> u64 {
    let answer = word::tree_verdict(crate::verdict::tree_verdict(table, request));
    asked(table, request, answer, verdict::tree_verdict)
}

/// The season report: the answer and what was filled.
pub fn season_report(table: &[u8], log: &[u8], room: usize) -> (u64, Vec<u8>) {
    filled(
        [table, log],
        room,
        |[table, log], out| crate::season::season_report(table, log, out),
        |[table, log], out| season::season_report(table, log, out),
    )
}

pub fn policy_check(policy: &[u8]) -> u64 {
    let answer = word::checked(crate::policy::check_policy(policy));
    answered([policy], answer, |[policy]| policy::policy_check(policy))
}

pub fn rpc_verdict(policy: &[u8], request: &RpcRequest) -> u64 {
    let answer = word::rpc_verdict(crate::rpc::rpc_verdict(policy, request));
    answered([policy, request.identity, request.path, request.headers], answer, |[policy, identity, path, headers]| {
        rpc::rpc_verdict(policy, &RpcRequest { identity, path, headers })
    })
}

fn asked(table: &[u8], request: &PathRequest, answer: u64, proved: fn(&[u8], &PathRequest) -> u64) -> u64 {
    let mode = request.mode;
    answered([table, request.user, request.origin, request.path], answer, |[table, user, origin, path]| {
        proved(table, &PathRequest { user, mode, origin, path })
    })
}

/// Compares the answer of the proved call with this one.
fn answered<const N: usize>(inputs: [&[u8]; N], answer: u64, proved: impl Fn([&[u8]; N]) -> u64) -> u64 {
    for edge in EDGES {
        let theirs = lend(inputs, edge, &proved);
        assert_eq!(theirs, answer, "answer {theirs:#x}, not {answer:#x}, on\n{}", shown(&inputs));
    }
    answer
}

/// Compares the answer of the proved call with the one written here, and what each filled of as much room.
fn filled<const N: usize>(
    inputs: [&[u8]; N],
    room: usize,
    written: impl Fn([&[u8]; N], &mut [u8]) -> Result<usize, Refusal>,
    proved: impl Fn([&[u8]; N], &mut [u8]) -> u64,
) -> (u64, Vec<u8>) {
    let mut ours = vec![0; room];
    let answer = word::filled(written(inputs, &mut ours));
    ours.truncate(if word::refusal_number(answer) == 0 { word::length(answer) } else { 0 });
    for edge in EDGES {
        let mut lent = Lent::new(room, edge);
        let theirs = lend(inputs, edge, |inputs| proved(inputs, lent.slice_mut()));
        assert_eq!(theirs, answer, "answer {theirs:#x}, not {answer:#x}, with {room} bytes on\n{}", shown(&inputs));
        lent.assert_filled(&ours);
    }
    (answer, ours)
}

/// The inputs one a line, a text with its lines, none of them too long.
fn shown(inputs: &[&[u8]]) -> String {
    let shown = |input: &&[u8]| {
        let text = input.escape_ascii().to_string().replace("\\n", "\n");
        text.chars().take(4_000).collect::<String>()
    };
    inputs.iter().map(shown).collect::<Vec<_>>().join("\n---\n")
}
