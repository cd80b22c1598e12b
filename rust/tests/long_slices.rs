//! Slices of more than 4 GB: a call that kept only 32 bits of a length would take the good
//! bytes at their start for all of them. No memory stands behind the rest, which reads as 0.

use burgee_rust::boundary::{path, policy, rotation, rpc, season, table, verdict};
use burgee_rust::limits;
use burgee_rust::pages;
use burgee_rust::request::PathRequest;
use burgee_rust::rotation::Record;
use burgee_rust::rpc::RpcRequest;
use burgee_rust::vectors::{EXAMPLES_E_TO_K, POLICY_OF_NOBODY, SEASON_LOG};
use burgee_rust::word;

fn long(bytes: &[u8]) -> &'static mut [u8] {
    pages::long(bytes, (1 << 32) + bytes.len())
}

#[test]
fn paths() {
    let (text, mut bytes) = (b"/a", [0; 100]);
    let read = path::path_read(text, &mut bytes);
    let bytes = &bytes[..word::length(read)];
    assert_eq!(path::path_read(long(text), &mut [0; 100]), 22);
    assert_eq!(path::path_write(long(bytes), &mut [0; 100]), 22);
    assert_eq!(path::path_read(text, long(b"")), read);
    assert_eq!(word::length(path::path_write(bytes, long(b""))), text.len());
}

#[test]
fn tables() {
    let table = EXAMPLES_E_TO_K.as_bytes();
    assert_eq!(table::table_check(long(table)), 1);
    assert_eq!(table::group_count(long(table), b"u"), 1);
    assert_eq!(table::group_count(table, long(b"u")), 20);
    let good = PathRequest { user: b"u", mode: 1, origin: b"", path: b"/a" };
    for call in [verdict::path_verdict, verdict::tree_verdict] {
        assert_eq!(word::refusal_number(call(table, &good)), 0);
        assert_eq!(call(long(table), &good), 1);
        assert_eq!(call(table, &PathRequest { user: long(b"u"), ..good }), 20);
        assert_eq!(call(table, &PathRequest { origin: long(b""), ..good }), 21);
        assert_eq!(call(table, &PathRequest { path: long(b"/a"), ..good }), 22);
    }
}

/// The zeros behind a log are its next line, which is bad at its first byte or where it gets too long: a call that
/// looked for the end of the line first would read all 4 GB.
#[test]
fn logs() {
    let (table, log, mut out) = (EXAMPLES_E_TO_K.as_bytes(), SEASON_LOG.as_bytes(), [0; limits::REPORT]);
    let bad = |line: u64| 51 | line << 8;
    let report = season::season_report(table, log, &mut out);
    assert_eq!(word::refusal_number(report), 0);
    assert_eq!(season::season_report(long(table), log, &mut out), 1);
    assert_eq!(season::season_report(table, long(b""), &mut out), bad(1));
    assert_eq!(season::season_report(table, long(log), &mut out), bad(2));
    assert_eq!(season::season_report(table, long(&log.repeat(2_000)), &mut out), bad(2_001));
    assert_eq!(season::season_report(table, long(&log[..log.len() - 1]), &mut out), bad(1));
    assert_eq!(season::season_report(table, long(&[b'0'; 60_000]), &mut out), bad(1));
    let room = long(b"");
    assert_eq!(season::season_report(table, log, room), report);
    assert_eq!(room[..word::length(report)], out[..word::length(report)]);
}

#[test]
fn policies() {
    let policy = POLICY_OF_NOBODY.as_bytes();
    assert_eq!(policy::policy_check(long(policy)), 30);
    let good = RpcRequest { identity: b"i", path: b"/p", headers: b"k:v\n" };
    assert_eq!(rpc::rpc_verdict(policy, &good), 0);
    assert_eq!(rpc::rpc_verdict(long(policy), &good), 30);
    assert_eq!(rpc::rpc_verdict(policy, &RpcRequest { identity: long(b"i"), ..good }), 40);
    assert_eq!(rpc::rpc_verdict(policy, &RpcRequest { path: long(b"/p"), ..good }), 40);
    assert_eq!(rpc::rpc_verdict(policy, &RpcRequest { headers: long(b"k:v\n"), ..good }), 41);
}

#[test]
fn rotations() {
    let ask = PathRequest { user: b"u", mode: 1, origin: b"", path: b"/a" };
    let client = RpcRequest { identity: b"", path: b"", headers: b"" };
    for (kind, text, number) in [(1, POLICY_OF_NOBODY.as_bytes(), 30), (2, EXAMPLES_E_TO_K.as_bytes(), 1)] {
        let mut record = Record::factory(kind);
        let store = long(b"");
        assert_eq!(rotation::start(&mut record, store), 0);
        assert_eq!(rotation::upload(&mut record, store, long(text)), number);
        assert_eq!(rotation::upload(&mut record, store, text), 0);
        assert_eq!(store[..text.len()], *text);
        let is_table = kind == 2;
        assert_eq!(word::refusal_number(rotation::probe_path(&record, store, &ask)), if is_table { 0 } else { 16 });
        assert_eq!(word::refusal_number(rotation::probe_tree(&record, store, &ask)), if is_table { 0 } else { 16 });
        assert_eq!(word::refusal_number(rotation::probe_rpc(&record, store, &client)), if is_table { 16 } else { 0 });
        assert_eq!(rotation::finalize(&mut record, store), 0);
        assert_eq!(rotation::start(&mut record, store), 0);
        assert_eq!(rotation::close(&mut record, store), 0);
    }
}
