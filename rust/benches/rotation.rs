//! The calls on the rotation record: the speed of the two implementations.

use std::hint::black_box;

use burgee_rust::boundary::rotation as proved;
use burgee_rust::generate::policy::policy_of_length;
use burgee_rust::generate::table::{table_of_length, table_of_rules};
use burgee_rust::limits::{POLICY_TEXT, SLOT, TABLE_TEXT};
use burgee_rust::measure::Table;
use burgee_rust::random::Random;
use burgee_rust::request::PathRequest;
use burgee_rust::rotation::{self, Record};
use burgee_rust::rpc::RpcRequest;
use burgee_rust::word;

fn main() {
    let mut random = Random::new(0xB5);
    let policies = [470, POLICY_TEXT].map(policy_of_length);
    let tables = [table_of_rules(&mut random, 10, 39), table_of_length(&mut random, TABLE_TEXT, 160)];

    let printed = Table::new("Steps of a rotation");
    steps(&printed);
    for text in &policies {
        upload(&printed, 1, &format!("upload of a policy, {} bytes", text.len()), text);
    }
    for text in &tables {
        upload(&printed, 2, &format!("upload of a table, {} bytes", text.len()), text);
    }

    let printed = Table::new("Probes");
    for text in &policies {
        probe_rpc(&printed, text);
    }
    for text in &tables {
        probe_table(&printed, text);
    }
}

/// A record of a rotation that is on.
fn rotating(kind: u32) -> Record {
    Record { rotating: 1, ..Record::factory(kind) }
}

/// A store with the text in its first slot, and a record that says it is live.
fn live(kind: u32, text: &[u8]) -> (Record, Vec<u8>) {
    let mut store = vec![0; 2 * SLOT];
    store[..text.len()].copy_from_slice(text);
    (Record { live_len: text.len() as u32, ..Record::factory(kind) }, store)
}

fn steps(printed: &Table) {
    let (mut theirs, ours) = (vec![0; 2 * SLOT], vec![0; 2 * SLOT]);
    let candidate = Record { candidate_len: 25, ..rotating(2) };
    printed.row(
        "start",
        || proved::start(&mut black_box(Record::factory(2)), &mut theirs),
        || word::checked(rotation::start(&mut black_box(Record::factory(2)), &ours)),
    );
    printed.row(
        "finalize",
        || proved::finalize(&mut black_box(candidate), &mut theirs),
        || word::checked(rotation::finalize(&mut black_box(candidate), &ours)),
    );
    printed.row(
        "close",
        || proved::close(&mut black_box(candidate), &mut theirs),
        || word::checked(rotation::close(&mut black_box(candidate), &ours)),
    );
}

fn upload(printed: &Table, kind: u32, name: &str, text: &[u8]) {
    let (mut theirs, mut ours) = (vec![0; 2 * SLOT], vec![0; 2 * SLOT]);
    printed.row(
        name,
        || proved::upload(&mut rotating(kind), &mut theirs, black_box(text)),
        || word::checked(rotation::upload(&mut rotating(kind), &mut ours, black_box(text))),
    );
}

fn probe_rpc(printed: &Table, text: &[u8]) {
    let (record, mut store) = live(1, text);
    let ours = store.clone();
    let request = RpcRequest { identity: b"nobody", path: b"/gnmi.gNMI/Get", headers: b"" };
    printed.row(
        &format!("RPC on a policy, {} bytes", text.len()),
        || proved::probe_rpc(black_box(&record), &mut store, &request),
        || word::rpc_verdict(rotation::probe_rpc(black_box(&record), &ours, &request)),
    );
}

fn probe_table(printed: &Table, text: &[u8]) {
    let (record, mut store) = live(2, text);
    let ours = store.clone();
    let request = PathRequest { user: b"u", mode: 1, origin: b"", path: b"/interfaces/interface[name=x]" };
    printed.row(
        &format!("path on a table, {} bytes", text.len()),
        || proved::probe_path(black_box(&record), &mut store, &request),
        || word::path_verdict(rotation::probe_path(black_box(&record), &ours, &request)),
    );
    printed.row(
        &format!("tree on a table, {} bytes", text.len()),
        || proved::probe_tree(black_box(&record), &mut store, &request),
        || word::tree_verdict(rotation::probe_tree(black_box(&record), &ours, &request)),
    );
}
