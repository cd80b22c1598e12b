//! A host twice, each with its record and store: one is changed by the proved calls and
//! one by the Rust ones, and they are compared byte for byte after each call.

use crate::boundary::rotation as proved;
use crate::generate::policy::Rpc;
use crate::generate::rotation::{Ask, Call};
use crate::lent::{lend, Edge, Lent};
use crate::request::PathRequest;
use crate::rotation::{self, Record};
use crate::rpc::RpcRequest;
use crate::word;

pub struct Hosts {
    ours: Record,
    our_store: Vec<u8>,
    theirs: Lent,
    their_store: Lent,
    edge: Edge,
}

impl Hosts {
    pub fn new(record: Record, store: Vec<u8>, edge: Edge) -> Hosts {
        let theirs = Lent::holding(bytes_of(&record), edge);
        let their_store = Lent::holding(&store, edge);
        Hosts { ours: record, our_store: store, theirs, their_store, edge }
    }

    pub fn record(&self) -> Record {
        self.ours
    }

    pub fn store(&self) -> &[u8] {
        &self.our_store
    }

    pub fn set_record(&mut self, record: Record) {
        self.ours = record;
        self.theirs.slice_mut().copy_from_slice(bytes_of(&record));
    }

    pub fn set_store(&mut self, at: usize, bytes: &[u8]) {
        self.our_store[at..at + bytes.len()].copy_from_slice(bytes);
        self.their_store.slice_mut()[at..at + bytes.len()].copy_from_slice(bytes);
    }

    /// Makes one call with all of the store, and gives its answer.
    pub fn call(&mut self, call: &Call) -> u64 {
        self.call_with(call, self.our_store.len())
    }

    /// Makes one call with the first bytes of the store.
    pub fn call_with(&mut self, call: &Call, store_len: usize) -> u64 {
        let before = self.ours;
        let answer = call_rust(&mut self.ours, &mut self.our_store[..store_len], call);
        let store = &mut self.their_store.slice_mut()[..store_len];
        let theirs = call_proved(record_in(&mut self.theirs), store, call, self.edge);
        assert_eq!(theirs, answer, "answer {theirs:#x}, not {answer:#x}, to {call:?} on {before:?}, {store_len} bytes");
        assert_eq!(*record_in(&mut self.theirs), self.ours, "the record after {call:?} on {before:?}");
        self.theirs.assert_holds(bytes_of(&self.ours));
        self.their_store.assert_holds(&self.our_store);
        if word::refusal_number(answer) != 0 {
            assert_eq!(self.ours, before, "a refused call changed the record");
        }
        answer
    }
}

/// A record as the bytes that lie in memory.
pub fn bytes_of(record: &Record) -> &[u8] {
    // SAFETY: a record is five numbers of 32 bits, with nothing between them.
    unsafe { std::slice::from_raw_parts((record as *const Record).cast(), size_of::<Record>()) }
}

/// The record that such bytes make.
pub fn record_in(lent: &mut Lent) -> &mut Record {
    let bytes = lent.slice_mut();
    assert_eq!(bytes.len(), size_of::<Record>());
    let record = bytes.as_mut_ptr().cast::<Record>();
    assert!(record.is_aligned());
    // SAFETY: as many bytes as a record has, where one may lie; all bytes make one.
    unsafe { &mut *record }
}

fn call_rust(record: &mut Record, store: &mut [u8], call: &Call) -> u64 {
    match call {
        Call::Start => word::checked(rotation::start(record, store)),
        Call::Upload(text) => word::checked(rotation::upload(record, store, text)),
        Call::Finalize => word::checked(rotation::finalize(record, store)),
        Call::Close => word::checked(rotation::close(record, store)),
        Call::ProbePath(ask) => word::path_verdict(rotation::probe_path(record, store, &ask.request())),
        Call::ProbeTree(ask) => word::tree_verdict(rotation::probe_tree(record, store, &ask.request())),
        Call::ProbeRpc(rpc) => word::rpc_verdict(rotation::probe_rpc(record, store, &rpc.request())),
    }
}

fn call_proved(record: &mut Record, store: &mut [u8], call: &Call, edge: Edge) -> u64 {
    match call {
        Call::Start => proved::start(record, store),
        Call::Finalize => proved::finalize(record, store),
        Call::Close => proved::close(record, store),
        Call::Upload(text) => lend([text], edge, |[text]| proved::upload(record, store, text)),
        Call::ProbePath(ask) => probe(record, store, ask, edge, proved::probe_path),
        Call::ProbeTree(ask) => probe(record, store, ask, edge, proved::probe_tree),
        Call::ProbeRpc(Rpc { identity, path, headers }) => {
            lend([identity, path, headers], edge, |[identity, path, headers]| {
                proved::probe_rpc(record, store, &RpcRequest { identity, path, headers })
            })
        }
    }
}

type TableProbe = fn(&Record, &mut [u8], &PathRequest) -> u64;

fn probe(record: &Record, store: &mut [u8], ask: &Ask, edge: Edge, probe: TableProbe) -> u64 {
    lend([&ask.user, &ask.origin, &ask.path], edge, |[user, origin, path]| {
        probe(record, store, &PathRequest { user, mode: ask.mode, origin, path })
    })
}
