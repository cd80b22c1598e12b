//! Calls on a rotation record, and records good and bad.

use super::damage::damage;
use super::path::{good_path, TEXT_MARKS};
use super::policy::{good_policy, good_rpc, policy_of_length, Rpc};
use super::policy_fault::faulty_policy;
use super::table::{dense_path, dense_table, table_of_length, table_text, Shape};
use super::table_fault::LINE_FAULTS;
use crate::limits;
use crate::random::Random;
use crate::request::PathRequest;
use crate::rotation::{Record, NONE};

/// A path request that owns its parts.
#[derive(Clone, Debug)]
pub struct Ask {
    pub user: Vec<u8>,
    pub mode: u32,
    pub origin: Vec<u8>,
    pub path: Vec<u8>,
}

impl Ask {
    pub fn request(&self) -> PathRequest<'_> {
        PathRequest { user: &self.user, mode: self.mode, origin: &self.origin, path: &self.path }
    }
}

#[derive(Clone, Debug)]
pub enum Call {
    Start,
    Upload(Vec<u8>),
    Finalize,
    Close,
    ProbePath(Ask),
    ProbeTree(Ask),
    ProbeRpc(Rpc),
}

/// A call, mostly one that suits a record of this kind.
pub fn some_call(random: &mut Random, kind: u32) -> Call {
    match random.below(16) {
        0 | 1 => Call::Start,
        2..=6 => Call::Upload(some_text(random, kind)),
        7 | 8 => Call::Finalize,
        9 => Call::Close,
        _ if random.one_in(10) == (kind == 2) => Call::ProbeRpc(some_rpc(random)),
        10..=12 => Call::ProbePath(some_ask(random)),
        _ => Call::ProbeTree(some_ask(random)),
    }
}

/// A text to upload: good, at fault, at its limit, or of the other kind.
pub fn some_text(random: &mut Random, kind: u32) -> Vec<u8> {
    let kind = if random.one_in(20) { 3 - kind.clamp(1, 2) } else { kind };
    match (kind, random.below(20)) {
        (_, 0) => Vec::new(),
        (1, 1) => policy_of_length(limits::POLICY_TEXT),
        (1, 2) => vec![b' '; limits::POLICY_TEXT + 1],
        (1, 3) => padded_policy(random),
        (1, 4..=6) => faulty_policy(random),
        (1, _) => good_policy(random).text(random),
        (_, 1) => table_of_length(random, limits::TABLE_TEXT, 160),
        (_, 2) => table_of_length(random, limits::TABLE_TEXT + 1, 160),
        (_, 3..=6) => {
            let mut lines = dense_table(random);
            random.pick(&LINE_FAULTS).put_somewhere(random, &mut lines);
            table_text(&lines)
        }
        _ => table_text(&dense_table(random)),
    }
}

/// A good policy of exactly 16,384 bytes.
fn padded_policy(random: &mut Random) -> Vec<u8> {
    let mut text = good_policy(random).text(random);
    text.resize(limits::POLICY_TEXT, b' ');
    text
}

fn some_ask(random: &mut Random) -> Ask {
    let shape = Shape { depth: 4, key_names: 3, values: 4, ..Shape::SMALL };
    let mut path = if random.one_in(20) { good_path(random) } else { dense_path(random, &shape) }.text();
    if random.one_in(12) {
        damage(random, &mut path, TEXT_MARKS);
    }
    Ask {
        user: random.pick(&["u", "u", "v", "stevie", "g", "u", "", "\n"]).as_bytes().to_vec(),
        mode: *random.pick(&[1, 1, 1, 1, 1, 1, 1, 2, 2, 0, 257]),
        origin: random.pick(&["", "", "", "", "", "", "oc", "\n"]).as_bytes().to_vec(),
        path,
    }
}

fn some_rpc(random: &mut Random) -> Rpc {
    let mut rpc = good_rpc(random);
    if random.one_in(12) {
        damage(random, &mut rpc.headers, b"k:\nK\t\x7f\0");
    }
    if random.one_in(12) {
        damage(random, &mut rpc.identity, b"\0\n\x7f\x80\xff");
    }
    rpc
}

/// A good record of this kind with any texts in the store, live and candidate at random.
pub fn some_record(random: &mut Random, kind: u32, store: &mut [u8]) -> Record {
    let mut record = Record::factory(kind);
    record.live_slot = random.below(2) as u32;
    if random.one_in(2) {
        record.live_len = put_text(random, kind, store, record.live_slot as usize);
    } else {
        record.live_slot = *random.pick(&[0, 1, 2, NONE]);
    }
    if random.one_in(2) {
        record.rotating = *random.pick(&[1, 1, 2, NONE]);
        if random.one_in(2) {
            let slot = if record.live_len == NONE { 0 } else { 1 - record.live_slot as usize };
            record.candidate_len = put_text(random, kind, store, slot);
        }
    }
    record
}

fn put_text(random: &mut Random, kind: u32, store: &mut [u8], slot: usize) -> u32 {
    let mut text = some_text(random, kind);
    text.truncate(limits::SLOT);
    let start = slot * limits::SLOT;
    store[start..start + text.len()].copy_from_slice(&text);
    text.len() as u32
}

/// Changes one field of a record to a number that is often bad there.
pub fn spoil_record(random: &mut Random, record: &mut Record) {
    let number = *random.pick(&[0, 1, 2, 3, 256, 257, 16_384, 16_385, 32_768, 32_769, 65_536, 1 << 31, NONE - 1, NONE]);
    match random.below(5) {
        0 => record.kind = number,
        1 => record.live_slot = number,
        2 => record.live_len = number,
        3 => record.rotating = number,
        _ => record.candidate_len = number,
    }
}
