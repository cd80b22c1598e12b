//! A million mixed calls on one set of lent buffers at each edge of memory, which change a
//! little from round to round; each answer and each buffer is compared with the Rust
//! implementation's.

use std::fmt;

use burgee_rust::boundary::{declared_calls, path, policy, rotation as proved, rpc, season, table, verdict};
use burgee_rust::generate::any::{
    any, any_mode, any_room, Kind, HEADERS, IDENTITY, LOG, ORIGIN, PATH_BYTES, PATH_TEXT, POLICY, RPC_PATH, TABLE, USER,
};
use burgee_rust::generate::rotation::spoil_record;
use burgee_rust::hosts::{bytes_of, record_in};
use burgee_rust::lent::{Edge, Lent, EDGES};
use burgee_rust::limits;
use burgee_rust::path::{path_bytes, path_text, read_path_text, write_path_text};
use burgee_rust::policy::check_policy;
use burgee_rust::random::Random;
use burgee_rust::request::PathRequest;
use burgee_rust::rotation::{self, Record};
use burgee_rust::rpc::{rpc_verdict, RpcRequest};
use burgee_rust::season::season_report;
use burgee_rust::table::{check_table, group_count};
use burgee_rust::verdict::{path_verdict, tree_verdict};
use burgee_rust::word;

const CALLS: usize = 1_000_000;
const KINDS_OF_CALL: usize = 16;

/// What is lent for reading: a buffer for each.
const INPUTS: [Kind; 10] = [TABLE, USER, ORIGIN, PATH_TEXT, PATH_BYTES, LOG, POLICY, IDENTITY, RPC_PATH, HEADERS];
/// Where those stand among them of which a buffer is filled.
const TABLE_TEXT: usize = 0;
const TEXT: usize = 3;
const BYTES: usize = 4;
const LOG_TEXT: usize = 5;

/// A buffer, what it may hold, and what it holds.
struct Input {
    choice: Vec<Vec<u8>>,
    held: Vec<u8>,
    lent: Lent,
}

impl Input {
    fn new(random: &mut Random, kind: &Kind, edge: Edge) -> Input {
        let choice: Vec<Vec<u8>> = (0..256).map(|_| any(random, kind)).collect();
        let longest = choice.iter().map(Vec::len).max().unwrap_or(0);
        Input { choice, held: Vec::new(), lent: Lent::with_room(longest, edge) }
    }

    /// Another text, now and then with another byte somewhere.
    fn change(&mut self, random: &mut Random) {
        self.held.clone_from(random.pick(&self.choice));
        if random.one_in(8) && !self.held.is_empty() {
            let at = random.below(self.held.len());
            self.held[at] = random.byte();
        }
        self.lent.hold(&self.held);
    }
}

/// What the Rust calls change.
struct Ours {
    output: Vec<u8>,
    record: Record,
    store: Vec<u8>,
}

/// What the proved calls change.
struct Theirs {
    output: Lent,
    record: Lent,
    store: Lent,
}

struct Buffers {
    inputs: [Input; INPUTS.len()],
    mode: u32,
    /// How much of the output is lent.
    room: usize,
    ours: Ours,
    theirs: Theirs,
}

impl Buffers {
    fn new(random: &mut Random, edge: Edge) -> Buffers {
        let ours = Ours {
            output: vec![0; limits::PATH_TEXT + 500],
            record: Record::factory(2),
            store: vec![0; 2 * limits::SLOT],
        };
        let theirs = Theirs {
            output: Lent::with_room(ours.output.len(), edge),
            record: Lent::holding(bytes_of(&ours.record), edge),
            store: Lent::holding(&ours.store, edge),
        };
        let inputs = INPUTS.each_ref().map(|kind| Input::new(random, kind, edge));
        Buffers { inputs, mode: 1, room: 0, ours, theirs }
    }

    fn change(&mut self, random: &mut Random) {
        for input in &mut self.inputs {
            if random.one_in(2) {
                input.change(random);
            }
        }
        self.mode = any_mode(random);
        self.change_room(random);
        if random.one_in(16) {
            let mut record = Record::factory(random.between(1, 2) as u32);
            if random.one_in(8) {
                spoil_record(random, &mut record);
            }
            self.ours.record = record;
            self.theirs.record.hold(bytes_of(&record));
        }
        if random.one_in(4) {
            // Where the texts of the slots begin.
            let (at, byte) = (random.below(2) * limits::SLOT + random.below(200), random.byte());
            self.ours.store[at] = byte;
            self.theirs.store.slice_mut()[at] = byte;
        }
    }

    /// Room for what is read, written or reported, or not.
    fn change_room(&mut self, random: &mut Random) {
        let [table, text, bytes, log] = [TABLE_TEXT, TEXT, BYTES, LOG_TEXT].map(|at| &self.inputs[at].held);
        let result = match random.below(3) {
            0 => path_bytes(text).map(|bytes| bytes.len()),
            1 => path_text(bytes).map(|text| text.len()),
            _ => season_report(table, log, &mut [0; limits::REPORT]),
        };
        self.room = any_room(random, result.unwrap_or(text.len()));
        self.room = self.room.min(self.ours.output.len());
        self.theirs.output.hold(&self.ours.output[..self.room]);
    }

    /// One call, of both; gives the proved answer and the Rust one.
    fn call(&mut self, number: usize) -> (u64, u64) {
        let [table, user, origin, text, bytes, log, policy, identity, rpc_path, headers] =
            self.inputs.each_ref().map(|input| input.lent.slice());
        let request = PathRequest { user, mode: self.mode, origin, path: text };
        let rpc = RpcRequest { identity, path: rpc_path, headers };
        let (theirs, ours) = (&mut self.theirs, &mut self.ours);
        let outputs = (theirs.output.slice_mut(), &mut ours.output[..self.room]);
        let (record, store) = (record_in(&mut theirs.record), theirs.store.slice_mut());
        let (our_record, our_store) = (&mut ours.record, &mut ours.store);
        let upload = if our_record.kind == 1 { policy } else { table };
        match number {
            0 => (path::path_read(text, outputs.0), word::filled(read_path_text(text, outputs.1))),
            1 => (path::path_write(bytes, outputs.0), word::filled(write_path_text(bytes, outputs.1))),
            2 => (table::table_check(table), word::checked(check_table(table))),
            3 => (table::group_count(table, user), word::group_count(group_count(table, user))),
            4 => (verdict::path_verdict(table, &request), word::path_verdict(path_verdict(table, &request))),
            5 => (verdict::tree_verdict(table, &request), word::tree_verdict(tree_verdict(table, &request))),
            6 => (policy::policy_check(policy), word::checked(check_policy(policy))),
            7 => (rpc::rpc_verdict(policy, &rpc), word::rpc_verdict(rpc_verdict(policy, &rpc))),
            8 => (proved::start(record, store), word::checked(rotation::start(our_record, our_store))),
            9 => {
                (proved::upload(record, store, upload), word::checked(rotation::upload(our_record, our_store, upload)))
            }
            10 => (proved::finalize(record, store), word::checked(rotation::finalize(our_record, our_store))),
            11 => (proved::close(record, store), word::checked(rotation::close(our_record, our_store))),
            12 => (
                proved::probe_path(record, store, &request),
                word::path_verdict(rotation::probe_path(our_record, our_store, &request)),
            ),
            13 => (
                proved::probe_tree(record, store, &request),
                word::tree_verdict(rotation::probe_tree(our_record, our_store, &request)),
            ),
            14 => (
                proved::probe_rpc(record, store, &rpc),
                word::rpc_verdict(rotation::probe_rpc(our_record, our_store, &rpc)),
            ),
            _ => (season::season_report(table, log, outputs.0), word::filled(season_report(table, log, outputs.1))),
        }
    }

    /// Every buffer is as it was, or as the Rust calls changed theirs.
    fn assert_equal(&self) {
        for input in &self.inputs {
            input.lent.assert_holds(&input.held);
        }
        self.theirs.output.assert_holds(&self.ours.output[..self.room]);
        self.theirs.record.assert_holds(bytes_of(&self.ours.record));
        self.theirs.store.assert_holds(&self.ours.store);
    }
}

/// What is lent, for a comparison that fails.
impl fmt::Display for Buffers {
    fn fmt(&self, f: &mut fmt::Formatter) -> fmt::Result {
        for input in &self.inputs {
            writeln!(f, "{}", input.held.escape_ascii())?;
        }
        write!(f, "mode {}, room {}, {:?} afterwards", self.mode, self.room, self.ours.record)
    }
}

#[test]
fn a_million_mixed_calls_on_one_set_of_buffers() {
    assert_eq!(declared_calls().len(), KINDS_OF_CALL);
    let mut random = Random::new(0x71);
    let mut buffers = EDGES.map(|edge| Buffers::new(&mut random, edge));
    let (mut made, mut refused) = ([0usize; KINDS_OF_CALL], [0usize; KINDS_OF_CALL]);
    for round in 0..CALLS {
        let buffers = &mut buffers[round * EDGES.len() / CALLS];
        if round % KINDS_OF_CALL == 0 {
            buffers.change(&mut random);
        }
        let number = random.below(KINDS_OF_CALL);
        let (theirs, ours) = buffers.call(number);
        assert_eq!(theirs, ours, "answer {theirs:#x}, not {ours:#x}, to call {number} in round {round}: {buffers}");
        buffers.assert_equal();
        made[number] += 1;
        refused[number] += usize::from(word::refusal_number(theirs) != 0);
    }
    for (made, refused) in made.iter().zip(refused) {
        assert!(*made >= CALLS / KINDS_OF_CALL / 2);
        assert!((made / 16..made / 16 * 15).contains(&refused), "{refused} of {made} refused");
    }
}
