//! The rotation: the host's record, changed where it lies, and its store of two slots.

use crate::frame::Action;
use crate::limits::SLOT;
use crate::policy::check_policy;
use crate::refusal::{rotation as number, Refusal};
use crate::request::PathRequest;
use crate::rpc::{rpc_verdict, RpcRequest, RpcVerdict};
use crate::table::check_table;
use crate::verdict::{path_verdict, tree_verdict, PathVerdict, TreeVerdict};

/// A length that stands for none.
pub const NONE: u32 = u32::MAX;

/// The record as the host keeps it.
#[repr(C)]
#[derive(Clone, Copy, PartialEq, Eq, Debug)]
pub struct Record {
    /// 1 policy, 2 table.
    pub kind: u32,
    /// Counts only where something is live.
    pub live_slot: u32,
    pub live_len: u32,
    /// Off at 0, on at any other number.
    pub rotating: u32,
    pub candidate_len: u32,
}

#[derive(Clone, Copy, PartialEq, Eq)]
enum Kind {
    Policy,
    Table,
}

/// What a record says once it is known to be good.
struct State {
    kind: Kind,
    /// The slot and the length of the live text.
    live: Option<(usize, usize)>,
    is_on: bool,
    candidate: Option<usize>,
}

impl Record {
    pub fn factory(kind: u32) -> Record {
        Record { kind, live_slot: 0, live_len: NONE, rotating: 0, candidate_len: NONE }
    }

    /// 11 for the store, then 15: "kind not 1 or 2, slot over 1, length over 32,768,
    /// candidate while off".
    fn read(&self, store: &[u8]) -> Result<State, Refusal> {
        if store.len() < 2 * SLOT {
            return Err(Refusal::plain(number::STORE));
        }
        self.state().ok_or(Refusal::plain(number::RECORD))
    }

    fn state(&self) -> Option<State> {
        let kind = match self.kind {
            1 => Kind::Policy,
            2 => Kind::Table,
            _ => return None,
        };
        let live = match read_length(self.live_len)? {
            Some(len) => Some((read_slot(self.live_slot)?, len)),
            None => None,
        };
        let candidate = read_length(self.candidate_len)?;
        let is_on = self.rotating != 0;
        (is_on || candidate.is_none()).then_some(State { kind, live, is_on, candidate })
    }
}

/// A length or none; nothing for a length over 32,768.
fn read_length(len: u32) -> Option<Option<usize>> {
    match len {
        NONE => Some(None),
        len => (len as usize <= SLOT).then_some(Some(len as usize)),
    }
}

fn read_slot(slot: u32) -> Option<usize> {
    (slot <= 1).then_some(slot as usize)
}

impl State {
    /// "the slot that isn't live (slot 0 if none is live)"
    fn candidate_slot(&self) -> usize {
        match self.live {
            Some((slot, _)) => 1 - slot,
            None => 0,
        }
    }

    /// "the candidate, else the live text, else factory", which is none.
    fn in_force<'s>(&self, store: &'s [u8]) -> Option<&'s [u8]> {
        let candidate = self.candidate.map(|len| (self.candidate_slot(), len));
        candidate.or(self.live).map(|(slot, len)| &store[slot * SLOT..slot * SLOT + len])
    }

    fn must_be_on(&self) -> Result<(), Refusal> {
        if self.is_on {
            Ok(())
        } else {
            Err(Refusal::plain(number::OFF))
        }
    }

    fn must_be_of(&self, kind: Kind) -> Result<(), Refusal> {
        if self.kind == kind {
            Ok(())
        } else {
            Err(Refusal::plain(number::KIND))
        }
    }
}

/// The text in force; none for factory, and none where record or store are at fault.
pub fn in_force<'s>(record: &Record, store: &'s [u8]) -> Option<&'s [u8]> {
    record.read(store).ok()?.in_force(store)
}

/// "Start (rotation on, no candidate)".
pub fn start(record: &mut Record, store: &[u8]) -> Result<(), Refusal> {
    let state = record.read(store)?;
    if state.is_on {
        return Err(Refusal::plain(number::ON));
    }
    record.rotating = 1;
    record.candidate_len = NONE;
    Ok(())
}

/// "Upload checks the whole text, then stores exactly its bytes at the start of the
/// slot that isn't live".
pub fn upload(record: &mut Record, store: &mut [u8], text: &[u8]) -> Result<(), Refusal> {
    let state = record.read(store)?;
    state.must_be_on()?;
    match state.kind {
        Kind::Policy => check_policy(text)?,
        Kind::Table => check_table(text)?,
    }
    let start = state.candidate_slot() * SLOT;
    store[start..start + text.len()].copy_from_slice(text);
    record.candidate_len = text.len() as u32;
    Ok(())
}

/// "finalize (the candidate's slot and length become live, no candidate, rotation off)".
pub fn finalize(record: &mut Record, store: &[u8]) -> Result<(), Refusal> {
    let state = record.read(store)?;
    state.must_be_on()?;
    if state.candidate.is_none() {
        return Err(Refusal::plain(number::NO_CANDIDATE));
    }
    record.live_slot = state.candidate_slot() as u32;
    record.live_len = record.candidate_len;
    record.candidate_len = NONE;
    record.rotating = 0;
    Ok(())
}

/// "close (candidate dropped, rotation off)".
pub fn close(record: &mut Record, store: &[u8]) -> Result<(), Refusal> {
    record.read(store)?.must_be_on()?;
    record.candidate_len = NONE;
    record.rotating = 0;
    Ok(())
}

/// A path probe. Factory "denies all", "but the request still is" judged.
pub fn probe_path(record: &Record, store: &[u8], request: &PathRequest) -> Result<PathVerdict, Refusal> {
    let state = record.read(store)?;
    state.must_be_of(Kind::Table)?;
    match state.in_force(store) {
        Some(table) => path_verdict(table, request),
        None => request.judge(|_| PathVerdict { action: Action::Deny, rule: None }),
    }
}

/// A tree probe; factory is NONE.
pub fn probe_tree(record: &Record, store: &[u8], request: &PathRequest) -> Result<TreeVerdict, Refusal> {
    let state = record.read(store)?;
    state.must_be_of(Kind::Table)?;
    match state.in_force(store) {
        Some(table) => tree_verdict(table, request),
        None => request.judge(|_| TreeVerdict::None),
    }
}

/// An RPC probe; factory "permits all" and "names no rule".
pub fn probe_rpc(record: &Record, store: &[u8], request: &RpcRequest) -> Result<RpcVerdict, Refusal> {
    let state = record.read(store)?;
    state.must_be_of(Kind::Policy)?;
    match state.in_force(store) {
        Some(policy) => rpc_verdict(policy, request),
        None => request.judge().map(|_| RpcVerdict { action: Action::Permit, rule: None }),
    }
}

#[cfg(test)]
mod tests {
    use super::*;
    use crate::vectors::{EXAMPLES_E_TO_K, POLICY_OF_NOBODY, VERSION_ONLY};

    const READ_A: PathRequest = PathRequest { user: b"u", mode: 1, origin: b"", path: b"/a" };
    const CALL: RpcRequest = RpcRequest { identity: b"", path: b"/p.S/m", headers: b"" };

    fn number<T>(answer: Result<T, Refusal>) -> u8 {
        answer.map_or_else(|refusal| refusal.number, |_| 0)
    }

    fn permits(record: &Record, store: &[u8]) -> bool {
        probe_path(record, store, &READ_A).unwrap().action == Action::Permit
    }

    #[test]
    fn a_rotation_from_factory_to_a_second_table() {
        let mut record = Record::factory(2);
        let mut store = vec![0xEE; 2 * SLOT];
        assert!(!permits(&record, &store));
        start(&mut record, &store).unwrap();
        upload(&mut record, &mut store, EXAMPLES_E_TO_K.as_bytes()).unwrap();
        assert!(permits(&record, &store), "the candidate is in force at once");
        finalize(&mut record, &store).unwrap();
        let len = EXAMPLES_E_TO_K.len() as u32;
        assert_eq!(record, Record { live_len: len, ..Record::factory(2) });

        start(&mut record, &store).unwrap();
        upload(&mut record, &mut store, VERSION_ONLY.as_bytes()).unwrap();
        assert!(!permits(&record, &store));
        assert_eq!(&store[SLOT..SLOT + VERSION_ONLY.len()], VERSION_ONLY.as_bytes());
        upload(&mut record, &mut store, EXAMPLES_E_TO_K.as_bytes()).unwrap();
        assert!(permits(&record, &store), "a second upload replaces the first");
        upload(&mut record, &mut store, VERSION_ONLY.as_bytes()).unwrap();
        close(&mut record, &store).unwrap();
        assert!(permits(&record, &store), "the live text is back in force");
        assert_eq!(record, Record { live_len: len, ..Record::factory(2) });
    }

    #[test]
    fn calls_out_of_turn_change_nothing() {
        let mut store = vec![0; 2 * SLOT];
        let mut off = Record::factory(1);
        assert_eq!(number(upload(&mut off, &mut store, b"")), 13);
        assert_eq!((number(finalize(&mut off, &store)), number(close(&mut off, &store))), (13, 13));
        assert_eq!(off, Record::factory(1));
        let mut on = Record { rotating: 7, ..Record::factory(1) };
        let before = on;
        assert_eq!((number(start(&mut on, &store)), number(finalize(&mut on, &store))), (12, 14));
        assert_eq!(number(upload(&mut on, &mut store, b"")), 31);
        assert_eq!(on, before);
        upload(&mut on, &mut store, POLICY_OF_NOBODY.as_bytes()).unwrap();
        assert_eq!(on, Record { candidate_len: POLICY_OF_NOBODY.len() as u32, ..before });
    }

    #[test]
    fn bad_stores_and_records() {
        let store = vec![0; 2 * SLOT];
        let good = Record { rotating: 1, live_len: 1, candidate_len: 1, ..Record::factory(2) };
        let bad = Record { kind: 3, ..good };
        assert_eq!(number(probe_path(&bad, &store[1..], &READ_A)), 11);
        for bad in [
            bad,
            Record { kind: 0, ..good },
            Record { live_slot: 2, ..good },
            Record { live_len: 32_769, ..good },
            Record { candidate_len: 32_769, ..good },
            Record { rotating: 0, ..good },
        ] {
            assert_eq!(number(probe_rpc(&bad, &store, &CALL)), 15, "{bad:?}");
        }
        assert_eq!(number(probe_rpc(&good, &store, &CALL)), 16);
        assert_eq!(number(probe_path(&good, &store, &READ_A)), 2);
        let unused_slot = Record { live_slot: 9, live_len: NONE, ..good };
        assert_eq!(number(probe_path(&unused_slot, &store, &READ_A)), 2);
    }

    #[test]
    fn factory_judges_the_request() {
        let store = vec![0; 2 * SLOT];
        let rpc = probe_rpc(&Record::factory(1), &store, &CALL).unwrap();
        assert_eq!(rpc, RpcVerdict { action: Action::Permit, rule: None });
        let tree = probe_tree(&Record::factory(2), &store, &READ_A).unwrap();
        assert_eq!(tree, TreeVerdict::None);
        assert_eq!(number(probe_rpc(&Record::factory(1), &store, &RpcRequest { headers: b"x", ..CALL })), 41);
        assert_eq!(number(probe_tree(&Record::factory(2), &store, &PathRequest { mode: 0, ..READ_A })), 20);
    }

    #[test]
    fn a_policy_length_over_its_limit_is_met_by_the_probe() {
        let store = vec![b' '; 2 * SLOT];
        for (len, expected) in [(0, 31), (16_384, 31), (16_385, 30), (32_768, 30), (32_769, 15)] {
            let record = Record { live_len: len, ..Record::factory(1) };
            assert_eq!(number(probe_rpc(&record, &store, &CALL)), expected, "{len}");
        }
    }
}
