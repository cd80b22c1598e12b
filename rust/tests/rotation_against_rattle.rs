//! The rotation: traces of calls on two copies of a record and its store, one changed
//! by the proved calls and one by the Rust ones, compared byte for byte after each.

use burgee_rust::brute_rotation::Machine;
use burgee_rust::generate::damage::damage;
use burgee_rust::generate::policy::Rpc;
use burgee_rust::generate::rotation::{some_call, some_record, spoil_record, Ask, Call};
use burgee_rust::generate::table::table_of_length;
use burgee_rust::hosts::Hosts;
use burgee_rust::lent::{Edge, EDGES};
use burgee_rust::limits::{POLICY_TEXT, SLOT, TABLE_TEXT};
use burgee_rust::random::Random;
use burgee_rust::rotation::{Record, NONE};
use burgee_rust::tally::Tally;
use burgee_rust::vectors::{EXAMPLES_E_TO_K, POLICY_OF_NOBODY, SSH_POLICY, VERSION_ONLY};
use burgee_rust::word;

fn random_store(random: &mut Random, len: usize) -> Vec<u8> {
    (0..len).map(|_| random.byte()).collect()
}

fn ask(path: &str) -> Ask {
    Ask { user: b"u".to_vec(), mode: 1, origin: Vec::new(), path: path.into() }
}

fn rpc(identity: &str) -> Rpc {
    Rpc { identity: identity.into(), path: b"/gnsi.ssh.Ssh/Get".to_vec(), headers: Vec::new() }
}

/// Answer words.
const PERMIT_BY_0: u64 = 1 << 8 | 1 << 16;
const PERMIT_BY_NONE: u64 = 1 << 8;
const DENY: u64 = 0;

#[test]
fn a_table_from_factory_to_the_third() {
    for edge in EDGES {
        let mut random = Random::new(0x51);
        let mut hosts = Hosts::new(Record::factory(2), random_store(&mut random, 2 * SLOT), edge);
        let probe = Call::ProbePath(ask("/a"));
        assert_eq!(hosts.call(&probe), DENY);
        assert_eq!(hosts.call(&Call::ProbeTree(ask("/"))), 0, "factory is NONE");
        assert_eq!(hosts.call(&Call::Start), 0);
        assert_eq!(hosts.call(&probe), DENY);
        assert_eq!(hosts.call(&Call::Upload(EXAMPLES_E_TO_K.into())), 0);
        assert_eq!(hosts.call(&probe), PERMIT_BY_0);
        assert_eq!(hosts.call(&Call::Finalize), 0);
        assert_eq!((hosts.record().live_slot, hosts.record().live_len), (0, EXAMPLES_E_TO_K.len() as u32));
        // The second goes to the other slot, is replaced, and becomes live there.
        assert_eq!(hosts.call(&Call::Start), 0);
        assert_eq!(hosts.call(&Call::Upload(VERSION_ONLY.into())), 0);
        assert_eq!(hosts.call(&probe), DENY);
        let long = table_of_length(&mut random, TABLE_TEXT, 160);
        assert_eq!(hosts.call(&Call::Upload(long.clone())), 0);
        assert_eq!(&hosts.store()[SLOT..], long);
        assert_eq!(hosts.call(&Call::Upload(VERSION_ONLY.into())), 0);
        assert_eq!(hosts.call(&Call::Finalize), 0);
        assert_eq!((hosts.record().live_slot, hosts.record().live_len), (1, VERSION_ONLY.len() as u32));
        assert_eq!(hosts.call(&probe), DENY);
        // The third is closed.
        assert_eq!(hosts.call(&Call::Start), 0);
        assert_eq!(hosts.call(&Call::Upload(EXAMPLES_E_TO_K.into())), 0);
        assert_eq!(hosts.call(&probe), PERMIT_BY_0);
        assert_eq!(hosts.call(&Call::Close), 0);
        assert_eq!(hosts.call(&probe), DENY);
        assert_eq!(hosts.call(&Call::ProbeRpc(rpc("alice"))), 16);
    }
}

#[test]
fn a_policy_from_factory_to_the_second() {
    for edge in EDGES {
        let mut hosts = Hosts::new(Record::factory(1), vec![0xEE; 2 * SLOT], edge);
        let alice = Call::ProbeRpc(rpc("spiffe://company.com/sa/alice"));
        assert_eq!(hosts.call(&alice), PERMIT_BY_NONE, "factory permits all and names no rule");
        assert_eq!(hosts.call(&Call::Start), 0);
        assert_eq!(hosts.call(&Call::Upload(POLICY_OF_NOBODY.into())), 0);
        assert_eq!(hosts.call(&alice), DENY);
        assert_eq!(hosts.call(&Call::Upload(SSH_POLICY.into())), 0);
        assert_eq!(hosts.call(&alice), PERMIT_BY_0);
        assert_eq!(hosts.call(&Call::Close), 0);
        assert_eq!(hosts.call(&alice), PERMIT_BY_NONE);
        assert_eq!(hosts.call(&Call::Start), 0);
        assert_eq!(hosts.call(&Call::Upload(POLICY_OF_NOBODY.into())), 0);
        assert_eq!(hosts.call(&Call::Finalize), 0);
        assert_eq!(hosts.call(&alice), DENY);
        assert_eq!(hosts.call(&Call::ProbePath(ask("/a"))), 16);
        assert_eq!(hosts.call(&Call::ProbeTree(ask("/a"))), 16);
    }
}

fn set_some_record(random: &mut Random, hosts: &mut Hosts, kind: u32) {
    let mut store = hosts.store().to_vec();
    let record = some_record(random, kind, &mut store);
    hosts.set_store(0, &store);
    hosts.set_record(record);
}

#[test]
fn traces() {
    let mut random = Random::new(0x52);
    let mut tally = Tally::default();
    let mut live_slots = [0usize; 2];
    for trace in 0..240 {
        let store_len = *random.pick(&[2 * SLOT, 2 * SLOT, 2 * SLOT + 1, 70_000]);
        let kind = 1 + trace % 2;
        let store = random_store(&mut random, store_len);
        let mut hosts = Hosts::new(Record::factory(kind), store, EDGES[trace as usize % 2]);
        for _ in 0..80 {
            let call = some_call(&mut random, kind);
            match random.below(24) {
                0 => {
                    // A bad record for one call, another good one afterwards.
                    let mut record = hosts.record();
                    spoil_record(&mut random, &mut record);
                    hosts.set_record(record);
                    tally.count(hosts.call(&call));
                    set_some_record(&mut random, &mut hosts, kind);
                }
                1 => tally.count(hosts.call_with(&call, *random.pick(&[0, 1, SLOT, 2 * SLOT - 1]))),
                2 => {
                    spoil_store(&mut random, &mut hosts);
                    tally.count(hosts.call(&call));
                }
                3 => set_some_record(&mut random, &mut hosts, kind),
                _ => tally.count(hosts.call(&call)),
            }
            if hosts.record().live_len != NONE && hosts.record().live_slot < 2 {
                live_slots[hosts.record().live_slot as usize] += 1;
            }
        }
    }
    tally.assert_at_least(&[(0, 5_000), (11, 300), (12, 500), (13, 1_000), (14, 200), (15, 50), (16, 300)]);
    tally.assert_at_least(&[(1, 30), (2, 100), (3, 30), (4, 100), (5, 30), (6, 20), (20, 200), (21, 50), (22, 30)]);
    tally.assert_at_least(&[(30, 30), (31, 100), (34, 5), (35, 20), (40, 30), (41, 50)]);
    assert!(live_slots.iter().all(|count| *count >= 1_000), "live in each slot: {live_slots:?}");
}

/// Traces from factory follow a machine that has only texts: so a live text is there
/// byte for byte until another one is finalized, and in force again after a close.
#[test]
fn traces_follow_the_plain_machine() {
    let mut random = Random::new(0x54);
    let mut tally = Tally::default();
    for trace in 0..200 {
        let kind = 1 + trace % 2;
        let store = random_store(&mut random, 2 * SLOT);
        let mut hosts = Hosts::new(Record::factory(kind), store, EDGES[trace as usize / 2 % 2]);
        let mut machine = Machine::factory(kind == 1);
        for _ in 0..60 {
            let call = some_call(&mut random, kind);
            let answer = hosts.call(&call);
            assert_eq!(answer, machine.step(&call), "{call:?}");
            assert_eq!(texts_of(&hosts), machine, "after {call:?}");
            tally.count(answer);
        }
    }
    tally.assert_at_least(&[(0, 3_000), (12, 500), (13, 1_000), (14, 200), (31, 50), (5, 30), (22, 30)]);
}

/// What the record and the store say.
fn texts_of(hosts: &Hosts) -> Machine {
    let (record, store) = (hosts.record(), hosts.store());
    let text = |slot: u32, len: u32| {
        let start = slot as usize * SLOT;
        (len != NONE).then(|| store[start..start + len as usize].to_vec())
    };
    let other_slot = if record.live_len == NONE { 0 } else { 1 - record.live_slot };
    Machine {
        is_policy: record.kind == 1,
        live: text(record.live_slot, record.live_len),
        candidate: text(other_slot, record.candidate_len),
        is_on: record.rotating != 0,
    }
}

/// Damages a few bytes at the start of a slot, where texts lie.
fn spoil_store(random: &mut Random, hosts: &mut Hosts) {
    let at = random.below(2) * SLOT + random.below(200);
    let mut bytes = hosts.store()[at..at + 8].to_vec();
    damage(random, &mut bytes, b"0123456789abcdef\n\"{}");
    bytes.truncate(8);
    hosts.set_store(at, &bytes);
}

/// Every combination of numbers about the limits of a record, with each call.
#[test]
fn records_of_every_shape() {
    let mut tally = Tally::default();
    for kind in [0, 1, 2, 3, 257, NONE] {
        let mut hosts = Hosts::new(Record::factory(kind), vec![b' '; 2 * SLOT], Edge::Start);
        let texts = if kind == 1 { [SSH_POLICY, POLICY_OF_NOBODY] } else { [EXAMPLES_E_TO_K, VERSION_ONLY] };
        hosts.set_store(0, texts[0].as_bytes());
        hosts.set_store(SLOT, texts[1].as_bytes());
        let lens = texts.map(|text| text.len() as u32);
        let store = hosts.store().to_vec();
        let calls = [
            Call::Start,
            Call::Upload(texts[1].into()),
            Call::Finalize,
            Call::Close,
            Call::ProbePath(ask("/a")),
            Call::ProbeTree(ask("/")),
            Call::ProbeRpc(rpc("spiffe://company.com/sa/alice")),
        ];
        for live_slot in [0, 1, 2, NONE] {
            for live_len in [0, lens[0], lens[1], 16_385, 32_768, 32_769, NONE - 1, NONE] {
                for rotating in [0, 1, 2, NONE] {
                    for candidate_len in [0, lens[0], lens[1], 16_385, 32_768, 32_769, 1 << 31, NONE] {
                        for call in &calls {
                            hosts.set_record(Record { kind, live_slot, live_len, rotating, candidate_len });
                            tally.count(hosts.call(call));
                            hosts.set_store(0, &store[..256]);
                            hosts.set_store(SLOT, &store[SLOT..SLOT + 256]);
                        }
                    }
                }
            }
        }
    }
    tally.assert_at_least(&[(0, 1_000), (2, 100), (4, 50), (12, 100), (13, 30), (14, 20), (15, 10_000), (16, 500)]);
    tally.assert_at_least(&[(30, 30), (31, 30)]);
}

/// 11 comes before 15, whatever else there is; a longer store is as good as one of
/// 65,536 bytes, and its further bytes stay.
#[test]
fn stores_of_every_length() {
    let calls = [
        Call::Start,
        Call::Upload(VERSION_ONLY.into()),
        Call::Finalize,
        Call::Close,
        Call::ProbePath(ask("/a")),
        Call::ProbeTree(ask("/a")),
        Call::ProbeRpc(rpc("")),
    ];
    let mut hosts = Hosts::new(Record::factory(2), vec![0x55; 70_000], Edge::End);
    for record in [
        Record::factory(2),
        Record::factory(9),
        Record { rotating: 1, ..Record::factory(2) },
        Record { rotating: 1, candidate_len: 25, ..Record::factory(2) },
        Record { rotating: 1, live_slot: 0, live_len: 25, ..Record::factory(2) },
    ] {
        for len in [0, 1, SLOT, 2 * SLOT - 1, 2 * SLOT, 2 * SLOT + 1, 70_000] {
            for call in &calls {
                hosts.set_record(record);
                let answer = hosts.call_with(call, len);
                assert_eq!(word::refusal_number(answer) == 11, len < 2 * SLOT, "{call:?} with {len} bytes");
            }
        }
    }
}

/// Uploads at the limits of their kind fill a slot to its last byte and no further.
#[test]
fn uploads_at_the_limits() {
    let mut random = Random::new(0x53);
    for edge in EDGES {
        for live_slot in [0, 1] {
            for (live_len, slot) in [(NONE, 0), (0, 1 - live_slot)] {
                let record = Record { kind: 2, live_slot, live_len, rotating: 3, candidate_len: NONE };
                let mut hosts = Hosts::new(record, vec![0xAA; 2 * SLOT + 5], edge);
                for len in [TABLE_TEXT, TABLE_TEXT - 1, 1_000] {
                    let text = table_of_length(&mut random, len, 160);
                    assert_eq!(hosts.call(&Call::Upload(text.clone())), 0);
                    let start = slot as usize * SLOT;
                    assert_eq!(&hosts.store()[start..start + len], text);
                    assert_eq!(hosts.record(), Record { candidate_len: len as u32, ..record });
                }
                let long = table_of_length(&mut random, TABLE_TEXT + 1, 160);
                assert_eq!(hosts.call(&Call::Upload(long)), 1);

                let record = Record { kind: 1, ..record };
                hosts.set_record(record);
                let mut text = SSH_POLICY.as_bytes().to_vec();
                text.resize(POLICY_TEXT, b'\n');
                assert_eq!(hosts.call(&Call::Upload(text.clone())), 0);
                assert_eq!(hosts.record(), Record { candidate_len: POLICY_TEXT as u32, ..record });
                text.push(b'\n');
                assert_eq!(hosts.call(&Call::Upload(text)), 30);
            }
        }
    }
}

/// "A corrupt candidate isn't skipped for the live text: the probe gives its refusal",
/// and finalize judges no text.
#[test]
fn corrupt_texts() {
    let mut hosts = Hosts::new(Record::factory(2), vec![b'\n'; 2 * SLOT], Edge::Start);
    hosts.set_store(0, EXAMPLES_E_TO_K.as_bytes());
    let live = Record { live_slot: 0, live_len: EXAMPLES_E_TO_K.len() as u32, rotating: 1, ..Record::factory(2) };
    hosts.set_record(live);
    let probe = Call::ProbePath(ask("/a"));
    assert_eq!(hosts.call(&probe), PERMIT_BY_0);
    for (candidate_len, answer) in [(0, 4 | 1 << 8), (1, 2 | 1 << 8), (32_768, 2 | 1 << 8)] {
        hosts.set_record(Record { candidate_len, ..live });
        assert_eq!(hosts.call(&probe), answer);
        assert_eq!(hosts.call(&Call::Finalize), 0);
        assert_eq!(hosts.call(&probe), answer);
    }
    // The text in force comes before the request.
    hosts.set_record(Record { candidate_len: 1, ..live });
    let faulty = Ask { user: Vec::new(), ..ask("") };
    assert_eq!(hosts.call(&Call::ProbePath(faulty.clone())), 2 | 1 << 8);
    hosts.set_record(Record::factory(2));
    assert_eq!(hosts.call(&Call::ProbePath(faulty.clone())), 20);
    hosts.set_record(Record::factory(1));
    assert_eq!(hosts.call(&Call::ProbePath(faulty)), 16);
    let faulty = Rpc { headers: b"x".to_vec(), ..rpc("") };
    assert_eq!(hosts.call(&Call::ProbeRpc(faulty)), 41);
}
