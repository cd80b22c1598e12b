//! The rule table and the group count: the proved calls against the Rust ones.

use std::collections::HashSet;

use burgee_rust::compare::{group_count, table_check};
use burgee_rust::generate::damage::damage;
use burgee_rust::generate::path::{put_fault, Element, Key, Path, FAULTS};
use burgee_rust::generate::table::{
    dense_table, hex_line, table_of_colliding_groups, table_of_colliding_ids, table_of_colliding_members,
    table_of_length, table_of_shuffled_members, table_text, Line, Rule, GROUP_NAMES, USERS,
};
use burgee_rust::generate::table_fault::LINE_FAULTS;
use burgee_rust::random::Random;
use burgee_rust::tally::Tally;
use burgee_rust::{limits, vectors, word};

fn shown(text: &[u8]) -> String {
    let text = text.escape_ascii().to_string();
    text.replace("\\n", "\n").chars().take(4_000).collect()
}

fn refusal(number: u8, line: usize) -> u64 {
    u64::from(number) | (line as u64) << 8
}

#[test]
fn tables_of_the_papers() {
    for text in vectors::TABLES {
        assert_eq!(table_check(text.as_bytes()), 0, "{text}");
    }
    assert_eq!(group_count(vectors::EXAMPLES_E_TO_K.as_bytes(), b"u"), 0x1_0100);
    assert_eq!(group_count(vectors::EXAMPLES_E_TO_K.as_bytes(), b"v"), 0);
    assert_eq!(group_count(vectors::EXAMPLE_A.as_bytes(), b"stevie"), 0x1_0200);
    assert_eq!(group_count(vectors::VERSION_ONLY.as_bytes(), b"stevie"), 0);
}

/// "Wildcards are only valid in policy rules when applied to attributes", and to the
/// whole value (001).
#[test]
fn wildcards_of_001() {
    let with_path = |name: &str, value: &str| {
        let keys = vec![Key { name: b"name".to_vec(), value: value.into() }];
        let path = Path { elements: vec![Element { name: name.into(), keys }] };
        table_check(&table_text(&[Line::version("v1"), Line::Rule(rule("r", "u", path))]))
    };
    assert_eq!(with_path("keyed", "*"), 0);
    assert_eq!(with_path("keyed", "Ethernet1/*/3"), refusal(7, 2));
    assert_eq!(with_path("*", "foo"), refusal(7, 2));
    assert_eq!(with_path("...", "foo"), refusal(7, 2));
}

#[test]
fn dense_tables_and_their_groups() {
    let mut random = Random::new(0x21);
    let mut members = [0usize; 7];
    for _ in 0..4_000 {
        let text = table_text(&dense_table(&mut random));
        assert_eq!(table_check(&text), 0);
        for user in USERS.iter().chain(&["nobody"]) {
            let answer = group_count(&text, user.as_bytes());
            members[usize::from((answer >> 8) as u8)] += 1;
        }
    }
    assert!(members[..5].iter().all(|n| *n >= 200), "too few users in 0 to 4 groups: {members:?}");
}

#[test]
fn users_that_no_table_allows() {
    let table = vectors::EXAMPLES_E_TO_K.as_bytes();
    for len in 0..=70 {
        let expected = if (1..=64).contains(&len) { 0 } else { 20 };
        assert_eq!(word::refusal_number(group_count(table, &vec![b'x'; len])), expected);
        // The table comes first.
        assert_eq!(group_count(b"\n", &vec![b'x'; len]), refusal(2, 1));
    }
    for byte in 0..=255u8 {
        let expected = if (0x20..=0x7E).contains(&byte) { 0 } else { 20 };
        for user in [&[byte][..], &[b'u', byte], &[byte, b'u']] {
            assert_eq!(word::refusal_number(group_count(table, user)), expected, "{byte:#x}");
        }
    }
}

#[test]
fn each_fault_alone() {
    let mut random = Random::new(0x22);
    for fault in LINE_FAULTS {
        let mut rounds = 0;
        while rounds < 250 {
            let mut lines = dense_table(&mut random);
            if let Some(at) = fault.put_somewhere(&mut random, &mut lines) {
                let text = table_text(&lines);
                assert_eq!(table_check(&text), refusal(fault.number, at + 1), "{}:\n{}", fault.name, shown(&text));
                rounds += 1;
            }
        }
    }
}

#[test]
fn faults_in_two_lines() {
    let mut random = Random::new(0x23);
    let mut tally = Tally::default();
    for _ in 0..12_000 {
        let mut lines = dense_table(&mut random);
        let first = *random.pick(&LINE_FAULTS);
        let second = *random.pick(&LINE_FAULTS);
        let second_at = second.put_somewhere(&mut random, &mut lines);
        let first_at = (0..second_at.unwrap_or(0)).find(|at| first.put(&mut random, &mut lines, *at));
        let answer = table_check(&table_text(&lines));
        if let Some(at) = first_at {
            assert_eq!(answer, refusal(first.number, at + 1), "{} then {}", first.name, second.name);
            tally.count(answer);
        }
    }
    tally.assert_at_least(&[(2, 100), (3, 100), (4, 100), (5, 200), (6, 100), (7, 100), (8, 50), (9, 30)]);
}

#[test]
fn two_faults_in_one_line() {
    let mut random = Random::new(0x24);
    let mut tally = Tally::default();
    for first in LINE_FAULTS {
        for second in LINE_FAULTS {
            let mut rounds = 0;
            for _ in 0..60 {
                let mut lines = dense_table(&mut random);
                let Some(at) = first.put_somewhere(&mut random, &mut lines) else { continue };
                if second.put(&mut random, &mut lines, at) {
                    tally.count(table_check(&table_text(&lines)));
                    rounds += 1;
                }
                if rounds == 12 {
                    break;
                }
            }
        }
    }
    tally.assert_at_least(&[(2, 500), (3, 500), (4, 200), (5, 1_000), (6, 200), (7, 100), (8, 30), (9, 10)]);
}

/// Several faults of one path, where only the smallest number may be named.
#[test]
fn several_faults_in_one_path() {
    let mut random = Random::new(0x25);
    let mut tally = Tally::default();
    for _ in 0..10_000 {
        let mut lines = dense_table(&mut random);
        if let Some(Line::Rule(rule)) = lines.last_mut() {
            let count = random.between(1, 3);
            for _ in 0..count {
                let fault = *random.pick(&FAULTS);
                put_fault(&mut random, &mut rule.path, fault);
            }
            tally.count(table_check(&table_text(&lines)));
        }
    }
    tally.assert_at_least(&[(5, 2_000), (6, 800), (7, 600), (8, 150)]);
}

#[test]
fn damaged_texts() {
    let mut random = Random::new(0x26);
    let mut tally = Tally::default();
    for _ in 0..30_000 {
        let mut text = table_text(&dense_table(&mut random));
        damage(&mut random, &mut text, b"0123456789abcdef0123456789abcdef\n");
        tally.count(table_check(&text));
    }
    tally.assert_at_least(&[(0, 1_500), (2, 15_000), (3, 3_000), (6, 800), (9, 250)]);
}

/// Damage that leaves hex lines whole: frame bytes changed, lines moved and doubled.
#[test]
fn damaged_frames() {
    let mut random = Random::new(0x27);
    let mut tally = Tally::default();
    for _ in 0..30_000 {
        let mut frames: Vec<Vec<u8>> = dense_table(&mut random).iter().map(Line::frame).collect();
        let at = random.below(frames.len());
        match random.below(6) {
            0 => frames.insert(at, frames[random.below(frames.len())].clone()),
            1 => drop(frames.remove(at)),
            2 => frames.swap(at, 0),
            _ => {
                let marks = [0, 1, 2, 3, 4, 5, 16, 17, 32, 33, 64, 65, b'*', b'.', b'a', b'g', b'u', 0x7F];
                damage(&mut random, &mut frames[at], &marks);
            }
        }
        let text: Vec<u8> = frames.iter().flat_map(|frame| hex_line(frame)).collect();
        tally.count(table_check(&text));
    }
    tally.assert_at_least(&[(0, 3_000), (2, 100), (3, 8_000), (4, 4_000), (6, 600), (8, 1_500), (9, 800)]);
}

/// Every byte at every place of the table of E to K, over the byte that is there.
#[test]
fn every_byte_at_every_place() {
    let mut tally = Tally::default();
    let text = vectors::EXAMPLES_E_TO_K.as_bytes();
    for at in 0..text.len() {
        for byte in 0..=255u8 {
            let mut over = text.to_vec();
            over[at] = byte;
            tally.count(table_check(&over));
        }
        tally.count(table_check(&text[..at]));
    }
    tally.assert_at_least(&[(0, 400), (2, 10_000), (3, 400), (6, 80), (9, 40)]);
}

/// Every byte as every byte of the frames of E to K.
#[test]
fn every_frame_byte() {
    let mut tally = Tally::default();
    let frames: Vec<Vec<u8>> = vectors::EXAMPLES_E_TO_K
        .lines()
        .map(|line| (0..line.len() / 2).map(|i| u8::from_str_radix(&line[2 * i..2 * i + 2], 16).unwrap()).collect())
        .collect();
    for line in 0..frames.len() {
        for at in 0..frames[line].len() {
            for byte in 0..=255u8 {
                let mut changed = frames.clone();
                changed[line][at] = byte;
                let text: Vec<u8> = changed.iter().flat_map(|frame| hex_line(frame)).collect();
                tally.count(table_check(&text));
            }
        }
    }
    tally.assert_at_least(&[(0, 2_000), (3, 4_000), (6, 1_000), (7, 2), (9, 200)]);
}

fn rule(id: &str, subject: &str, path: Path) -> Rule {
    Rule {
        action: 1,
        mode: 1,
        subject_kind: 0,
        subject: subject.as_bytes().to_vec(),
        id: id.as_bytes().to_vec(),
        origin: Vec::new(),
        path,
    }
}

/// "64 and 65 groups likewise", members and rules too.
#[test]
fn counts_on_both_sides_of_their_limits() {
    let groups = |count: usize| (0..count).map(|i| Line::group(&format!("g{i}"))).collect::<Vec<_>>();
    let members = |count: usize| (0..count).map(|i| Line::member(&format!("g{}", i % 64), &format!("u{i}")));
    let rules = |count: usize| (0..count).map(|i| Line::Rule(rule(&format!("r{i}"), "u", Path::default())));
    let table = |lines: Vec<Line>| table_text(&[vec![Line::version("v1")], lines].concat());

    assert_eq!(table_check(&table(groups(64))), 0);
    assert_eq!(table_check(&table(groups(65))), refusal(5, 66));
    let with_members = |count| table([groups(64), members(count).collect()].concat());
    assert_eq!(table_check(&with_members(512)), 0);
    assert_eq!(table_check(&with_members(513)), refusal(5, 1 + 64 + 513));
    assert_eq!(table_check(&table(rules(256).collect())), 0);
    assert_eq!(table_check(&table(rules(257).collect())), refusal(5, 258));

    // The line past the limit has a smaller or a larger fault besides.
    for (extra, number) in [(Line::group("g0"), 5), (Line::group("\x7f"), 5), (Line::Frame(b"\x02\x02g".to_vec()), 3)] {
        assert_eq!(table_check(&table([groups(64), vec![extra]].concat())), refusal(number, 66));
    }
    let all = [groups(64), members(512).collect(), rules(256).collect()].concat();
    assert_eq!(table_check(&table(all)), 0);

    // A user in all 64 groups, and one in the last only.
    let everywhere = (0..64).map(|i| Line::member(&format!("g{i}"), "everywhere"));
    let text = table([groups(64), everywhere.collect(), vec![Line::member("g63", "last")]].concat());
    assert_eq!(group_count(&text, b"everywhere"), 1 << 16 | 64 << 8);
    assert_eq!(group_count(&text, b"last"), 64 << 16 | 1 << 8);
    assert_eq!(group_count(&text, b"nobody"), 0);
}

/// Lengths of every string about its limit, where the bytes are there.
#[test]
fn strings_on_both_sides_of_their_limits() {
    let text_of = |len: usize| "s".repeat(len);
    for len in [0, 1, 2, 31, 32, 33, 34, 63, 64, 65, 66, 127, 128, 200, 255] {
        let long = |shortest: usize| if (shortest..=64).contains(&len) { 0 } else { 5 };
        let short = |shortest: usize| if (shortest..=32).contains(&len) { 0 } else { 5 };
        let expect = |lines: &[Line], number: u8| {
            let answer = table_check(&table_text(lines));
            assert_eq!(answer, if number == 0 { 0 } else { refusal(number, lines.len()) }, "{len} in {lines:?}");
        };
        let v1 = || Line::version("v1");
        expect(&[Line::version(&text_of(len))], short(1));
        expect(&[v1(), Line::group(&text_of(len))], long(1));
        expect(&[v1(), Line::group("g"), Line::member("g", &text_of(len))], long(1));
        let faulty_group = if long(1) == 0 { 9 } else { 5 };
        expect(&[v1(), Line::group("g"), Line::member(&text_of(len), "u")], faulty_group);
        expect(&[v1(), Line::Rule(rule("r", &text_of(len), Path::default()))], long(1));
        expect(&[v1(), Line::Rule(rule(&text_of(len), "u", Path::default()))], short(1));
        let with_origin = Rule { origin: text_of(len).into_bytes(), ..rule("r", "u", Path::default()) };
        expect(&[v1(), Line::Rule(with_origin)], short(0));
        let group_rule = Rule { subject_kind: 1, ..rule("r", &text_of(len), Path::default()) };
        expect(&[v1(), Line::Rule(group_rule)], faulty_group);
        for (name_len, key_len, value_len) in [(len, 1, 1), (1, len, 1), (1, 1, len)] {
            let bytes = |len| text_of(len).into_bytes();
            let keys = vec![Key { name: bytes(key_len), value: bytes(value_len) }];
            let path = Path { elements: vec![Element { name: bytes(name_len), keys }] };
            expect(&[v1(), Line::Rule(rule("r", "u", path))], long(1));
        }
    }
}

/// Counts of elements and keys, whole and one byte short.
#[test]
fn path_counts_on_both_sides_of_their_limits() {
    let head = b"\x04\x01\x01\x00\x01u\x01r\x00";
    for count in 0..=255usize {
        let elements = [&head[..], &[count as u8], &b"\x01a\x00".repeat(count)].concat();
        let keys: Vec<u8> =
            (0..count).flat_map(|i| [2, b'a' + (i % 26) as u8, b'a' + (i / 26) as u8, 1, b'*']).collect();
        let keyed = [&head[..], &[1, 1, b'a', count as u8], &keys].concat();
        let twice = [&head[..], &[1, 1, b'a', count as u8], &b"\x01k\x01v".repeat(count)].concat();
        let expectations = [
            (&elements, if count <= 16 { 0 } else { 5 }),
            (&keyed, if count <= 4 { 0 } else { 5 }),
            (
                &twice,
                if count <= 1 {
                    0
                } else if count <= 4 {
                    8
                } else {
                    5
                },
            ),
        ];
        for (frame, number) in expectations {
            let text = |frame: &[u8]| [vectors::VERSION_ONLY.as_bytes(), &hex_line(frame)].concat();
            let expected = if number == 0 { 0 } else { refusal(number, 2) };
            assert_eq!(table_check(&text(frame)), expected, "count {count}");
            assert_eq!(table_check(&text(&frame[..frame.len() - 1])), refusal(3, 2), "count {count}");
        }
    }
}

#[test]
fn texts_at_the_length_limit() {
    let mut random = Random::new(0x28);
    for len in [300, 301, 1_000, 4_001, 32_766, 32_767, limits::TABLE_TEXT] {
        let mut text = table_of_length(&mut random, len, 160);
        assert_eq!(table_check(&text), 0, "{len} bytes");
        assert_eq!(group_count(&text, b"u"), 0x1_0100);
        text.pop();
        let lines = text.iter().filter(|b| **b == b'\n').count();
        assert_eq!(table_check(&text), refusal(2, lines + 1));
    }
    // One byte more: good but for its length, and bad besides.
    let long = table_of_length(&mut random, limits::TABLE_TEXT + 1, 160);
    assert_eq!(table_check(&long), refusal(1, 0));
    assert_eq!(group_count(&long, b""), refusal(1, 0));
    for byte in [b'0', b'\n', 0xFF] {
        assert_eq!(table_check(&vec![byte; limits::TABLE_TEXT + 1]), refusal(1, 0));
        assert_eq!(table_check(&vec![byte; limits::TABLE_TEXT]), refusal(2, 1));
        assert_eq!(table_check(&vec![byte; 100_000]), refusal(1, 0));
    }
    // A long text whose last line alone is at fault.
    let mut text = table_of_length(&mut random, limits::TABLE_TEXT - 7, 160);
    let lines = text.iter().filter(|b| **b == b'\n').count();
    text.extend(b"020167\n");
    assert_eq!(table_check(&text), refusal(4, lines + 1));
}

/// Large tables of short names that are much alike: good ones, and ones where a group
/// name, a member in its group or a rule id stands twice, far apart or side by side.
#[test]
fn twice_in_large_tables() {
    let mut random = Random::new(0x29);
    let mut tally = Tally::default();
    for round in 0..150usize {
        let mut lines = large_table(&mut random);
        let text = table_text(&lines);
        assert_eq!(table_check(&text), 0);
        for user in ["a", "ab", "bca", "none"] {
            group_count(&text, user.as_bytes());
        }
        let kind = 2 + (round % 3) as u8;
        let of_kind: Vec<usize> = (0..lines.len()).filter(|at| lines[*at].kind() == kind).collect();
        let (first, second) = (random.below(of_kind.len()), random.below(of_kind.len()));
        if first != second {
            let (earlier, later) = (of_kind[first.min(second)], of_kind[first.max(second)]);
            lines[later] = lines[earlier].clone();
            let answer = table_check(&table_text(&lines));
            assert_eq!(answer, refusal(8, later + 1));
            tally.count(answer);
        }
    }
    tally.assert_at_least(&[(8, 130)]);
}

fn large_table(random: &mut Random) -> Vec<Line> {
    let groups = distinct_names(random, 64);
    let mut lines = vec![Line::version("v1")];
    lines.extend(groups.iter().map(|name| Line::group(name)));
    let mut members = HashSet::new();
    while members.len() < 400 {
        let (group, user) = (random.pick(&groups).clone(), short_name(random));
        if members.insert((group.clone(), user.clone())) {
            lines.push(Line::member(&group, &user));
        }
    }
    lines.extend(distinct_names(random, 250).iter().map(|id| Line::Rule(rule(id, "u", Path::default()))));
    lines
}

fn distinct_names(random: &mut Random, count: usize) -> Vec<String> {
    let mut names = Vec::new();
    while names.len() < count {
        let name = short_name(random);
        if !names.contains(&name) {
            names.push(name);
        }
    }
    names
}

/// One to six bytes out of three.
fn short_name(random: &mut Random) -> String {
    let len = random.between(1, 6);
    String::from_utf8(random.bytes_of(b"abc", len)).expect("ASCII")
}

/// Names that differ in length or case only, and names in two roles.
#[test]
fn names_that_are_nearly_the_same() {
    let mut lines = vec![Line::version("v1")];
    lines.extend(["g", "G", "gg", " g", "g "].map(Line::group));
    lines.extend([("g", "g"), ("g", "gg"), ("gg", "g"), ("G", "g")].map(|(group, user)| Line::member(group, user)));
    let text = table_text(&lines);
    assert_eq!(table_check(&text), 0);
    assert_eq!(group_count(&text, b"g"), 1 << 16 | 3 << 8);
    assert_eq!(group_count(&text, b"gg"), 1 << 16 | 1 << 8);
    assert_eq!(group_count(&text, b"G"), 0);
    assert!(GROUP_NAMES.contains(&"u") && USERS.contains(&"g"), "a name stands for a user and for a group");
}

/// Groups, members and ids that the proved library's hashes cannot tell apart, and members in
/// any order; each member or rule once more is refused.
#[test]
fn names_of_one_hash() {
    let mut random = Random::new(0x29);
    let tables = [
        table_of_colliding_groups("", 64, 256),
        table_of_colliding_groups("group-of-", 64, 256),
        table_of_colliding_members("", 256, false),
        table_of_colliding_members("a-user-that-begins-like", 256, true),
        table_of_colliding_ids("rule-id-that-begins-like-all", 255),
        table_of_shuffled_members(&mut random, 64, 256),
    ];
    for text in tables {
        assert_eq!(table_check(&text), 0);
        for user in ["user-000", "user-042", "aAaAaAaAaAaAaAaA", "`baAaAaAaAaAaAaA", "nobody"] {
            group_count(&text, user.as_bytes());
        }
        let lines: Vec<&[u8]> = text.split_inclusive(|b| *b == b'\n').collect();
        for line in lines.iter().filter(|line| line[1] == lines[lines.len() - 1][1]).step_by(7) {
            let again = [&text, *line].concat();
            assert_eq!(table_check(&again), refusal(8, lines.len() + 1));
        }
    }
}
