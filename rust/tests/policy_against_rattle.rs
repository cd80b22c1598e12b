//! The check of a policy: the proved call against the Rust one.

use burgee_rust::compare::policy_check;
use burgee_rust::generate::damage::damage;
use burgee_rust::generate::policy::{good_policy, nested_object, object_of_members, policy_of_length, Names};
use burgee_rust::generate::policy_fault::{put_json_fault, put_member_twice, put_schema_fault, PART_FAULTS};
use burgee_rust::generate::short::for_each_short_string;
use burgee_rust::limits;
use burgee_rust::random::Random;
use burgee_rust::tally::Tally;
use burgee_rust::vectors::{JSON, NO_JSON, POLICIES, POLICY_OF_NOBODY};

fn expect(text: &str, number: u64) {
    assert_eq!(policy_check(text.as_bytes()), number, "{text}");
}

#[test]
fn policies_of_the_papers() {
    for text in POLICIES {
        expect(text, 0);
    }
}

#[test]
fn good_policies() {
    let mut random = Random::new(0x41);
    for _ in 0..6_000 {
        let text = good_policy(&mut random).text(&mut random);
        assert_eq!(policy_check(&text), 0);
    }
}

#[test]
fn each_part_fault_alone() {
    let mut random = Random::new(0x42);
    for fault in PART_FAULTS {
        for _ in 0..250 {
            let mut policy = good_policy(&mut random);
            fault.put(&mut random, &mut policy);
            let text = policy.text(&mut random);
            assert_eq!(policy_check(&text), u64::from(fault.number), "{}: {}", fault.name, text.escape_ascii());
        }
    }
}

#[test]
fn each_shape_fault_alone() {
    let mut random = Random::new(0x43);
    for _ in 0..4_000 {
        let mut node = good_policy(&mut random).node(&mut random);
        put_member_twice(&mut random, &mut node);
        assert_eq!(policy_check(&node.text(&mut random, false)), 32);
        let mut node = good_policy(&mut random).node(&mut random);
        put_schema_fault(&mut random, &mut node);
        assert_eq!(policy_check(&node.text(&mut random, true)), 33);
        let mut text = good_policy(&mut random).text(&mut random);
        put_json_fault(&mut random, &mut text);
        assert_eq!(policy_check(&text), 31, "{}", text.escape_ascii());
    }
}

/// Any two or three faults together: the smallest number is to be given.
#[test]
fn faults_in_pairs() {
    let mut random = Random::new(0x44);
    let mut tally = Tally::default();
    for first in PART_FAULTS {
        for second in PART_FAULTS {
            for round in 0..16 {
                let mut policy = good_policy(&mut random);
                first.put(&mut random, &mut policy);
                second.put(&mut random, &mut policy);
                let mut node = policy.node(&mut random);
                match round {
                    12 => put_schema_fault(&mut random, &mut node),
                    13 => put_member_twice(&mut random, &mut node),
                    14 => {
                        put_member_twice(&mut random, &mut node);
                        put_schema_fault(&mut random, &mut node);
                    }
                    _ => {}
                }
                let mut text = node.text(&mut random, false);
                if round == 15 {
                    put_json_fault(&mut random, &mut text);
                }
                tally.count(policy_check(&text));
            }
        }
    }
    tally.assert_at_least(&[(31, 150), (32, 300), (33, 150), (34, 250), (35, 1_000), (36, 30), (37, 30), (38, 30)]);
}

#[test]
fn damaged_texts() {
    let mut random = Random::new(0x45);
    let mut tally = Tally::default();
    for _ in 0..30_000 {
        let mut text = good_policy(&mut random).text(&mut random);
        damage(&mut random, &mut text, b"{}[],:\"\"\\ *ak\n\t\0\x7f");
        tally.count(policy_check(&text));
    }
    tally.assert_at_least(&[(0, 2_500), (31, 15_000), (33, 3_000), (36, 60), (37, 20)]);
}

/// Every byte at every place of a small policy, stored over and put between.
#[test]
fn every_byte_at_every_place() {
    let mut tally = Tally::default();
    let text = br#"{"name":"p","allow_rules":[{"name":"r","request":{"headers":[{"key":"k","values":["v*"]}]}}]}"#;
    assert_eq!(policy_check(text), 0);
    for at in 0..=text.len() {
        for byte in 0..=255u8 {
            if at < text.len() {
                let mut over = text.to_vec();
                over[at] = byte;
                tally.count(policy_check(&over));
            }
            let mut between = text.to_vec();
            between.insert(at, byte);
            tally.count(policy_check(&between));
        }
        tally.count(policy_check(&text[..at]));
    }
    tally.assert_at_least(&[(0, 500), (31, 20_000), (33, 3_000), (36, 3), (37, 80)]);
}

/// Every short string out of the bytes that JSON gives a meaning: 33 for one JSON
/// value, 31 for none. The Rust parser was compared with another one on such strings.
#[test]
fn every_short_json() {
    let mut tally = Tally::default();
    for (set, longest) in [(&b"-01.eE+"[..], 5), (b"\"\\u0Dn", 6), (b"{}[],:\"1 ", 5), (b"nultrefas", 4)] {
        for_each_short_string(set, longest, |text| tally.count(policy_check(text)));
    }
    for hex in [&b"0aFg"[..], b"9fAx"] {
        for_each_short_string(hex, 4, |digits| {
            tally.count(policy_check(&[b"\"\\u", digits, b"\""].concat()));
        });
    }
    tally.assert_at_least(&[(31, 100_000), (33, 1_800)]);
}

#[test]
fn corners_of_json() {
    // As the whole text and as a member that the schema doesn't know.
    let is_json = |value: &str, number: u64| {
        expect(value, number);
        expect(&format!(r#"{{"name":"p","allow_rules":[],"x":{value}}}"#), number);
        expect(&format!(r#"{{"name":"p","allow_rules":[{value}]}}"#), number);
    };
    for good in JSON {
        is_json(good, 33);
    }
    for bad in NO_JSON {
        is_json(bad, 31);
    }
    // Twice in one object, at any depth, also where the schema knows no object.
    for twice in [r#"{"a":1,"a":2}"#, r#"{"":1,"":1}"#, r#"[[{"x":{"b":1,"c":2,"b":3}}]]"#, r#"{"\n":1,"\n":1}"#] {
        is_json(twice, 32);
    }
    for once in [r#"{"a":1,"\u0061":2}"#, r#"{"a":1,"A":2}"#, r#"{"a":{"a":{"a":1}}}"#, r#"[{"a":1},{"a":1}]"#] {
        is_json(once, 33);
    }
    is_json(r#"{"a":1,"a":2"#, 31);
}

#[test]
fn depth_on_both_sides() {
    let nested =
        |open: &str, inside: &str, close: &str, depth: usize| open.repeat(depth) + inside + &close.repeat(depth);
    for (open, close) in [("[", "]"), (r#"{"a":"#, "}"), (r#"[{"a":"#, "}]")] {
        let levels = open.matches(['[', '{']).count();
        for inside in ["1", "[]", "{}", "\"[[[[\""] {
            let more = usize::from(inside == "[]" || inside == "{}");
            for depth in 1..=20 / levels {
                let number = if depth * levels + more <= 16 { 33 } else { 31 };
                expect(&nested(open, inside, close, depth), number);
            }
        }
    }
    expect(&"[".repeat(16_384), 31);
    expect(&"[".repeat(16_385), 30);
}

/// Objects with many members, the first or the last of them twice.
#[test]
fn many_members() {
    for count in [2usize, 8, 9, 10, 100, 1_500] {
        let names: Vec<String> = (0..count).map(|n| format!(r#""{n}":0"#)).collect();
        expect(&format!("{{{}}}", names.join(",")), 33);
        expect(&format!("{{{},{}}}", names.join(","), names[0]), 32);
        expect(&format!("{{{},{}}}", names.join(","), names[count - 1]), 32);
    }
    for order in [Names::Rising, Names::Falling, Names::Shuffled] {
        let text = object_of_members(limits::POLICY_TEXT - 2, order);
        assert_eq!(policy_check(&text), 33);
        let members: Vec<&[u8]> = text[1..text.len() - 1].split(|&byte| byte == b',').collect();
        let last = members.len() - 1;
        assert!(last > 2_300);
        for (place, other) in [(0, last), (last, 0), (0, 1), (last, last - 1), (7, 1_200), (1_200, 7)] {
            let mut members = members.clone();
            members[place] = members[other];
            assert_eq!(policy_check(&[b"{", &members.join(&b',')[..], b"}"].concat()), 32);
        }
    }
}

/// The names of an object are kept while the objects inside it are looked through.
#[test]
fn members_around_others() {
    for levels in 1..=16 {
        assert_eq!(policy_check(&nested_object(limits::POLICY_TEXT, levels)), 33);
    }
    let inside = r#"{"a":1,"b":[{"a":1,"c":2},{"c":{"a":{},"d":1}}],"c":{"b":{"a":1,"b":2,"c":3}}}"#;
    for name in ["a", "b", "c", "d", "e"] {
        let text = format!(r#"{{"b":{inside},"d":{inside},"{name}":{inside},"a":0}}"#);
        expect(&text, if "abd".contains(name) { 32 } else { 33 });
    }
}

/// Objects inside objects that share their names, and hardly ever have one twice: up to
/// 12,000 bytes, so that they also share most of the places where names are kept.
#[test]
fn names_shared_by_objects() {
    let mut random = Random::new(0x46);
    let mut tally = Tally::default();
    for round in 0..600 {
        let mut budget = [200, 2_500, 12_000][round % 3];
        let text = some_object(&mut random, 1, &mut budget);
        tally.count(policy_check(text.as_bytes()));
    }
    tally.assert_at_least(&[(32, 100), (33, 100)]);
}

/// An object that stands `depth` deep, its names rising but for one in 1,000.
fn some_object(random: &mut Random, depth: usize, budget: &mut usize) -> String {
    let mut members = Vec::new();
    let mut name = 0;
    while *budget > 0 && (depth == 1 || !random.one_in(9)) {
        *budget = budget.saturating_sub(8);
        name = if random.one_in(1_000) { random.below(name + 1) } else { name + random.between(1, 3) };
        let value = match random.below(3) {
            0 if depth < 16 => some_object(random, depth + 1, budget),
            _ => "0".into(),
        };
        members.push(format!(r#""{name}":{value}"#));
    }
    random.shuffle(&mut members);
    format!("{{{}}}", members.join(","))
}

#[test]
fn lengths_on_both_sides() {
    for (len, number) in [(16_383, 0), (16_384, 0), (16_385, 30), (40_000, 30)] {
        let padding = " ".repeat(len - POLICY_OF_NOBODY.len());
        expect(&format!("{POLICY_OF_NOBODY}{padding}"), number);
        expect(&format!("{padding}{POLICY_OF_NOBODY}"), number);
    }
    expect(&"x".repeat(16_385), 30);
    for kilobytes in [1, 4, 16] {
        assert_eq!(policy_check(&policy_of_length(kilobytes * 1_024)), 0);
    }

    let name = |len: usize| "n".repeat(len);
    let header = |key: &str, values: &str| {
        format!(
            r#"{{"name":"p","allow_rules":[{{"name":"r","request":{{"headers":[{{"key":"{key}","values":[{values}]}}]}}}}]}}"#
        )
    };
    for (len, number) in [(0, 35), (1, 0), (255, 0), (256, 0), (257, 35), (1_000, 35)] {
        expect(&format!(r#"{{"name":"{}","allow_rules":[]}}"#, name(len)), number);
        expect(&format!(r#"{{"name":"p","allow_rules":[{{"name":"{}"}}]}}"#, name(len)), number);
        expect(&header(&name(len), "\"v\""), number);
        let pattern_number = if len == 0 { 0 } else { number };
        expect(&header("k", &format!("\"{}\"", name(len))), pattern_number);
        expect(
            &format!(r#"{{"name":"p","allow_rules":[{{"name":"r","source":{{"principals":["{}"]}}}}]}}"#, name(len)),
            pattern_number,
        );
    }
    for (count, number) in [(0, 0), (1, 0), (31, 0), (32, 0), (33, 35), (64, 35)] {
        let entries = vec!["\"x\""; count].join(",");
        let rule =
            |inside: String| format!(r#"{{"name":"p","deny_rules":[{{"name":"r",{inside}}}],"allow_rules":[]}}"#);
        expect(&rule(format!(r#""source":{{"principals":[{entries}]}}"#)), number);
        expect(&rule(format!(r#""request":{{"paths":[{entries}]}}"#)), number);
        expect(&header("k", &entries), if count == 0 { 35 } else { number });
        let headers = vec![r#"{"key":"k","values":[""]}"#; count].join(",");
        expect(&rule(format!(r#""request":{{"headers":[{headers}]}}"#)), number);
    }
    for (count, number) in [(63, 0), (64, 0), (65, 35)] {
        let rules: Vec<String> = (0..count).map(|n| format!(r#"{{"name":"{n}"}}"#)).collect();
        expect(&format!(r#"{{"name":"p","allow_rules":[{}]}}"#, rules.join(",")), number);
        expect(&format!(r#"{{"name":"p","allow_rules":[],"deny_rules":[{}]}}"#, rules.join(",")), number);
        expect(&format!(r#"{{"name":"p","allow_rules":[{0}],"deny_rules":[{0}]}}"#, rules.join(",")), number);
    }
    assert_eq!((limits::POLICY_RULES, limits::POLICY_ENTRIES, limits::POLICY_STRING), (64, 32, 256));
}

#[test]
fn header_keys() {
    let text = |key: &[u8]| {
        let (before, after) = (
            &br#"{"name":"p","allow_rules":[{"name":"r","request":{"headers":[{"key":""#[..],
            &br#"","values":["v"]}]}}]}"#[..],
        );
        [before, key, after].concat()
    };
    let barred =
        "host connection keep-alive proxy-authenticate proxy-authorization te trailer transfer-encoding upgrade";
    for key in barred.split(' ') {
        assert_eq!(policy_check(&text(key.as_bytes())), 37, "{key}");
        assert_eq!(policy_check(&text(format!("{key}x").as_bytes())), 0, "{key}");
        assert_eq!(policy_check(&text(format!("x{key}").as_bytes())), 0, "{key}");
        assert_eq!(policy_check(&text(&key.as_bytes()[..key.len() - 1])), 0, "{key}");
        assert_eq!(policy_check(&text(key.to_uppercase().as_bytes())), 37, "{key}");
    }
    for (key, number) in
        [("grpc", 0), ("grpc-", 37), ("grpc-x", 37), ("grpc_x", 0), ("xgrpc-", 0), ("grpc.", 0), ("GRPC-", 37)]
    {
        assert_eq!(policy_check(&text(key.as_bytes())), number, "{key}");
    }
    for byte in 0..=255u8 {
        policy_check(&text(&[byte]));
        policy_check(&text(&[b'k', byte]));
    }
}

/// Every pattern of up to five bytes out of three, in each role.
#[test]
fn every_short_pattern() {
    let mut tally = Tally::default();
    for_each_short_string(b"*a/", 5, |pattern| {
        let stars = pattern.iter().filter(|b| **b == b'*').count();
        let at_end = pattern.first() == Some(&b'*') || pattern.last() == Some(&b'*');
        let number = if stars == 0 || stars == 1 && at_end { 0 } else { 36 };
        for (before, after) in [
            (r#""source":{"principals":[""#, r#""]}"#),
            (r#""request":{"paths":["x",""#, r#""]}"#),
            (r#""request":{"headers":[{"key":"k","values":[""#, r#"","y"]}]}"#),
        ] {
            let text = [
                br#"{"name":"*p*","allow_rules":[{"name":"r**","#,
                before.as_bytes(),
                pattern,
                after.as_bytes(),
                b"}]}",
            ]
            .concat();
            let answer = policy_check(&text);
            assert_eq!(answer, number, "{}", pattern.escape_ascii());
            tally.count(answer);
        }
    });
    tally.assert_at_least(&[(0, 300), (36, 500)]);
}
