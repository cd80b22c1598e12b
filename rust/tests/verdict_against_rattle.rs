//! The path and the tree verdict: the proved calls against the Rust ones, and on
//! small tables against the enumeration too.

use std::cmp::Reverse;

use burgee_rust::brute::{Asker, Model, Tree};
use burgee_rust::compare::{path_verdict, tree_verdict};
use burgee_rust::generate::damage::damage;
use burgee_rust::generate::path::{good_path, Path, TEXT_MARKS};
use burgee_rust::generate::table::{
    dense_table, focused_table, path_near, shuffle_each_kind, some_origin, table_of_length, table_text, Line, Rule,
    Shape, USERS,
};
use burgee_rust::generate::table_fault::LINE_FAULTS;
use burgee_rust::generate::worst_tree::worst_trees;
use burgee_rust::random::Random;
use burgee_rust::request::PathRequest;
use burgee_rust::tally::Tally;
use burgee_rust::vectors::*;
use burgee_rust::word;

const READ: u32 = 1;
const WRITE: u32 = 2;

/// Answer words.
const DENY: u64 = 0;
const NONE: u64 = 0;
const ALL: u64 = 1 << 8;

fn permit_by(rule: u64) -> u64 {
    1 << 8 | (rule + 1) << 16
}

fn deny_by(rule: u64) -> u64 {
    (rule + 1) << 16
}

fn mixed_by(rule: u64) -> u64 {
    2 << 8 | (rule + 1) << 16
}

/// Asks for both verdicts, the path's and the tree's.
fn compare(table: &[u8], request: &PathRequest) -> (u64, u64) {
    (path_verdict(table, request), tree_verdict(table, request))
}

fn asks(table: &str, user: &str, mode: u32, origin: &str, path: &str) -> (u64, u64) {
    let request = PathRequest { user: user.as_bytes(), mode, origin: origin.as_bytes(), path: path.as_bytes() };
    compare(table.as_bytes(), &request)
}

/// How often each verdict came.
#[derive(Default)]
struct Verdicts {
    permit: usize,
    deny: usize,
    default: usize,
    none: usize,
    all: usize,
    mixed: usize,
}

impl Verdicts {
    fn count(&mut self, (path, tree): (u64, u64)) {
        if word::refusal_number(path) != 0 {
            return;
        }
        match path {
            DENY => self.default += 1,
            path if path >> 8 & 0xFF == 1 => self.permit += 1,
            _ => self.deny += 1,
        }
        match tree >> 8 & 0xFF {
            0 => self.none += 1,
            1 => self.all += 1,
            _ => self.mixed += 1,
        }
    }

    fn assert_each_at_least(&self, minimum: usize) {
        let paths = [self.permit, self.deny, self.default];
        let trees = [self.none, self.all, self.mixed];
        let shown = format!("permit, deny, default: {paths:?}; NONE, ALL, MIXED: {trees:?}");
        assert!(paths.iter().chain(&trees).all(|count| *count >= minimum), "under {minimum}: {shown}");
    }
}

#[test]
fn examples_a_to_d() {
    let path = "/network-instances/network-instance[name=DEFAULT]/protocols/protocol[identifier=BGP]";
    assert_eq!(asks(EXAMPLE_A, "stevie", READ, "", path).0, permit_by(0));
    assert_eq!(asks(EXAMPLE_B, "stevie", READ, "", path).0, permit_by(0));
    assert_eq!(asks(EXAMPLE_C, "stevie", READ, "", path).0, deny_by(1));
    assert_eq!(asks(EXAMPLE_D, "stevie", READ, "", path).0, deny_by(1));
}

#[test]
fn examples_e_to_k() {
    let asks = |user, mode, path| asks(EXAMPLES_E_TO_K, user, mode, "", path);
    assert_eq!(asks("u", READ, "/a/b"), (permit_by(0), ALL));
    assert_eq!(asks("u", READ, "/ab"), (DENY, NONE));
    assert_eq!(asks("v", READ, "/a"), (DENY, NONE));
    assert_eq!(asks("u", READ, "/a[k=9]"), (permit_by(0), ALL));
    assert_eq!(asks("u", READ, "/"), (DENY, mixed_by(0)));
    assert_eq!(asks("u", READ, "/a"), (permit_by(0), ALL));
    assert_eq!(asks("u", WRITE, "/a"), (DENY, NONE));
}

#[test]
fn a_table_with_its_version_only_denies_all() {
    for path in ["/", "/a", "/a[k=1]/b"] {
        assert_eq!(asks(VERSION_ONLY, "u", READ, "", path), (DENY, NONE));
        assert_eq!(asks(VERSION_ONLY, "u", WRITE, "oc", path), (DENY, NONE));
    }
}

/// "A subscription is accepted on P's own verdict, whatever the tree answer."
#[test]
fn example_5_of_001() {
    let asks = |user, path| asks(INTERFACES, user, READ, "", path);
    let all = "/interfaces/interface/state/counters";
    let one = "/interfaces/interface[name=et-1/0/1]/state/counters";
    assert_eq!(asks("eng1", all), (permit_by(1), ALL));
    assert_eq!(asks("customer-controller1", all), (DENY, mixed_by(2)));
    assert_eq!(asks("customer-controller1", one), (permit_by(2), ALL));
    assert_eq!(asks("core-controller1", all), (permit_by(0), mixed_by(4)));
    assert_eq!(asks("core-controller1", one), (deny_by(4), NONE));
}

/// "Permitted use", "Not permitted use" of wildcards.
#[test]
fn wildcards_of_001() {
    let asks = |path| asks(VERSION_ONLY, "u", READ, "", path).0;
    for permitted in ["/a/b[key=*]/c/d", "/this/is/a/keyed[name=*]/things"] {
        assert_eq!(asks(permitted), DENY);
    }
    for not_permitted in ["/a/b[key=foo]/*/d", "/this/is/a/keyed[name=Ethernet1/*/3]/things"] {
        assert_eq!(asks(not_permitted), 22);
    }
}

#[test]
fn message_paths_of_001() {
    let asks = |user: &str, mode, path: &str| asks(MESSAGE_PATHS, user, mode, "foo", path);
    for end in ["", "/the", "/the/one", "/the/one/that", "/the/one/that/knocks"] {
        assert_eq!(asks("stevie", READ, &format!("/this/is/a/message_path{end}")), (permit_by(0), ALL));
        assert_eq!(asks("stevie", WRITE, &format!("/this/is/a/message_path{end}")), (DENY, NONE));
    }
    for end in ["", "/foo", "/bar", "/foo/baz/bing/boop"] {
        let path = format!("/this/is/a/different/message_path{end}");
        assert_eq!(asks("brian", READ, &path), (permit_by(1), ALL));
        assert_eq!(asks("brian", WRITE, &path), (permit_by(2), ALL));
        assert_eq!(asks("crusty", READ, &path), (DENY, NONE));
    }
    let keyed = |value: &str| format!("/this/is/a/keyed[Ethernet={value}]/message_path");
    assert_eq!(asks("crusty", READ, &keyed("1/2/3")), (permit_by(3), ALL));
    assert_eq!(asks("crusty", READ, &keyed("1/2/4")), (DENY, NONE));
    assert_eq!(asks("crusty", READ, "/this/is/a/keyed/message_path"), (DENY, mixed_by(3)));
    for value in ["Ethernet1/2/3", "POS3", "Serial4/1", "HSSI2"] {
        assert_eq!(asks("stevie", READ, &keyed(value)), (permit_by(4), ALL));
        assert_eq!(asks("brian", READ, &keyed(value)), (deny_by(5), NONE));
    }
    assert_eq!(asks("brian", READ, "/"), (DENY, mixed_by(1)));
}

/// The slips that paper 01 has seen.
#[test]
fn slips() {
    let rule = |id: &str, action, path: &str| line(id, action, path);
    let table = |rules: &[Line]| table_text(&[&[Line::version("v1")], rules].concat());
    let ask = |table: &[u8], path: &str| {
        compare(table, &PathRequest { user: b"u", mode: READ, origin: b"", path: path.as_bytes() })
    };
    // A rule beneath P with no more elements than P.
    let keyed = table(&[rule("r1", 1, "/a"), rule("r2", 0, "/a[k=1]")]);
    assert_eq!(ask(&keyed, "/a"), (permit_by(0), mixed_by(1)));
    assert_eq!(ask(&keyed, "/a[k=2]"), (permit_by(0), ALL));
    assert_eq!(ask(&keyed, "/a[k=*]"), (permit_by(0), mixed_by(1)));
    // The rule named may have P's own action: at the joined path of r2 another decides.
    let own =
        table(&[rule("r1", 1, "/"), rule("r2", 1, "/a[k=1]"), rule("r3", 0, "/a[l=1]"), rule("r0", 0, "/a[k=1]")]);
    assert_eq!(ask(&own, "/"), (permit_by(0), mixed_by(3)));
    let own = table(&[rule("r1", 1, "/"), rule("r0", 1, "/a[k=1]"), rule("r3", 0, "/a[k=1]")]);
    assert_eq!(ask(&own, "/"), (permit_by(0), mixed_by(1)));
    // The smaller id, where a proper prefix is smaller, at any place in the table.
    let ids = table(&[rule("r10", 0, "/a"), rule("r1", 0, "/a"), rule("r2", 0, "/a")]);
    assert_eq!(ask(&ids, "/a"), (deny_by(1), NONE));
}

/// A rule about reading by user `u`.
fn line(id: &str, action: u8, path: &str) -> Line {
    line_about(0, b'u', id, action, path)
}

/// A rule about reading by a user (0) or by a group (1).
fn line_about(subject_kind: u8, subject: u8, id: &str, action: u8, path: &str) -> Line {
    let bytes = burgee_rust::path::path_bytes(path.as_bytes()).expect("a good path");
    let head = [4, action, 1, subject_kind, 1, subject, id.len() as u8];
    Line::Frame([&head, id.as_bytes(), &[0], &bytes].concat())
}

/// All pairs out of some rules that match one request: the better one decides, whichever
/// stands first, and each step of the ranking is the one that tells some of them apart.
#[test]
fn each_step_of_the_ranking() {
    // With each path how many elements and how many definite keys it has.
    let paths = [
        ("/", 0, 0),
        ("/a", 1, 0),
        ("/a[k=*]", 1, 0),
        ("/a[k=1]", 1, 1),
        ("/a[l=2][m=*]", 1, 1),
        ("/a[k=1][l=2]", 1, 2),
        ("/a/b", 2, 0),
        ("/a[k=1]/b", 2, 1),
        ("/a[l=*]/b[k=3]", 2, 1),
        ("/a[l=2]/b[k=3]", 2, 2),
        ("/a[l=2][k=1]/b[k=3]", 2, 3),
    ];
    let request = PathRequest { user: b"u", mode: READ, origin: b"", path: b"/a[k=1][l=2]/b[k=3]" };
    let mut rules = Vec::new();
    for (path, elements, definite) in paths {
        for is_user in [false, true] {
            for is_deny in [false, true] {
                for id in ["q2", "r", "r1"] {
                    let subject = if is_user { (0, b'u') } else { (1, b'g') };
                    let line = line_about(subject.0, subject.1, id, u8::from(!is_deny), path);
                    rules.push((line, (elements, definite, is_user, is_deny, Reverse(id))));
                }
            }
        }
    }
    let head = [Line::version("v1"), Line::group("g"), Line::member("g", "u")];
    let mut told_apart = [0; 5];
    for (first, first_rank) in &rules {
        for (second, second_rank) in &rules {
            if first_rank.4 == second_rank.4 {
                continue;
            }
            let table = table_text(&[&head[..], &[first.clone(), second.clone()]].concat());
            let (number, best) = if first_rank > second_rank { (0, first_rank) } else { (1, second_rank) };
            let expected = if best.3 { deny_by(number) } else { permit_by(number) };
            assert_eq!(compare(&table, &request).0, expected, "{first_rank:?} and {second_rank:?}");
            let step = [
                first_rank.0 != second_rank.0,
                first_rank.1 != second_rank.1,
                first_rank.2 != second_rank.2,
                first_rank.3 != second_rank.3,
                true,
            ];
            told_apart[step.iter().position(|differs| *differs).unwrap_or(4)] += 1;
        }
    }
    assert!(told_apart.iter().all(|count| *count >= 200), "pairs by step: {told_apart:?}");
}

/// Group, member and rule lines in another order, each among its own kind: the same
/// action, the same tree answer, and rules with the same ids.
#[test]
fn lines_in_another_order() {
    let mut random = Random::new(0x3B);
    let mut verdicts = Verdicts::default();
    for round in 0..1_000 {
        let shape = Shape { rules: 2 + round % 12, depth: 1 + round % 3, ..Shape::SMALL };
        let lines = focused_table(&mut random, shape);
        let mut shuffled = lines.clone();
        shuffle_each_kind(&mut random, &mut shuffled);
        let (text, other_text) = (table_text(&lines), table_text(&shuffled));
        for _ in 0..3 {
            let path = path_near(&mut random, &lines, &shape).text();
            let request = PathRequest { user: b"u", mode: READ, origin: b"", path: &path };
            let (path, tree) = compare(&text, &request);
            let (other_path, other_tree) = compare(&other_text, &request);
            assert_eq!(named_by_id(&lines, path), named_by_id(&shuffled, other_path), "{request:?}");
            assert_eq!(named_by_id(&lines, tree), named_by_id(&shuffled, other_tree), "{request:?}");
            verdicts.count((path, tree));
        }
    }
    verdicts.assert_each_at_least(100);
}

/// The word of an answer, and the id of the rule it names.
fn named_by_id(lines: &[Line], answer: u64) -> (u64, Option<Vec<u8>>) {
    let mut rules = lines.iter().filter_map(Line::as_rule);
    let number = (answer >> 16) as usize;
    let id = number.checked_sub(1).map(|number| rules.nth(number).expect("a rule of the table").id.clone());
    (answer & 0xFFFF, id)
}

fn some_request(random: &mut Random, lines: &[Line], shape: &Shape) -> (Vec<u8>, u32, &'static str, Vec<u8>) {
    let user = if random.one_in(12) { "nobody" } else { random.pick(&USERS) };
    let mode = if random.one_in(6) { WRITE } else { READ };
    let path = if random.one_in(30) { good_path(random) } else { path_near(random, lines, shape) };
    (user.as_bytes().to_vec(), mode, some_origin(random), path.text())
}

#[test]
fn dense_tables() {
    let mut random = Random::new(0x34);
    let mut verdicts = Verdicts::default();
    let shape = Shape { depth: 4, key_names: 3, values: 4, ..Shape::SMALL };
    for _ in 0..3_000 {
        let lines = dense_table(&mut random);
        let text = table_text(&lines);
        for _ in 0..8 {
            let (user, mode, origin, path) = some_request(&mut random, &lines, &shape);
            let request = PathRequest { user: &user, mode, origin: origin.as_bytes(), path: &path };
            verdicts.count(compare(&text, &request));
        }
    }
    verdicts.assert_each_at_least(900);
}

/// All rules are about the user who asks.
#[test]
fn focused_tables() {
    let mut random = Random::new(0x35);
    let mut verdicts = Verdicts::default();
    for round in 0..3_000 {
        let shape =
            Shape { rules: 2 + round % 30, depth: 1 + round % 4, key_names: 1 + round % 3, values: 2, ..Shape::SMALL };
        let lines = focused_table(&mut random, shape);
        let text = table_text(&lines);
        for _ in 0..6 {
            let path = path_near(&mut random, &lines, &shape).text();
            verdicts.count(compare(&text, &PathRequest { user: b"u", mode: READ, origin: b"", path: &path }));
        }
    }
    verdicts.assert_each_at_least(300);
}

/// The proved verdicts against the enumeration of the paths beneath P.
#[test]
fn enumerated_trees() {
    let mut random = Random::new(0x36);
    let mut verdicts = Verdicts::default();
    for round in 0..400 {
        let (depth, key_names) = *random.pick(&[(3, 1), (2, 2), (1, 3)]);
        let shape = Shape { rules: 2 + round % 6, depth, key_names, values: 2, ..Shape::SMALL };
        let lines = focused_table(&mut random, shape);
        let (model, text) = (Model::new(&lines), table_text(&lines));
        for _ in 0..4 {
            let path = path_near(&mut random, &lines, &shape);
            let answers = compare(&text, &PathRequest { user: b"u", mode: READ, origin: b"", path: &path.text() });
            let asker = Asker { user: b"u", mode: 1, origin: b"" };
            let single = model.single(asker, &path);
            let expected = u64::from(single.permit) << 8 | single.rule.map_or(0, |rule| rule as u64 + 1) << 16;
            assert_eq!(answers.0, expected, "{path:?}");
            let expected = match model.tree(asker, &path) {
                Tree::None => NONE,
                Tree::All => ALL,
                Tree::Mixed(rule) => mixed_by(rule as u64),
            };
            assert_eq!(answers.1, expected, "{path:?}");
            verdicts.count(answers);
        }
    }
    verdicts.assert_each_at_least(100);
}

#[test]
fn faulty_requests() {
    let mut random = Random::new(0x37);
    let mut tally = Tally::default();
    let strings: Vec<Vec<u8>> = [0, 1, 31, 32, 33, 63, 64, 65, 200]
        .iter()
        .map(|len| vec![b'u'; *len])
        .chain([b"\x1f".to_vec(), b"u\x7f".to_vec(), b"\xffu".to_vec(), b"\0".to_vec(), b" ~".to_vec()])
        .collect();
    let modes = [0, 1, 2, 3, 256, 257, 258, 0x0100_0001, 0x8000_0001, u32::MAX];
    let paths: [&[u8]; 4] = [b"/", b"/a", b"", b"/a/"];
    for table in ["", VERSION_ONLY, EXAMPLES_E_TO_K, "010276310000000000000001\n02\n"] {
        for user in &strings {
            for origin in &strings {
                for path in paths {
                    let mode = if random.one_in(2) { READ } else { *random.pick(&modes) };
                    let request = PathRequest { user, mode, origin, path };
                    tally.count(compare(table.as_bytes(), &request).0);
                }
            }
        }
        for mode in modes {
            let request = PathRequest { user: b"u", mode, origin: b"", path: b"/a" };
            tally.count(compare(table.as_bytes(), &request).0);
        }
    }
    tally.assert_at_least(&[(0, 30), (3, 700), (4, 700), (20, 900), (21, 100), (22, 60)]);
}

#[test]
fn faulty_tables_come_before_faulty_requests() {
    let mut random = Random::new(0x38);
    let mut tally = Tally::default();
    for _ in 0..3_000 {
        let mut lines = dense_table(&mut random);
        if random.one_in(2) {
            random.pick(&LINE_FAULTS).put_somewhere(&mut random, &mut lines);
        }
        let mut path = good_path(&mut random).text();
        if random.one_in(2) {
            damage(&mut random, &mut path, TEXT_MARKS);
        }
        let mode = *random.pick(&[0, 1, 1, 1, 2, 2, 3]);
        let user = *random.pick(&["", "u", "u", "u", "\n"]);
        let origin = *random.pick(&["", "", "", "oc", "\n"]);
        let request = PathRequest { user: user.as_bytes(), mode, origin: origin.as_bytes(), path: &path };
        tally.count(compare(&table_text(&lines), &request).0);
    }
    tally.assert_at_least(&[(0, 200), (2, 100), (3, 100), (4, 100), (5, 200), (6, 80), (20, 500), (21, 80), (22, 100)]);
}

/// Paths of 15 to 17 elements against rules of up to 16, and whole tables.
#[test]
fn long_paths_and_large_tables() {
    let mut verdicts = Verdicts::default();
    let rules: Vec<Line> = (0..=16).map(|n| line(&format!("r{n}"), n % 2, &deep_path(n.into()))).collect();
    let text = table_text(&[&[Line::version("v1")], &rules[..]].concat());
    for depth in 0..=18 {
        let path = deep_path(depth);
        let answer = compare(&text, &PathRequest { user: b"u", mode: READ, origin: b"", path: path.as_bytes() });
        verdicts.count(answer);
        assert_eq!(word::refusal_number(answer.0), if depth <= 16 { 0 } else { 22 });
        if depth <= 16 {
            assert_eq!(answer.0 >> 16, depth as u64 + 1, "the rule with the most elements decides");
        }
    }
    let mut random = Random::new(0x39);
    for len in [8_000, 32_768, 32_769] {
        let text = table_of_length(&mut random, len, 160);
        for path in ["/", "/a", "/a[k=1]"] {
            compare(&text, &PathRequest { user: b"u", mode: READ, origin: b"", path: path.as_bytes() });
        }
    }
    let text = many_rules(256);
    for path in ["/", "/a", "/a[k=7]", "/a[k=7]/b", "/a[k=256]"] {
        verdicts.count(compare(&text, &PathRequest { user: b"u", mode: READ, origin: b"", path: path.as_bytes() }));
    }
}

/// The trees that take long, at their own path and at others near it.
#[test]
fn trees_that_take_long() {
    let mut verdicts = Verdicts::default();
    for worst in worst_trees() {
        for path in [&worst.path[..], b"/", b"/a", b"/a/a[k=001]", b"/b"] {
            verdicts.count(compare(&worst.table, &PathRequest { user: b"u", mode: READ, origin: b"", path }));
        }
    }
    assert!(verdicts.all + verdicts.none >= 10 && verdicts.mixed >= 10, "too few of a kind");
}

fn deep_path(depth: usize) -> String {
    if depth == 0 {
        "/".into()
    } else {
        "/a".repeat(depth)
    }
}

/// Rules about `/a[k=0]`, `/a[k=1]` and so on, the last of them the one that differs.
fn many_rules(count: usize) -> Vec<u8> {
    let path = |n: usize| format!("/a[k={n}]");
    let rules: Vec<Line> =
        (0..count).map(|n| line(&format!("{:03}", count - n), u8::from(n + 1 < count), &path(n))).collect();
    table_text(&[&[Line::version("v1")], &rules[..]].concat())
}

/// Ties down to the id, in tables where every rule has the same path.
#[test]
fn ties() {
    let mut random = Random::new(0x3A);
    let mut verdicts = Verdicts::default();
    for _ in 0..2_000 {
        let mut lines = focused_table(&mut random, Shape { rules: 6, depth: 0, ..Shape::SMALL });
        random.shuffle(&mut lines[5..]);
        let path = Path::default();
        for line in &mut lines {
            if let Line::Rule(Rule { action, .. }) = line {
                *action = random.below(2) as u8;
            }
        }
        verdicts.count(compare(
            &table_text(&lines),
            &PathRequest { user: b"u", mode: READ, origin: b"", path: &path.text() },
        ));
    }
    assert!(
        verdicts.permit >= 100 && verdicts.deny >= 1_000,
        "{} permitted, {} denied",
        verdicts.permit,
        verdicts.deny
    );
}
