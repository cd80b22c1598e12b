//! Single faults put into a good policy, each with the number that paper 01 gives it.

use super::policy::{good_header, good_policy, Header, Node, Policy, Request, Rule, Source};
use crate::limits;
use crate::policy::BARRED_KEYS;
use crate::random::Random;

type Bytes = Vec<u8>;

/// A fault of the parts (34 to 38).
#[derive(Clone, Copy)]
pub struct PartFault {
    pub number: u8,
    pub name: &'static str,
    put: fn(&mut Random, &mut Policy),
}

impl PartFault {
    pub fn put(&self, random: &mut Random, policy: &mut Policy) {
        (self.put)(random, policy);
    }
}

const fn part(number: u8, name: &'static str, put: fn(&mut Random, &mut Policy)) -> PartFault {
    PartFault { number, name, put }
}

pub const PART_FAULTS: [PartFault; 14] = [
    part(34, "backslash", |random, policy| {
        let escape = random.pick(&[r"\n", r"\\", r"\u0041", r#"\""#, r"\/", r"\ud800"]).as_bytes();
        on_any_string(random, policy, |string| string.extend(escape));
    }),
    part(35, "long string", |random, policy| {
        on_any_string(random, policy, |string| *string = vec![b'x'; limits::POLICY_STRING + 1])
    }),
    part(35, "empty policy name", |_, policy| policy.name.clear()),
    part(35, "empty rule name", |random, policy| some_rule(random, policy).name.clear()),
    part(35, "empty header key", |random, policy| some_header(random, policy).key.clear()),
    part(35, "empty values", |random, policy| some_header(random, policy).values.clear()),
    part(35, "rules", |random, policy| {
        let list = some_list(random, policy);
        while list.len() <= limits::POLICY_RULES {
            list.push(Rule { name: format!("more-{}", list.len()).into_bytes(), ..Rule::default() });
        }
    }),
    part(35, "patterns", |random, policy| {
        let (list, _) = some_patterns(random, policy);
        list.resize(limits::POLICY_ENTRIES + 1, b"x".to_vec());
    }),
    part(35, "headers", |random, policy| {
        let header = good_header(random);
        some_request(random, policy).headers.get_or_insert_default().resize(limits::POLICY_ENTRIES + 1, header);
    }),
    part(36, "asterisk", |random, policy| {
        let pattern = *random.pick(&["**", "a*b", "*a*", "a**", "**a", "a*b*", "* *", "/*/x", "***"]);
        let (list, place) = some_patterns(random, policy);
        list.insert(place, pattern.into());
    }),
    part(37, "barred key", |random, policy| {
        let key = if random.one_in(3) { random.pick(&["grpc-", "grpc-status"]) } else { random.pick(&BARRED_KEYS) };
        some_header(random, policy).key = key.as_bytes().to_vec();
    }),
    part(37, "ill-spelt key", |random, policy| {
        let key = *random.pick(&["Host", "K", ":path", "a b", "*", "k*", "k:", "a/b", "k,", "k~", "kK", " "]);
        some_header(random, policy).key = key.into();
    }),
    part(38, "rule twice", |random, policy| {
        let list = some_list(random, policy);
        if list.is_empty() {
            list.push(Rule { name: b"r".to_vec(), ..Rule::default() });
        }
        let name = random.pick(list).name.clone();
        let place = random.below(list.len() + 1);
        list.insert(place, Rule { name, ..Rule::default() });
    }),
    part(38, "all rules twice", |_, policy| {
        if policy.allow_rules.is_empty() {
            policy.allow_rules.push(Rule { name: b"r".to_vec(), ..Rule::default() });
        }
        policy.allow_rules.extend(policy.allow_rules.clone());
    }),
];

fn some_list<'p>(random: &mut Random, policy: &'p mut Policy) -> &'p mut Vec<Rule> {
    if random.one_in(2) {
        &mut policy.allow_rules
    } else {
        policy.deny_rules.get_or_insert_default()
    }
}

fn some_rule<'p>(random: &mut Random, policy: &'p mut Policy) -> &'p mut Rule {
    let list = some_list(random, policy);
    if list.is_empty() {
        list.push(Rule { name: b"only".to_vec(), ..Rule::default() });
    }
    let at = random.below(list.len());
    &mut list[at]
}

fn some_request<'p>(random: &mut Random, policy: &'p mut Policy) -> &'p mut Request {
    some_rule(random, policy).request.get_or_insert_default()
}

fn some_header<'p>(random: &mut Random, policy: &'p mut Policy) -> &'p mut Header {
    let header = good_header(random);
    let headers = some_request(random, policy).headers.get_or_insert_default();
    if headers.is_empty() {
        headers.push(header);
    }
    headers.last_mut().expect("one was put in")
}

/// A list of patterns, and a place in it.
fn some_patterns<'p>(random: &mut Random, policy: &'p mut Policy) -> (&'p mut Vec<Bytes>, usize) {
    let place = random.number() as usize;
    let list = match random.below(3) {
        0 => {
            let source: &mut Source = some_rule(random, policy).source.get_or_insert_default();
            source.principals.get_or_insert_default()
        }
        1 => some_request(random, policy).paths.get_or_insert_default(),
        _ => &mut some_header(random, policy).values,
    };
    let place = place % (list.len() + 1);
    (list, place)
}

/// Changes a string of any role.
fn on_any_string(random: &mut Random, policy: &mut Policy, change: impl FnOnce(&mut Bytes)) {
    match random.below(4) {
        0 => change(&mut policy.name),
        1 => change(&mut some_rule(random, policy).name),
        2 => change(&mut some_header(random, policy).key),
        _ => {
            let (list, place) = some_patterns(random, policy);
            let mut string = b"x".to_vec();
            change(&mut string);
            list.insert(place, string);
        }
    }
}

/// The text of a policy with one fault, any of 31 to 38.
pub fn faulty_policy(random: &mut Random) -> Bytes {
    let mut policy = good_policy(random);
    let fault = random.below(6);
    if fault > 2 {
        random.pick(&PART_FAULTS).put(random, &mut policy);
    }
    let mut node = policy.node(random);
    match fault {
        0 => put_member_twice(random, &mut node),
        1 => put_schema_fault(random, &mut node),
        _ => {}
    }
    let spaces = random.one_in(2);
    let mut text = node.text(random, spaces);
    if fault == 2 {
        put_json_fault(random, &mut text);
    }
    text
}

/// Puts a member twice into some object (32).
pub fn put_member_twice(random: &mut Random, node: &mut Node) {
    let members = some_object(random, node);
    if members.is_empty() {
        members.push((b"principals".to_vec(), Node::List(Vec::new())));
    }
    let (name, value) = random.pick(members).clone();
    let value = if random.one_in(2) { value } else { some_value(random) };
    let place = random.below(members.len() + 1);
    members.insert(place, (name, value));
}

/// Makes some part of it other than the schema has it (33).
pub fn put_schema_fault(random: &mut Random, node: &mut Node) {
    match random.below(4) {
        0 => {
            let names = ["x", "", "Name", "name ", r"n\u0061me", "rules", "allow-rules", "principal", "\\\""];
            let name = random.pick(&names).as_bytes().to_vec();
            let value = some_value(random);
            let members = some_object(random, node);
            let place = random.below(members.len() + 1);
            members.insert(place, (name, value));
        }
        1 => {
            let required: [&[u8]; 4] = [b"name", b"allow_rules", b"key", b"values"];
            let members = some_object(random, node);
            let place = members.iter().position(|(name, _)| required.contains(&&name[..]));
            match place {
                Some(place) => drop(members.remove(place)),
                None => members.push((b"key".to_vec(), Node::String(b"k".to_vec()))),
            }
        }
        _ => {
            let count = count_nodes(node);
            let at = random.below(count);
            put_wrong_type(random, nth_node(node, &mut { at }).expect("counted"));
        }
    }
}

/// Something that the schema doesn't have there: every place knows one type only.
fn put_wrong_type(random: &mut Random, node: &mut Node) {
    let others: Vec<Node> = match node {
        Node::Object(_) => vec![Node::List(Vec::new()), Node::String(Vec::new())],
        Node::List(_) => vec![Node::Object(Vec::new()), Node::String(Vec::new())],
        Node::String(_) => vec![Node::Object(Vec::new()), Node::List(Vec::new())],
        Node::Raw(_) => Vec::new(),
    };
    *node = if others.is_empty() || random.one_in(2) {
        Node::Raw(random.pick(&["null", "true", "false", "0", "-1.5e3"]).as_bytes().to_vec())
    } else {
        random.pick(&others).clone()
    };
}

/// Any JSON, without a member twice.
pub fn some_value(random: &mut Random) -> Node {
    match random.below(5) {
        0 => Node::Raw(random.pick(&["null", "true", "1", "-0.5E-7"]).as_bytes().to_vec()),
        1 => Node::String(random.pick(&["", "x", r"\u0000", "*"]).as_bytes().to_vec()),
        2 => Node::List(vec![Node::String(b"x".to_vec()), Node::List(Vec::new())]),
        3 => Node::Object(vec![(b"x".to_vec(), Node::Object(Vec::new()))]),
        _ => Node::Object(Vec::new()),
    }
}

fn children(node: &mut Node) -> Vec<&mut Node> {
    match node {
        Node::Object(members) => members.iter_mut().map(|(_, value)| value).collect(),
        Node::List(items) => items.iter_mut().collect(),
        Node::String(_) | Node::Raw(_) => Vec::new(),
    }
}

fn count_nodes(node: &mut Node) -> usize {
    1 + children(node).into_iter().map(count_nodes).sum::<usize>()
}

/// The node that `at` others come before.
fn nth_node<'n>(node: &'n mut Node, at: &mut usize) -> Option<&'n mut Node> {
    if *at == 0 {
        return Some(node);
    }
    *at -= 1;
    children(node).into_iter().find_map(|child| nth_node(child, at))
}

fn some_object<'n>(random: &mut Random, node: &'n mut Node) -> &'n mut Vec<(Bytes, Node)> {
    let count = count_nodes(node);
    let objects: Vec<usize> =
        (0..count).filter(|at| matches!(nth_node(node, &mut { *at }), Some(Node::Object(_)))).collect();
    let at = *random.pick(&objects);
    match nth_node(node, &mut { at }) {
        Some(Node::Object(members)) => members,
        _ => unreachable!("found before"),
    }
}

/// Damages a text so that it is no longer one JSON value (31).
pub fn put_json_fault(random: &mut Random, text: &mut Bytes) {
    match random.below(8) {
        0 => text.truncate(text.iter().rposition(|b| *b == b'}').unwrap_or(0)),
        1 => text.extend(random.pick(&["x", ",", "}", "{}", "\0", "null", "\u{7f}", "\u{e9}"]).as_bytes()),
        2 => text.insert(0, *random.pick(b"x,]:\0\x0b\x0c\x7f\x80\xff")),
        3 => {
            // A comma after the last member.
            let end = text.iter().rposition(|b| *b == b'}').unwrap_or(0);
            text.insert(end, b',');
        }
        4 => {
            // A byte that no string may hold, after an opening quote.
            let quotes = (0..text.len()).filter(|i| text[*i] == b'"');
            let opening: Vec<usize> = quotes.step_by(2).collect();
            let at = *random.pick(&opening);
            text.insert(at + 1, *random.pick(b"\0\t\n\r\x1f\x7f\x80\xff"));
        }
        5 => {
            let end = text.iter().rposition(|b| *b == b'}').unwrap_or(0);
            let deep = format!(r#","x":{}1{}"#, "[".repeat(16), "]".repeat(16));
            text.splice(end..end, deep.bytes());
        }
        6 => {
            let end = text.iter().rposition(|b| *b == b'}').unwrap_or(0);
            let bad =
                *random.pick(&["01", "+1", "1.", ".5", "1e", "nul", "'x'", r#""\x""#, r#""\u12g4""#, "[1,]", "{,}"]);
            text.splice(end..end, format!(r#","x":{bad}"#).bytes());
        }
        _ => text.clear(),
    }
}
