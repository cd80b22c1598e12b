//! RPC policies and requests: good ones, out of a few names so that they match often.

use crate::limits;
use crate::random::Random;
use crate::rpc::RpcRequest;

type Bytes = Vec<u8>;

#[derive(Clone, Debug)]
pub struct Header {
    pub key: Bytes,
    pub values: Vec<Bytes>,
}

#[derive(Clone, Debug, Default)]
pub struct Request {
    pub paths: Option<Vec<Bytes>>,
    pub headers: Option<Vec<Header>>,
}

#[derive(Clone, Debug, Default)]
pub struct Source {
    pub principals: Option<Vec<Bytes>>,
}

#[derive(Clone, Debug, Default)]
pub struct Rule {
    pub name: Bytes,
    pub source: Option<Source>,
    pub request: Option<Request>,
}

/// A policy as its parts; strings as they are written between quotes.
#[derive(Clone, Debug, Default)]
pub struct Policy {
    pub name: Bytes,
    pub deny_rules: Option<Vec<Rule>>,
    pub allow_rules: Vec<Rule>,
}

/// JSON as its parts, in the order in which it is written.
#[derive(Clone, Debug)]
pub enum Node {
    Object(Vec<(Bytes, Node)>),
    List(Vec<Node>),
    String(Bytes),
    /// Anything, as it is.
    Raw(Bytes),
}

impl Policy {
    /// The policy as JSON, its members in a random order.
    pub fn node(&self, random: &mut Random) -> Node {
        let mut members = vec![member("name", string(&self.name))];
        members.extend(self.deny_rules.as_ref().map(|rules| member("deny_rules", list(random, rules, rule_node))));
        members.push(member("allow_rules", list(random, &self.allow_rules, rule_node)));
        object(random, members)
    }

    pub fn text(&self, random: &mut Random) -> Bytes {
        let spaces = random.one_in(2);
        self.node(random).text(random, spaces)
    }
}

fn member(name: &str, node: Node) -> (Bytes, Node) {
    (name.as_bytes().to_vec(), node)
}

fn string(bytes: &Bytes) -> Node {
    Node::String(bytes.clone())
}

fn object(random: &mut Random, mut members: Vec<(Bytes, Node)>) -> Node {
    random.shuffle(&mut members);
    Node::Object(members)
}

fn list<T>(random: &mut Random, items: &[T], node: fn(&mut Random, &T) -> Node) -> Node {
    Node::List(items.iter().map(|item| node(random, item)).collect())
}

fn strings(items: &[Bytes]) -> Node {
    Node::List(items.iter().map(string).collect())
}

fn rule_node(random: &mut Random, rule: &Rule) -> Node {
    let mut members = vec![member("name", string(&rule.name))];
    if let Some(source) = &rule.source {
        let principals = source.principals.as_ref().map(|list| member("principals", strings(list)));
        members.push(member("source", Node::Object(principals.into_iter().collect())));
    }
    if let Some(request) = &rule.request {
        let paths = request.paths.as_ref().map(|paths| member("paths", strings(paths)));
        let headers = request.headers.as_ref().map(|headers| member("headers", list(random, headers, header_node)));
        members.push(member("request", object(random, paths.into_iter().chain(headers).collect())));
    }
    object(random, members)
}

fn header_node(random: &mut Random, header: &Header) -> Node {
    object(random, vec![member("key", string(&header.key)), member("values", strings(&header.values))])
}

impl Node {
    /// The text, with white space everywhere or nowhere.
    pub fn text(&self, random: &mut Random, spaces: bool) -> Bytes {
        let mut writer = Writer { text: Vec::new(), random, spaces };
        writer.node(self);
        writer.text
    }
}

struct Writer<'r> {
    text: Bytes,
    random: &'r mut Random,
    spaces: bool,
}

impl Writer<'_> {
    fn space(&mut self) {
        if self.spaces && self.random.one_in(2) {
            let len = self.random.between(1, 3);
            self.text.extend(self.random.bytes_of(b" \t\n\r  ", len));
        }
    }

    fn mark(&mut self, byte: u8) {
        self.space();
        self.text.push(byte);
        self.space();
    }

    fn string(&mut self, string: &[u8]) {
        self.text.push(b'"');
        self.text.extend(string);
        self.text.push(b'"');
    }

    fn node(&mut self, node: &Node) {
        self.space();
        match node {
            Node::Object(members) => {
                self.mark(b'{');
                for (at, (name, value)) in members.iter().enumerate() {
                    if at > 0 {
                        self.mark(b',');
                    }
                    self.string(name);
                    self.mark(b':');
                    self.node(value);
                }
                self.mark(b'}');
            }
            Node::List(items) => {
                self.mark(b'[');
                for (at, item) in items.iter().enumerate() {
                    if at > 0 {
                        self.mark(b',');
                    }
                    self.node(item);
                }
                self.mark(b']');
            }
            Node::String(bytes) => self.string(bytes),
            Node::Raw(bytes) => self.text.extend(bytes),
        }
        self.space();
    }
}

const PRINCIPALS: [&str; 10] = ["alice", "bob", "*", "", "a*", "*e", "al*", "*ce", "alice*", "*alice"];
const PATHS: [&str; 10] = ["/p.S/m", "/p.S/*", "*/m", "*", "", "/*", "*m", "/p.S/n", "/p.T/*", "*/p.S/m"];
const VALUES: [&str; 9] = ["v", "w", "v,w", "", "*", "v*", "*w", "v,*", "*,w"];
pub const KEYS: [&str; 4] = ["k", "x-a", "k_.1", "grpc"];

pub fn good_policy(random: &mut Random) -> Policy {
    let deny_rules = match random.below(4) {
        0 => None,
        1 => Some(Vec::new()),
        _ => Some(good_rules(random)),
    };
    Policy { name: good_string(random), deny_rules, allow_rules: good_rules(random) }
}

fn good_string(random: &mut Random) -> Bytes {
    let len = random.between(1, 6);
    random.bytes_of(b"ab *{}[],:'/~", len)
}

fn good_rules(random: &mut Random) -> Vec<Rule> {
    let count = random.below(4);
    (0..count).map(|number| good_rule(random, number)).collect()
}

fn good_rule(random: &mut Random, number: usize) -> Rule {
    let source = (!random.one_in(3)).then(|| Source { principals: some_strings(random, &PRINCIPALS) });
    let request = (!random.one_in(3)).then(|| Request {
        paths: some_strings(random, &PATHS),
        headers: random.one_in(2).then(|| {
            let count = random.below(3);
            (0..count).map(|_| good_header(random)).collect()
        }),
    });
    let mut name = good_string(random);
    name.extend(number.to_string().bytes());
    Rule { name, source, request }
}

/// A list that is missing, empty, or has a few entries.
fn some_strings(random: &mut Random, from: &[&str]) -> Option<Vec<Bytes>> {
    match random.below(6) {
        0 => None,
        1 => Some(Vec::new()),
        _ => Some(entries(random, from)),
    }
}

fn entries(random: &mut Random, from: &[&str]) -> Vec<Bytes> {
    let count = random.between(1, 3);
    (0..count).map(|_| random.pick(from).as_bytes().to_vec()).collect()
}

pub fn good_header(random: &mut Random) -> Header {
    Header { key: random.pick(&KEYS).as_bytes().to_vec(), values: entries(random, &VALUES) }
}

/// A request as the daemon gives it.
#[derive(Clone, Debug)]
pub struct Rpc {
    pub identity: Bytes,
    pub path: Bytes,
    pub headers: Bytes,
}

impl Rpc {
    pub fn request(&self) -> RpcRequest<'_> {
        RpcRequest { identity: &self.identity, path: &self.path, headers: &self.headers }
    }
}

pub fn good_rpc(random: &mut Random) -> Rpc {
    let identity = *random.pick(&["", "alice", "bob", "a", "alicex", "xalice", "marge", "eve"]);
    let path = *random.pick(&["", "/p.S/m", "/p.S/n", "/p.S/", "/p.S/mm", "m", "/p.T/m", "/", "x/p.S/m"]);
    let mut headers = Vec::new();
    for _ in 0..random.below(5) {
        let name = *random.pick(&["k", "k", "k", "x-a", "k_.1", "grpc", "host", "grpc-x", "other", "kk"]);
        let value = *random.pick(&["", "v", "w", "v,w", " v", ":", "v:w", "vw", "x"]);
        headers.extend(format!("{name}:{value}\n").bytes());
    }
    Rpc { identity: identity.into(), path: path.into(), headers }
}

/// A good policy of about `len` bytes, without white space, and with at most 64 rules
/// in each list.
pub fn policy_of_length(len: usize) -> Bytes {
    let mut random = Random::new(1);
    let mut lists = [Vec::new(), Vec::new()];
    let mut room = len - br#"{"name":"policy","deny_rules":[],"allow_rules":[]}"#.len();
    for number in 0.. {
        let rule = padded_rule(number);
        let rule_len = rule_node(&mut random, &rule).text(&mut random, false).len() + 1;
        if rule_len > room {
            break;
        }
        room -= rule_len;
        lists[number % 2].push(rule);
    }
    let [allow_rules, deny_rules] = lists;
    let policy = Policy { name: b"policy".to_vec(), deny_rules: Some(deny_rules), allow_rules };
    policy.node(&mut random).text(&mut random, false)
}

fn padded_rule(number: usize) -> Rule {
    let principals = (0..3).map(|n| format!("spiffe://company.com/sa/user-{number}-{n}").into_bytes());
    let paths = [format!("/gnmi.gNMI/{number}/*"), format!("*/Set{number}")].map(String::into_bytes);
    Rule {
        name: format!("rule-{number:03}").into_bytes(),
        source: Some(Source { principals: Some(principals.collect()) }),
        request: Some(Request { paths: Some(paths.into()), headers: None }),
    }
}

/// The order in which an object's member names are written.
#[derive(Clone, Copy, Debug)]
pub enum Names {
    Rising,
    Falling,
    Shuffled,
}

/// An object of at most `len` bytes with as many members as fit, no name twice: no policy,
/// but all of its names have to be compared to tell.
pub fn object_of_members(len: usize, order: Names) -> Bytes {
    let bytes = || (b' '..=b'~').filter(|byte| !br#""\,"#.contains(byte));
    let mut names = vec![Bytes::new()];
    names.extend(bytes().map(|byte| vec![byte]));
    names.extend(bytes().flat_map(|first| bytes().map(move |second| vec![first, second])));
    let mut room = len - b"{}".len() + b",".len();
    names.retain(|name| {
        let member = name.len() + br#""":0,"#.len();
        let fits = member <= room;
        room -= if fits { member } else { 0 };
        fits
    });
    names.sort();
    match order {
        Names::Rising => {}
        Names::Falling => names.reverse(),
        Names::Shuffled => Random::new(0x32).shuffle(&mut names),
    }
    let members: Vec<Bytes> = names.iter().map(|name| [br#"""#, &name[..], br#"":0"#].concat()).collect();
    [b"{", &members.join(&b',')[..], b"}"].concat()
}

/// An object of at most `len` bytes like that, the innermost of `levels` objects.
pub fn nested_object(len: usize, levels: usize) -> Bytes {
    let (open, close) = (br#"{"a":"#.repeat(levels - 1), b"}".repeat(levels - 1));
    let inside = object_of_members(len - open.len() - close.len(), Names::Shuffled);
    [open, inside, close].concat()
}

/// A list of at most `len` bytes with as many objects of one member as fit.
pub fn list_of_objects(len: usize) -> Bytes {
    let object = br#"{"a":0}"#;
    let count = (len - b"[]".len() + b",".len()) / (object.len() + b",".len());
    [b"[", &vec![object.to_vec(); count].join(&b',')[..], b"]"].concat()
}

/// A policy full of headers that are not carried, for a request with many header lines:
/// each of them has to be looked for in every line.
pub fn policy_of_headers() -> Bytes {
    let header = |number: usize| Header { key: format!("x-{number:02}").into(), values: vec![b"".to_vec()] };
    policy_of((0..limits::POLICY_ENTRIES).map(header).collect())
}

/// The same with one header again and again, which has to match `value`.
pub fn policy_of_one_header(key: &str, value: &str) -> Bytes {
    policy_of(vec![Header { key: key.into(), values: vec![value.into()] }; limits::POLICY_ENTRIES])
}

/// A policy of twelve rules, none of which matches, with all of these headers but the last in each.
fn policy_of(headers: Vec<Header>) -> Bytes {
    let rule = |number: usize| Rule {
        name: number.to_string().into_bytes(),
        source: None,
        request: Some(Request {
            paths: None,
            headers: Some([&headers[..limits::POLICY_ENTRIES - 1], &[never(number)]].concat()),
        }),
    };
    let policy = Policy { name: b"p".to_vec(), deny_rules: None, allow_rules: (0..12).map(rule).collect() };
    let mut random = Random::new(1);
    policy.node(&mut random).text(&mut random, false)
}

/// A header that decides against its rule.
fn never(number: usize) -> Header {
    Header { key: format!("y-{number:02}").into(), values: vec![b"*".to_vec()] }
}

/// Header lines of 8,192 bytes, 2,048 of them.
pub fn many_header_lines() -> Bytes {
    b"z:v\n".repeat(limits::HEADER_LINES / 4)
}

/// Bytes of which header names may consist.
const NAME_BYTES: &[u8] = b"abcdefghijklmnopqrstuvwxyz0123456789-_.";

/// Header lines with as many of these names as fit after the first line, each with an empty value.
fn lines_of(first: Bytes, names: impl Iterator<Item = Bytes>) -> Bytes {
    let mut lines = first;
    for name in names.filter(|name| name != b"k") {
        if lines.len() + name.len() + 2 <= limits::HEADER_LINES {
            lines.extend([&name[..], b":\n"].concat());
        }
    }
    lines
}

/// Header lines with as many names as fit. The first line has a number, by which requests differ.
pub fn shortest_names(number: usize) -> Bytes {
    let one = NAME_BYTES.iter().map(|a| vec![*a]);
    let two = NAME_BYTES.iter().flat_map(|a| NAME_BYTES.iter().map(move |b| vec![*a, *b]));
    let three = NAME_BYTES.iter().flat_map(|a| NAME_BYTES.iter().map(move |b| vec![b'a', *a, *b]));
    lines_of(format!("number:{number:08}\n").into(), one.chain(two).chain(three))
}

/// Header lines with as many names as fit that have the length, the first, the middle and the last byte of `x0-0x`.
pub fn names_alike() -> Bytes {
    let pairs = NAME_BYTES.iter().flat_map(|a| NAME_BYTES.iter().map(move |b| vec![b'x', *a, b'-', *b, b'x']));
    lines_of(Bytes::new(), pairs.filter(|name| name != b"x0-0x"))
}
