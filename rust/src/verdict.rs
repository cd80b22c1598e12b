//! The single-path verdict and the tree verdict.

use std::cmp::Reverse;

use crate::frame::{Action, Key, PathAt, Paths};
use crate::refusal::Refusal;
use crate::request::{Asked, PathRequest};
use crate::table::{with_table, Rule, RuleNumber, Subject, Table};

/// "The answer is the action and that rule's number. With no match: deny, by
/// default, no rule."
#[derive(Clone, Copy, PartialEq, Eq, Debug)]
pub struct PathVerdict {
    pub action: Action,
    pub rule: Option<RuleNumber>,
}

/// MIXED comes with the rule it names.
#[derive(Clone, Copy, PartialEq, Eq, Debug)]
pub enum TreeVerdict {
    None,
    All,
    Mixed(RuleNumber),
}

pub fn path_verdict(table: &[u8], request: &PathRequest) -> Result<PathVerdict, Refusal> {
    with_table(table, |table| request.judge(|asked| judge_path(table, asked)))?
}

pub fn tree_verdict(table: &[u8], request: &PathRequest) -> Result<TreeVerdict, Refusal> {
    with_table(table, |table| request.judge(|asked| judge_tree(table, asked)))?
}

fn judge_path(table: &Table, asked: &Asked) -> PathVerdict {
    let place = (&asked.paths, &asked.path);
    let best = rules_about(table, asked)
        .filter(|rule| matches(table, rule.rule, place))
        .max_by_key(|rule| rank(table, rule.rule));
    verdict(best)
}

/// The verdict by the best of the rules that match, if one does.
pub fn verdict(best: Option<Numbered>) -> PathVerdict {
    match best {
        Some(best) => PathVerdict { action: best.rule.action, rule: Some(best.number) },
        None => PathVerdict { action: Action::Deny, rule: None },
    }
}

/// Looks at the joined path of each rule that fits. A rule that decides some path
/// beneath P also decides its own joined path, so no other path need be looked at.
fn judge_tree<'a>(table: &'a Table<'a>, asked: &'a Asked<'a>) -> TreeVerdict {
    let place = (&asked.paths, &asked.path);
    let mut fitting: Vec<Numbered> = rules_about(table, asked).filter(|rule| fits(table, rule.rule, place)).collect();
    fitting.sort_by_cached_key(|rule| Reverse(rank(table, rule.rule)));

    let own = verdict(fitting.iter().copied().find(|rule| matches(table, rule.rule, place)));
    let mut joined = Paths::default();
    let mut named: Option<Numbered> = None;
    for (at, rule) in fitting.iter().enumerate() {
        if named.is_some_and(|named| named.rule.id <= rule.rule.id) {
            continue;
        }
        let path = joined.join(place, (&table.paths, &rule.rule.path));
        // The rule matches its joined path; only better ones come before it.
        let better = fitting[..at].iter().find(|better| matches(table, better.rule, (&joined, &path)));
        if better.unwrap_or(rule).rule.action != own.action {
            named = Some(*rule);
        }
    }
    match (named, own.action) {
        (Some(rule), _) => TreeVerdict::Mixed(rule.number),
        (None, Action::Permit) => TreeVerdict::All,
        (None, Action::Deny) => TreeVerdict::None,
    }
}

/// A rule with its number.
#[derive(Clone, Copy)]
pub struct Numbered<'a> {
    pub number: RuleNumber,
    pub rule: &'a Rule<'a>,
}

/// The rules of a table, in its order.
pub fn numbered<'a>(table: &'a Table<'a>) -> impl Iterator<Item = Numbered<'a>> {
    table.rules.iter().enumerate().map(|(number, rule)| Numbered { number: RuleNumber(number as u8), rule })
}

/// The rules of the request's mode and origin whose "subject is the user or a group
/// holding the user".
fn rules_about<'a>(table: &'a Table<'a>, asked: &'a Asked<'a>) -> impl Iterator<Item = Numbered<'a>> {
    let memberships = table.memberships(asked.user);
    numbered(table).filter(move |numbered| {
        is_asked(numbered.rule, asked) && Table::is_about(numbered.rule.subject, asked.user, memberships)
    })
}

/// Whether the rule has the request's mode and origin.
pub fn is_asked(rule: &Rule, asked: &Asked) -> bool {
    rule.mode == asked.mode && rule.origin == asked.origin
}

/// "Best of the matching rules: more elements; then more definite keys, counted over
/// the whole rule path; then user over group; then deny over permit; then the smaller
/// id in byte order". The best rule has the greatest rank.
pub fn rank<'a>(table: &Table<'a>, rule: &Rule<'a>) -> (usize, usize, bool, bool, Reverse<&'a [u8]>) {
    let elements = table.paths.elements(&rule.path);
    let definite = elements.iter().map(|e| table.paths.definite_keys(e).count()).sum();
    let is_user = matches!(rule.subject, Subject::User(_));
    (elements.len(), definite, is_user, rule.action == Action::Deny, Reverse(rule.id))
}

/// Whether the rule's path matches the path at a place: "it has no more elements than
/// the request, the names agree one by one, and each definite key of the rule is given
/// in that element of the request with that value".
pub fn matches(table: &Table, rule: &Rule, place: (&Paths, &PathAt)) -> bool {
    let (rules, asked) = (table.paths.elements(&rule.path), place.0.elements(place.1));
    rules.len() <= asked.len()
        && rules.iter().zip(asked).all(|(rule, asked)| {
            let given = place.0.keys(asked);
            rule.name == asked.name && table.paths.definite_keys(rule).all(|key| given.contains(&key))
        })
}

/// "names agree as far as both go, and no key is given two definite values"
fn fits(table: &Table, rule: &Rule, place: (&Paths, &PathAt)) -> bool {
    let (rules, asked) = (table.paths.elements(&rule.path), place.0.elements(place.1));
    rules.iter().zip(asked).all(|(rule, asked)| {
        rule.name == asked.name
            && table.paths.definite_keys(rule).all(|key| !is_given_otherwise(key, place.0.keys(asked)))
    })
}

/// Whether the key is among the given ones with another definite value.
fn is_given_otherwise(key: Key, given: &[Key]) -> bool {
    given.iter().any(|other| other.name == key.name && other.is_definite() && other.value != key.value)
}

#[cfg(test)]
mod tests {
    use super::*;
    use crate::vectors::*;

    const READ: u32 = 1;
    const WRITE: u32 = 2;

    fn request<'r>(user: &'r str, mode: u32, origin: &'r str, path: &'r str) -> PathRequest<'r> {
        PathRequest { user: user.as_bytes(), mode, origin: origin.as_bytes(), path: path.as_bytes() }
    }

    fn asks(table: &str, user: &str, mode: u32, origin: &str, path: &str) -> (Option<u8>, bool, TreeVerdict) {
        let request = request(user, mode, origin, path);
        let single = path_verdict(table.as_bytes(), &request).unwrap();
        let tree = tree_verdict(table.as_bytes(), &request).unwrap();
        (single.rule.map(|rule| rule.0), single.action == Action::Permit, tree)
    }

    fn mixed(rule: u8) -> TreeVerdict {
        TreeVerdict::Mixed(RuleNumber(rule))
    }

    #[test]
    fn examples_a_to_d() {
        for (table, rule, permit) in
            [(EXAMPLE_A, 0, true), (EXAMPLE_B, 0, true), (EXAMPLE_C, 1, false), (EXAMPLE_D, 1, false)]
        {
            let path = "/network-instances/network-instance[name=DEFAULT]/protocols/protocol[identifier=BGP]";
            let (by, action, _) = asks(table, "stevie", READ, "", path);
            assert_eq!((by, action), (Some(rule), permit));
        }
    }

    #[test]
    fn examples_e_to_k() {
        let asks = |user, mode, path| asks(EXAMPLES_E_TO_K, user, mode, "", path);
        assert_eq!(asks("u", READ, "/a/b"), (Some(0), true, TreeVerdict::All));
        assert_eq!(asks("u", READ, "/ab"), (None, false, TreeVerdict::None));
        assert_eq!(asks("v", READ, "/a"), (None, false, TreeVerdict::None));
        assert_eq!(asks("u", READ, "/a[k=9]"), (Some(0), true, TreeVerdict::All));
        assert_eq!(asks("u", READ, "/"), (None, false, mixed(0)));
        assert_eq!(asks("u", READ, "/a"), (Some(0), true, TreeVerdict::All));
        assert_eq!(asks("u", WRITE, "/a"), (None, false, TreeVerdict::None));
    }

    #[test]
    fn example_5_of_001() {
        let asks = |user, path| asks(INTERFACES, user, READ, "", path);
        let all = "/interfaces/interface/state/counters";
        let one = "/interfaces/interface[name=et-1/0/1]/state/counters";
        assert_eq!(asks("eng1", all), (Some(1), true, TreeVerdict::All));
        assert_eq!(asks("customer-controller1", all), (None, false, mixed(2)));
        assert_eq!(asks("customer-controller1", one), (Some(2), true, TreeVerdict::All));
        assert_eq!(asks("core-controller1", all), (Some(0), true, mixed(4)));
        assert_eq!(asks("core-controller1", one), (Some(4), false, TreeVerdict::None));
    }

    #[test]
    fn message_paths_of_001() {
        let asks = |user, mode, path| asks(MESSAGE_PATHS, user, mode, "foo", path);
        assert_eq!(asks("stevie", READ, "/this/is/a/message_path/the/one/that/knocks").0, Some(0));
        assert!(!asks("stevie", WRITE, "/this/is/a/message_path").1);
        assert_eq!(asks("brian", READ, "/this/is/a/different/message_path/foo").0, Some(1));
        assert_eq!(asks("brian", WRITE, "/this/is/a/different/message_path/bar").0, Some(2));
        assert_eq!(asks("crusty", READ, "/this/is/a/keyed[Ethernet=1/2/3]/message_path").0, Some(3));
        assert_eq!(asks("crusty", READ, "/this/is/a/keyed[Ethernet=1/2/4]/message_path").0, None);
        assert_eq!(asks("stevie", READ, "/this/is/a/keyed[Ethernet=POS3]/message_path").0, Some(4));
        assert_eq!(asks("brian", READ, "/this/is/a/keyed[Ethernet=POS3]/message_path").0, Some(5));
    }

    #[test]
    fn requests_are_refused_after_the_table_by_their_smallest_number() {
        let number = |table: &str, request| path_verdict(table.as_bytes(), &request).unwrap_err().number;
        assert_eq!(number("", request("", 0, "\n", "")), 4);
        assert_eq!(number(VERSION_ONLY, request("", READ, "\n", "")), 20);
        assert_eq!(number(VERSION_ONLY, request("u", 257, "\n", "")), 20);
        assert_eq!(number(VERSION_ONLY, request("u", READ, "\n", "")), 21);
        assert_eq!(number(VERSION_ONLY, request("u", READ, "", "")), 22);
    }
}
