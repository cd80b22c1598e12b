//! The verdicts once more, by elimination and by enumeration: slow, for tests only,
//! and with nothing in common with `verdict` but the paper.

use std::collections::BTreeSet;

use crate::generate::path::{Element, Key, Path};
use crate::generate::table::{Line, Rule};

/// A table as the parts it was generated from.
pub struct Model {
    members: Vec<(Vec<u8>, Vec<u8>)>,
    rules: Vec<Rule>,
}

/// Who asks, and how.
#[derive(Clone, Copy)]
pub struct Asker<'a> {
    pub user: &'a [u8],
    pub mode: u8,
    pub origin: &'a [u8],
}

#[derive(Clone, Copy, PartialEq, Eq, Debug)]
pub struct Single {
    pub permit: bool,
    pub rule: Option<usize>,
}

#[derive(Clone, Copy, PartialEq, Eq, Debug)]
pub enum Tree {
    None,
    All,
    Mixed(usize),
}

impl Model {
    pub fn new(lines: &[Line]) -> Model {
        let mut model = Model { members: Vec::new(), rules: Vec::new() };
        for line in lines {
            match line {
                Line::Member { group, user } => model.members.push((group.clone(), user.clone())),
                Line::Rule(rule) => model.rules.push(rule.clone()),
                _ => {}
            }
        }
        model
    }

    /// The single-path verdict: of the matching rules those are dropped, one step of
    /// the ranking after another, that another rule beats in it.
    pub fn single(&self, asker: Asker, path: &Path) -> Single {
        let mut left: Vec<usize> = (0..self.rules.len()).filter(|i| self.matches(asker, path, *i)).collect();
        let elements = |i: &usize| self.rules[*i].path.elements.len();
        let longest = left.iter().map(elements).max();
        left.retain(|i| Some(elements(i)) == longest);
        let definite = |i: &usize| definite_count(&self.rules[*i].path);
        let most = left.iter().map(definite).max();
        left.retain(|i| Some(definite(i)) == most);
        if left.iter().any(|i| self.rules[*i].subject_kind == 0) {
            left.retain(|i| self.rules[*i].subject_kind == 0);
        }
        if left.iter().any(|i| self.rules[*i].action == 0) {
            left.retain(|i| self.rules[*i].action == 0);
        }
        let best = left.into_iter().min_by(|i, j| self.rules[*i].id.cmp(&self.rules[*j].id));
        Single { permit: best.is_some_and(|i| self.rules[i].action == 1), rule: best }
    }

    /// The tree verdict: the word by enumeration of paths at and beneath P, the rule
    /// named by the paper's own words about fitting rules and joined paths.
    pub fn tree(&self, asker: Asker, path: &Path) -> Tree {
        let own = self.single(asker, path).permit;
        let mut mixed = false;
        self.each_beneath(path, &mut |beneath| {
            mixed = self.single(asker, beneath).permit != own;
            !mixed
        });
        let opposite = |rule: &&usize| self.single(asker, &joined(path, &self.rules[**rule].path)).permit != own;
        let fitting: Vec<usize> = (0..self.rules.len()).filter(|i| self.fits(asker, path, *i)).collect();
        let named = fitting.iter().filter(opposite).min_by(|i, j| self.rules[**i].id.cmp(&self.rules[**j].id));
        assert_eq!(mixed, named.is_some(), "the enumeration and the joined paths of {path:?} disagree");
        match (named, own) {
            (Some(rule), _) => Tree::Mixed(*rule),
            (None, true) => Tree::All,
            (None, false) => Tree::None,
        }
    }

    fn is_about(&self, asker: Asker, rule: &Rule) -> bool {
        let subject = match rule.subject_kind {
            0 => rule.subject == asker.user,
            _ => self.members.iter().any(|(group, user)| *group == rule.subject && user == asker.user),
        };
        subject && rule.mode == asker.mode && rule.origin == asker.origin
    }

    fn matches(&self, asker: Asker, path: &Path, rule: usize) -> bool {
        let rule = &self.rules[rule];
        self.is_about(asker, rule)
            && rule.path.elements.len() <= path.elements.len()
            && rule.path.elements.iter().enumerate().all(|(i, element)| {
                let asked = &path.elements[i];
                let keys = element.keys.iter().filter(|key| key.value != b"*");
                element.name == asked.name && keys.into_iter().all(|key| value_of(asked, &key.name) == Some(&key.value))
            })
    }

    fn fits(&self, asker: Asker, path: &Path, rule: usize) -> bool {
        let rule = &self.rules[rule];
        let common = rule.path.elements.len().min(path.elements.len());
        self.is_about(asker, rule)
            && (0..common).all(|i| {
                let (of_rule, asked) = (&rule.path.elements[i], &path.elements[i]);
                let clash = of_rule.keys.iter().any(|key| {
                    let (one, other) = (value_of(of_rule, &key.name), value_of(asked, &key.name));
                    one.is_some() && other.is_some() && one != other
                });
                of_rule.name == asked.name && !clash
            })
    }

    /// Visits paths at and beneath P until `visit` says no: with every name, key and
    /// value that a rule has, and one that none has, to the depth of the longest rule.
    pub fn each_beneath(&self, path: &Path, visit: &mut dyn FnMut(&Path) -> bool) {
        let elements = || self.rules.iter().flat_map(|rule| &rule.path.elements);
        let keys = || elements().flat_map(|element| &element.keys);
        let mut names: BTreeSet<&[u8]> = elements().map(|element| &element.name[..]).collect();
        names.insert(b"no-rule-has-this");
        let mut values: BTreeSet<&[u8]> = keys().map(|key| &key.value[..]).filter(|value| *value != b"*").collect();
        values.insert(b"no rule has this");
        let longest = self.rules.iter().map(|rule| rule.path.elements.len()).max().unwrap_or(0);
        let walk = Walk {
            above: path,
            names: names.into_iter().collect(),
            key_names: keys().map(|key| &key.name[..]).collect::<BTreeSet<_>>().into_iter().collect(),
            values: values.into_iter().collect(),
            depth: longest.max(path.elements.len()),
        };
        walk.go(&mut Path::default(), visit);
    }
}

struct Walk<'a> {
    above: &'a Path,
    names: Vec<&'a [u8]>,
    key_names: Vec<&'a [u8]>,
    values: Vec<&'a [u8]>,
    depth: usize,
}

impl Walk<'_> {
    /// Extends `so_far` in every way; false once `visit` has said no.
    fn go(&self, so_far: &mut Path, visit: &mut dyn FnMut(&Path) -> bool) -> bool {
        let at = so_far.elements.len();
        if at >= self.above.elements.len() && !visit(so_far) {
            return false;
        }
        if at == self.depth {
            return true;
        }
        match self.above.elements.get(at) {
            Some(above) => {
                let keys: Vec<Key> = above.keys.iter().filter(|key| key.value != b"*").cloned().collect();
                self.with_keys(so_far, Element { name: above.name.clone(), keys }, 0, visit)
            }
            None => self
                .names
                .iter()
                .all(|name| self.with_keys(so_far, Element { name: name.to_vec(), keys: Vec::new() }, 0, visit)),
        }
    }

    /// Gives the element every choice of the key names from `from` on.
    fn with_keys(
        &self,
        so_far: &mut Path,
        element: Element,
        from: usize,
        visit: &mut dyn FnMut(&Path) -> bool,
    ) -> bool {
        let Some(name) = self.key_names.get(from) else {
            so_far.elements.push(element);
            let goes_on = self.go(so_far, visit);
            so_far.elements.pop();
            return goes_on;
        };
        if value_of(&element, name).is_none() {
            for value in &self.values {
                let mut keyed = element.clone();
                keyed.keys.push(Key { name: name.to_vec(), value: value.to_vec() });
                if !self.with_keys(so_far, keyed, from + 1, visit) {
                    return false;
                }
            }
        }
        self.with_keys(so_far, element, from + 1, visit)
    }
}

/// The definite value of a key in an element.
fn value_of<'e>(element: &'e Element, name: &[u8]) -> Option<&'e Vec<u8>> {
    element.keys.iter().find(|key| key.name == name && key.value != b"*").map(|key| &key.value)
}

fn definite_count(path: &Path) -> usize {
    path.elements.iter().flat_map(|element| &element.keys).filter(|key| key.value != b"*").count()
}

/// "as many elements as the longer of the two, and the definite keys of both"
fn joined(one: &Path, other: &Path) -> Path {
    let mut path = if one.elements.len() >= other.elements.len() { one.clone() } else { other.clone() };
    for element in &mut path.elements {
        element.keys.clear();
    }
    for source in [one, other] {
        for (element, from) in path.elements.iter_mut().zip(&source.elements) {
            for key in from.keys.iter().filter(|key| key.value != b"*") {
                if value_of(element, &key.name).is_none() {
                    element.keys.push(key.clone());
                }
            }
        }
    }
    path
}

#[cfg(test)]
mod tests {
    use super::*;
    use crate::frame::Action;
    use crate::generate::table::{focused_table, path_near, table_text, Shape};
    use crate::random::Random;
    use crate::request::PathRequest;
    use crate::verdict::{path_verdict, tree_verdict, TreeVerdict};

    /// The two Rust implementations on small tables, whose trees can be enumerated.
    fn compare(seed: u64, rounds: usize, shape: Shape) {
        let mut random = Random::new(seed);
        let mut counts = [0; 3];
        for _ in 0..rounds {
            let lines = focused_table(&mut random, shape);
            let (model, text) = (Model::new(&lines), table_text(&lines));
            for _ in 0..4 {
                let path = path_near(&mut random, &lines, &shape);
                let asker = Asker { user: b"u", mode: 1, origin: b"" };
                let request = PathRequest { user: b"u", mode: 1, origin: b"", path: &path.text() };
                let single = path_verdict(&text, &request).unwrap();
                let slow = model.single(asker, &path);
                assert_eq!(single.action == Action::Permit, slow.permit);
                assert_eq!(single.rule.map(|rule| usize::from(rule.0)), slow.rule);
                let tree = match tree_verdict(&text, &request).unwrap() {
                    TreeVerdict::None => Tree::None,
                    TreeVerdict::All => Tree::All,
                    TreeVerdict::Mixed(rule) => Tree::Mixed(usize::from(rule.0)),
                };
                assert_eq!(tree, model.tree(asker, &path), "{path:?}\n{}", String::from_utf8_lossy(&text));
                counts[match tree {
                    Tree::None => 0,
                    Tree::All => 1,
                    Tree::Mixed(_) => 2,
                }] += 1;
            }
        }
        assert!(counts.iter().all(|count| *count >= rounds / 4), "NONE, ALL, MIXED: {counts:?}");
    }

    #[test]
    fn verdicts_agree_with_the_enumeration_on_deep_trees() {
        compare(0x31, 200, Shape { rules: 6, depth: 3, key_names: 1, values: 2, ..Shape::SMALL });
    }

    #[test]
    fn verdicts_agree_with_the_enumeration_on_many_keys() {
        compare(0x32, 200, Shape { rules: 8, depth: 1, key_names: 3, values: 2, ..Shape::SMALL });
        compare(0x33, 100, Shape { rules: 6, depth: 2, key_names: 2, values: 2, ..Shape::SMALL });
    }
}
