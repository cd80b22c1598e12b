//! A table made ready for many single-path verdicts.

use std::cmp::Reverse;
use std::collections::HashMap;

use crate::request::Asked;
use crate::table::{Subject, Table};
use crate::verdict::{is_asked, matches, numbered, rank, verdict, Numbered, PathVerdict};

/// The rules from the best to the worst, and of each user whom the table names the rules about him, which are looked
/// for when he first asks.
pub struct Judge<'t> {
    table: &'t Table<'t>,
    ranked: Vec<Numbered<'t>>,
    users: HashMap<&'t [u8], Option<Vec<Numbered<'t>>>>,
}

impl<'t> Judge<'t> {
    pub fn new(table: &'t Table<'t>) -> Judge<'t> {
        let mut ranked: Vec<Numbered> = numbered(table).collect();
        ranked.sort_by_cached_key(|rule| Reverse(rank(table, rule.rule)));
        let subjects = table.rules.iter().filter_map(|rule| match rule.subject {
            Subject::User(name) => Some(name),
            Subject::Group(_) => None,
        });
        let users = table.members().chain(subjects).map(|user| (user, None)).collect();
        Judge { table, ranked, users }
    }

    /// What `verdict::path_verdict` gives for a request without faults.
    pub fn verdict(&mut self, asked: &Asked) -> PathVerdict {
        let Some(rules) = self.users.get_mut(asked.user) else { return verdict(None) };
        let rules = rules.get_or_insert_with(|| rules_about(self.table, &self.ranked, asked.user));
        let place = (&asked.paths, &asked.path);
        let best = rules.iter().find(|rule| is_asked(rule.rule, asked) && matches(self.table, rule.rule, place));
        verdict(best.copied())
    }
}

/// The rules whose "subject is the user or a group holding the user", in the order given.
fn rules_about<'t>(table: &Table, rules: &[Numbered<'t>], user: &[u8]) -> Vec<Numbered<'t>> {
    let memberships = table.memberships(user);
    rules.iter().copied().filter(|rule| Table::is_about(rule.rule.subject, user, memberships)).collect()
}

#[cfg(test)]
mod tests {
    use super::*;
    use crate::generate::log::dense_log;
    use crate::generate::table::{dense_table, table_text, Shape};
    use crate::log::LogReader;
    use crate::path::path_text;
    use crate::random::Random;
    use crate::request::PathRequest;
    use crate::table::with_table;
    use crate::verdict::path_verdict;

    /// Many verdicts on one table, each as it is alone.
    #[test]
    fn a_verdict_does_not_depend_on_those_before_it() {
        let mut random = Random::new(0x52);
        let shape = Shape { depth: 4, key_names: 3, values: 4, ..Shape::SMALL };
        let (mut decided, mut by_default) = (0, 0);
        for _ in 0..300 {
            let lines = dense_table(&mut random);
            let (text, log) = (table_text(&lines), dense_log(&mut random, &lines, &shape, 20));
            let judged = with_table(&text, |table| {
                let mut judge = Judge::new(table);
                let mut verdict = |line: &[u8]| LogReader::new(line).next(|asked| judge.verdict(asked));
                log.iter().map(|line| verdict(&line.text())).collect::<Vec<_>>()
            });
            for (line, verdict) in log.iter().zip(judged.expect("a good table")) {
                let path = path_text(&line.path.bytes()).expect("a good path");
                let (user, mode, origin) = (&line.user[..], u32::from(line.mode), &line.origin[..]);
                assert_eq!(verdict, path_verdict(&text, &PathRequest { user, mode, origin, path: &path }).ok());
                *(if verdict.is_some_and(|verdict| verdict.rule.is_some()) {
                    &mut decided
                } else {
                    &mut by_default
                }) += 1;
            }
        }
        assert!(decided > 500 && by_default > 500, "{decided} decided by a rule, {by_default} by default");
    }
}
