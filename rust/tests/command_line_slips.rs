//! Users whom a table does not name, on tables whose names differ mostly in case, beside the Rust implementation.

use burgee_rust::command_line::burgee_saying;
use burgee_rust::random::Random;
use burgee_rust::slip::slip_line;
use burgee_rust::tally::Tally;

const ROUNDS: usize = 300;

const NAMES: [&str; 9] = ["ann", "Ann", "ANN", "aNN", "an", "@nn", "`nn", "zz", "ZZ"];

fn name(random: &mut Random) -> &'static str {
    NAMES[random.below(NAMES.len())]
}

fn hex(bytes: &[u8]) -> String {
    bytes.iter().map(|byte| format!("{byte:02x}")).collect()
}

fn string(name: &str) -> String {
    format!("{:02x}{}", name.len(), hex(name.as_bytes()))
}

/// A table whose groups have some of the names, with a member or two in each, and rules for users and groups.
fn some_table(random: &mut Random) -> String {
    let mut table = String::from("010276310000000000000001\n");
    let groups: Vec<&str> = NAMES.into_iter().filter(|_| random.one_in(3)).collect();
    for group in &groups {
        table += &format!("02{}\n", string(group));
    }
    for group in &groups {
        table += &format!("03{}{}\n", string(group), string(name(random)));
    }
    for id in 0..random.below(5) {
        let by_group = !groups.is_empty() && random.one_in(2);
        let subject = if by_group { groups[0] } else { name(random) };
        table += &format!("040101{:02x}{}{}0000\n", u8::from(by_group), string(subject), string(&id.to_string()));
    }
    table
}

#[test]
fn slips_are_told() {
    let (mut random, mut tally) = (Random::new(0x99), Tally::default());
    for _ in 0..ROUNDS {
        let (table, user) = (some_table(&mut random), name(&mut random));
        let said = slip_line(table.as_bytes(), user.as_bytes());
        burgee_saying(&said, &[b"groups", b"-", user.as_bytes()], table.as_bytes());
        let parts = ["", "burgee: ", "; a group has that name", "; it names", ", ", "that name; it names"];
        for (kind, words) in parts.into_iter().enumerate() {
            if said.contains(words) {
                tally.count(kind as u64);
            }
        }
    }
    tally.assert_at_least(&[(0, ROUNDS), (1, 50), (2, 20), (3, 20), (4, 5), (5, 5)]);
}
