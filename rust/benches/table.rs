//! The rule table and the group count: the speed of the two implementations.

use std::hint::black_box;

use burgee_rust::boundary::table as proved;
use burgee_rust::generate::table::{
    table_of_colliding_groups, table_of_colliding_ids, table_of_colliding_members, table_of_length, table_of_members,
    table_of_rules, table_of_shuffled_members,
};
use burgee_rust::measure::Table;
use burgee_rust::random::Random;
use burgee_rust::table::{check_table, group_count};
use burgee_rust::word;

/// With four letters more, 27 bytes: 512 such members fill a table.
const BEGIN_ALIKE: &str = "a-user-that-begins-like";

fn main() {
    let mut random = Random::new(0xB2);
    let tables = [
        ("10 rules", table_of_rules(&mut random, 10, 39)),
        ("256 rules", table_of_rules(&mut random, 256, 39)),
        ("64 groups, 512 members", table_of_members(64, 512)),
        ("64 groups, 512 members shuffled", table_of_shuffled_members(&mut random, 64, 512)),
        ("64 groups of one hash, 512 members", table_of_colliding_groups("", 64, 512)),
        ("64 groups of one hash that begin alike, 512 members", table_of_colliding_groups("group-of-", 64, 512)),
        ("64 long groups of one hash that begin alike", table_of_colliding_groups(&"g".repeat(60), 64, 0)),
        ("1 group, 512 members of one hash", table_of_colliding_members("", 512, false)),
        ("1 group, 512 members of one hash that begin alike", table_of_colliding_members(BEGIN_ALIKE, 512, false)),
        ("the same from the last name to the first", table_of_colliding_members(BEGIN_ALIKE, 512, true)),
        (
            "256 rules, long ids of one hash that begin alike",
            table_of_colliding_ids("rule-id-that-begins-like-all", 256),
        ),
    ];

    let printed = Table::new("Check of a table");
    for (name, text) in &tables {
        check_row(&printed, &format!("{name}, {} bytes", text.len()), text);
    }
    let printed = Table::new("Group count");
    for (name, text) in &tables {
        printed.row(
            &format!("{name}, {} bytes", text.len()),
            || proved::group_count(black_box(text), b"u"),
            || word::group_count(group_count(black_box(text), b"u")),
        );
    }
    let printed = Table::new("Check of a table, by length");
    for kilobytes in [2, 4, 8, 16, 32] {
        let text = table_of_length(&mut random, kilobytes * 1_024, 160);
        check_row(&printed, &format!("{kilobytes} KB"), &text);
    }
}

fn check_row(printed: &Table, name: &str, text: &[u8]) {
    printed.row(name, || proved::table_check(black_box(text)), || word::checked(check_table(black_box(text))));
}
