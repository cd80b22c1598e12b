//! The path and the tree verdict: the speed of the two implementations. A call reads
//! the whole table each time.

use std::hint::black_box;

use burgee_rust::boundary::table::table_check;
use burgee_rust::boundary::verdict as proved;
use burgee_rust::generate::table::table_of_interfaces;
use burgee_rust::generate::worst_tree::worst_trees;
use burgee_rust::measure::{best, shown, Table};
use burgee_rust::request::PathRequest;
use burgee_rust::verdict::{path_verdict, tree_verdict};
use burgee_rust::word;

fn main() {
    let counter = "/interfaces/interface[name=et-0/0/7]/state/counters";
    let printed = Table::new("Single-path verdict");
    for rules in [10, 256] {
        let text = table_of_interfaces(rules, true, true);
        path_row(&printed, &format!("{rules} rules, {} bytes, by a rule", text.len()), &text, counter);
        path_row(&printed, &format!("{rules} rules, {} bytes, by the root's", text.len()), &text, "/system");
    }

    let printed = Table::new("Tree verdict at the root");
    for rules in [10, 256] {
        for (name, permit, mixed) in [("ALL", true, false), ("NONE", false, false), ("MIXED", true, true)] {
            let text = table_of_interfaces(rules, permit, mixed);
            tree_row(&printed, &format!("{rules} rules, {} bytes, {name}", text.len()), &text, "/");
        }
    }

    let printed = Table::new("Trees that take long");
    for worst in worst_trees() {
        tree_row(&printed, worst.name, &worst.table, str::from_utf8(&worst.path).expect("path text is ASCII"));
    }

    println!("\n### Trees that take long, beside the check of their tables\n");
    println!("| input | rules | tree verdict (best) | check (best) | ratio |");
    println!("|---|---:|---:|---:|---:|");
    for worst in worst_trees() {
        let request = PathRequest { user: b"u", mode: 1, origin: b"", path: &worst.path };
        let rules = worst.table.split(|b| *b == b'\n').filter(|line| line.starts_with(b"04")).count();
        let tree = best(|| proved::tree_verdict(black_box(&worst.table), black_box(&request)));
        let check = best(|| table_check(black_box(&worst.table)));
        println!("| {} | {rules} | {} | {} | {:.1} |", worst.name, shown(tree), shown(check), tree / check);
    }
}

fn request(path: &str) -> PathRequest<'_> {
    PathRequest { user: b"u", mode: 1, origin: b"", path: path.as_bytes() }
}

fn path_row(printed: &Table, name: &str, text: &[u8], path: &str) {
    printed.row(
        name,
        || proved::path_verdict(black_box(text), &request(black_box(path))),
        || word::path_verdict(path_verdict(black_box(text), &request(black_box(path)))),
    );
}

fn tree_row(printed: &Table, name: &str, text: &[u8], path: &str) {
    printed.row(
        name,
        || proved::tree_verdict(black_box(text), &request(black_box(path))),
        || word::tree_verdict(tree_verdict(black_box(text), &request(black_box(path)))),
    );
}
