//! The season report: the speed of the two implementations. A call reads the whole table once, and judges each line.

use std::hint::black_box;

use burgee_rust::boundary::season as proved;
use burgee_rust::generate::log::line_for;
use burgee_rust::generate::table::table_of_interfaces;
use burgee_rust::generate::worst_log::worst_logs;
use burgee_rust::generate::yard::{log_of_strangers, yard_log, yard_table};
use burgee_rust::hex::decode_line;
use burgee_rust::limits::{LOG_LINES, REPORT};
use burgee_rust::measure::{best, Table};
use burgee_rust::random::Random;
use burgee_rust::season::season_report;
use burgee_rust::word;

/// How many lines one user asks in a run.
const RUN: usize = 50;
/// How many lines a log has on which a verdict takes long.
const WORST: usize = 300;

fn main() {
    let mut random = Random::new(0xB6);
    let printed = Table::new("Season report, 10 rules");
    let small = table_of_interfaces(10, true, true);
    for lines in [0, 1, 10, 1_000] {
        row(&printed, &format!("{lines} lines, one user"), &small, &log_of_interfaces(lines));
    }

    let printed = Table::new("Season report, 256 rules");
    let (interfaces, yard) = (table_of_interfaces(256, true, true), yard_table());
    for lines in [1, 10_000, 100_000] {
        row(&printed, &format!("all about one user, {lines} lines"), &interfaces, &log_of_interfaces(lines));
    }
    row(&printed, "of a yard, 1 lines", &yard, &yard_log(&mut random, 1, 1));
    for lines in [10_000, 100_000] {
        row(&printed, &format!("of a yard, {lines} lines in runs"), &yard, &yard_log(&mut random, lines, RUN));
        row(&printed, &format!("of a yard, {lines} lines in no runs"), &yard, &yard_log(&mut random, lines, 1));
    }
    row(&printed, "of a yard, 10000 lines, each by a stranger", &yard, &log_of_strangers(&mut random, 10_000));
    row(&printed, "of a yard, 10000 lines alike", &yard, &yard_log(&mut random, 1, 1).repeat(10_000));

    let printed = Table::new("Season report, lines that take long");
    for worst in worst_logs() {
        row(&printed, &format!("{WORST} lines, {}", worst.name), &worst.table, &worst.line.repeat(WORST));
    }

    println!("\n### Season report, a million lines: lines a second\n");
    println!("| input | Rattle (best) | Rust (best) | hex alone, in Rust (best) |");
    println!("|---|---:|---:|---:|");
    million_row("of a yard, in runs", &yard, &yard_log(&mut random, LOG_LINES, RUN));
    million_row("of a yard, in no runs", &yard, &yard_log(&mut random, LOG_LINES, 1));
    million_row("10 rules, the shortest line", &small, &line_for("u", 1, "/").repeat(LOG_LINES));
}

/// `u` reads the counters of one interface after another.
fn log_of_interfaces(lines: usize) -> Vec<u8> {
    let path = |at: usize| format!("/interfaces/interface[name=et-{}/0/{}]/state/counters", at / 16 % 16, at % 16);
    (0..lines).flat_map(|at| line_for("u", 1, &path(at))).collect()
}

fn row(printed: &Table, name: &str, table: &[u8], log: &[u8]) {
    let (mut theirs, mut ours) = ([0; REPORT], [0; REPORT]);
    printed.row(
        &format!("{name}, {} bytes", log.len()),
        || proved::season_report(black_box(table), black_box(log), &mut theirs),
        || word::filled(season_report(black_box(table), black_box(log), &mut ours)),
    );
    assert!(theirs == ours, "the reports differ on {name}");
}

/// Both, beside the decoding of the log's lines, which no report can do without.
fn million_row(name: &str, table: &[u8], log: &[u8]) {
    let (mut theirs, mut ours, mut frame) = ([0; REPORT], [0; REPORT], Vec::new());
    let rattle = best(|| proved::season_report(black_box(table), black_box(log), &mut theirs));
    let rust = best(|| word::filled(season_report(black_box(table), black_box(log), &mut ours)));
    assert!(theirs == ours, "the reports differ on {name}");
    let hex = best(|| {
        let mut bytes = 0;
        for line in black_box(log).split(|b| *b == b'\n') {
            frame.clear();
            decode_line(line, &mut frame);
            bytes += frame.len() as u64;
        }
        bytes
    });
    let a_second = |nanoseconds: f64| format!("{:.1} million", LOG_LINES as f64 * 1e3 / nanoseconds);
    println!("| {name}, {} bytes | {} | {} | {} |", log.len(), a_second(rattle), a_second(rust), a_second(hex));
}
