//! The season report: the proved call against the Rust one, and on generated tables against the enumeration and the
//! proved single-path verdicts too.

use burgee_rust::boundary::season as proved;
use burgee_rust::brute::{Asker, Model};
use burgee_rust::compare::{path_verdict, season_report};
use burgee_rust::generate::damage::damage;
use burgee_rust::generate::log::{
    dense_log, dense_table_for_logs, faulty_lines, line_for, lines_too_long, log_text, longest_line, LogLine,
};
use burgee_rust::generate::path::{good_path, Element, Key, Path};
use burgee_rust::generate::table::{
    focused_table, hex_line, shuffle_each_kind, table_of_interfaces, table_of_length, table_text, Line, Shape,
};
use burgee_rust::generate::table_fault::LINE_FAULTS;
use burgee_rust::generate::worst_log::worst_logs;
use burgee_rust::generate::yard::{log_of_strangers, yard_log, yard_table};
use burgee_rust::limits::{LOG_LINES, REPORT, REPORT_LINES, RULES, TABLE_TEXT};
use burgee_rust::random::Random;
use burgee_rust::request::PathRequest;
use burgee_rust::tally::Tally;
use burgee_rust::vectors::{
    EXAMPLES_E_TO_K, EXAMPLE_A, EXAMPLE_B, EXAMPLE_C, EXAMPLE_D, SEASON_LOG, TABLES, VERSION_ONLY,
};
use burgee_rust::word;

/// Answer words of refusals.
const LOG_LONG: u64 = 50;
const NO_ROOM: u64 = 23;

fn bad(line: usize) -> u64 {
    51 | (line as u64) << 8
}

/// A good line: `u` reads the root.
const ROOT: &[u8] = b"0101750000\n";

/// Requests as deep, and out of as many names and values, as the rules of a dense table.
const DENSE: Shape = Shape { depth: 4, key_names: 3, values: 4, ..Shape::SMALL };

/// The numbers of a report: of each rule, then of the grid.
type Counts = [u32; REPORT_LINES];

/// Reads a report, whose lines are decimal numbers without leading zeros.
fn counts_of(report: &[u8]) -> Counts {
    let text = std::str::from_utf8(report).expect("ASCII");
    assert!(text.ends_with('\n'));
    let numbers: Vec<u32> = text.lines().map(|line| line.parse().expect("a number")).collect();
    let again: String = numbers.iter().map(|number| format!("{number}\n")).collect();
    assert_eq!(again, text);
    numbers.try_into().expect("262 lines")
}

/// The counts of an accepted report, with room for any.
fn counts(table: &[u8], log: &[u8]) -> Counts {
    let (answer, report) = season_report(table, log, REPORT);
    assert_eq!(word::refusal_number(answer), 0, "{answer:#x}");
    assert_eq!(answer, (report.len() as u64) << 8);
    counts_of(&report)
}

/// The answer of a refused report.
fn refusal(table: &[u8], log: &[u8]) -> u64 {
    let (answer, _) = season_report(table, log, REPORT);
    assert_ne!(word::refusal_number(answer), 0);
    answer
}

/// Counts that are 0 but for some lines, counted from 1.
fn lines(others: &[(usize, u32)]) -> Counts {
    let mut counts = [0; REPORT_LINES];
    others.iter().for_each(|(line, number)| counts[line - 1] = *number);
    counts
}

/// In how many reports each cell of the grid was not 0, and how many lines were counted.
#[derive(Default)]
struct Cells {
    reports: [usize; 6],
    lines: usize,
}

impl Cells {
    /// The grid's sum is the number of log lines, that of the rules the number decided by one.
    fn count(&mut self, counts: &Counts, log_lines: usize) {
        let (rules, grid) = counts.split_at(RULES);
        assert_eq!(grid.iter().sum::<u32>() as usize, log_lines);
        assert_eq!(rules.iter().sum::<u32>(), grid[0] + grid[1] + grid[3] + grid[4]);
        grid.iter().zip(&mut self.reports).for_each(|(count, reports)| *reports += usize::from(*count > 0));
        self.lines += log_lines;
    }

    fn assert_each_at_least(&self, minimum: usize) {
        assert!(self.reports.iter().all(|reports| *reports >= minimum), "under {minimum}: {:?}", self.reports);
    }
}

#[test]
fn the_vector_of_the_paper() {
    assert_eq!(counts(EXAMPLES_E_TO_K.as_bytes(), SEASON_LOG.as_bytes()), lines(&[(1, 1), (257, 1)]));
}

#[test]
fn an_empty_log_counts_nothing() {
    for table in TABLES {
        let (answer, report) = season_report(table.as_bytes(), b"", REPORT);
        assert_eq!((answer, report), (524 << 8, b"0\n".repeat(REPORT_LINES)));
    }
}

#[test]
fn examples_of_01() {
    let asked = |requests: &[(&str, u8, &str)]| {
        let log: Vec<u8> = requests.iter().flat_map(|(user, mode, path)| line_for(user, *mode, path)).collect();
        counts(EXAMPLES_E_TO_K.as_bytes(), &log)
    };
    let (e, f, g) = (("u", 1, "/a/b"), ("u", 1, "/ab"), ("v", 1, "/a"));
    let (h, i, k) = (("u", 1, "/a[k=9]"), ("u", 1, "/"), ("u", 2, "/a"));
    assert_eq!(asked(&[e, f, g, h, i, k]), lines(&[(1, 2), (257, 2), (259, 3), (262, 1)]));

    let path = "/network-instances/network-instance[name=DEFAULT]/protocols/protocol[identifier=BGP]";
    let log = line_for("stevie", 1, path);
    for (table, rule, cell) in [(EXAMPLE_A, 1, 257), (EXAMPLE_B, 1, 257), (EXAMPLE_C, 2, 258), (EXAMPLE_D, 2, 258)] {
        assert_eq!(counts(table.as_bytes(), &log), lines(&[(rule, 1), (cell, 1)]));
    }
}

/// Each rule of a full table decides, each another number of times.
#[test]
fn every_rule_decides() {
    let table = table_of_interfaces(RULES, true, true);
    let line = |number: usize| {
        let name = format!("/interfaces/interface[name=et-{}/0/{}]/state/counters", number / 16, number % 16);
        line_for("u", 1, if number == 0 { "/system" } else { &name })
    };
    let log: Vec<u8> = (0..RULES).flat_map(|number| line(number).repeat(number * 7 % 23)).collect();
    let counts = counts(&table, &log);
    for (number, count) in counts[..RULES].iter().enumerate() {
        assert_eq!(*count as usize, number * 7 % 23, "rule {number}");
    }
    assert_eq!(counts[RULES + 1], counts[RULES - 1], "the last rule alone denies");
}

/// What the enumeration counts over the lines of a log.
fn enumerated(lines: &[Line], log: &[LogLine]) -> Counts {
    let model = Model::new(lines);
    let mut counts = [0; REPORT_LINES];
    for line in log {
        let single = model.single(Asker { user: &line.user, mode: line.mode, origin: &line.origin }, &line.path);
        count(&mut counts, line.mode, single.permit, single.rule);
    }
    counts
}

/// What the proved single-path verdicts count over them.
fn by_verdicts(table: &[u8], log: &[LogLine]) -> Counts {
    let mut counts = [0; REPORT_LINES];
    for line in log {
        let path = line.path.text();
        let request = PathRequest { user: &line.user, mode: line.mode.into(), origin: &line.origin, path: &path };
        let answer = path_verdict(table, &request);
        let rule = ((answer >> 16) as usize).checked_sub(1);
        count(&mut counts, line.mode, answer >> 8 & 0xFF == 1, rule);
    }
    counts
}

fn count(counts: &mut Counts, mode: u8, permit: bool, rule: Option<usize>) {
    let cell = match (permit, rule) {
        (true, _) => 0,
        (false, Some(_)) => 1,
        (false, None) => 2,
    };
    counts[RULES + usize::from(mode - 1) * 3 + cell] += 1;
    rule.into_iter().for_each(|rule| counts[rule] += 1);
}

#[test]
fn dense_tables() {
    let mut random = Random::new(0x91);
    let mut cells = Cells::default();
    for round in 0..1_500 {
        let lines = dense_table_for_logs(&mut random);
        let log = dense_log(&mut random, &lines, &DENSE, round % 60);
        let (table, text) = (table_text(&lines), log_text(&log));
        let counts = counts(&table, &text);
        assert_eq!(counts, enumerated(&lines, &log));
        cells.count(&counts, log.len());
    }
    cells.assert_each_at_least(80);
    assert!(cells.lines > 40_000);
}

/// All rules are about the user who asks.
#[test]
fn focused_tables() {
    let mut random = Random::new(0x92);
    let mut cells = Cells::default();
    for round in 0..600 {
        let shape =
            Shape { rules: 2 + round % 60, depth: 1 + round % 4, key_names: 1 + round % 3, values: 2, ..Shape::SMALL };
        let lines = focused_table(&mut random, shape);
        let mut log = dense_log(&mut random, &lines, &shape, 40);
        log.iter_mut().for_each(|line| line.user = b"u".to_vec());
        let counts = counts(&table_text(&lines), &log_text(&log));
        assert_eq!(counts, enumerated(&lines, &log));
        cells.count(&counts, log.len());
    }
    assert!(cells.reports[..3].iter().all(|reports| *reports >= 200), "{:?}", cells.reports);
}

/// "Every number equals the count in a definition over the single-path verdicts": here the proved ones.
#[test]
fn the_sum_of_the_single_path_verdicts() {
    let mut random = Random::new(0x93);
    let mut cells = Cells::default();
    for _ in 0..400 {
        let lines = dense_table_for_logs(&mut random);
        let (table, log) = (table_text(&lines), dense_log(&mut random, &lines, &DENSE, 25));
        let counts = counts(&table, &log_text(&log));
        assert_eq!(counts, by_verdicts(&table, &log));
        cells.count(&counts, log.len());
    }
    cells.assert_each_at_least(20);
}

/// Full tables, one as a yard has it and those on which a verdict takes long.
#[test]
fn large_tables() {
    let mut random = Random::new(0x94);
    let mut cells = Cells::default();
    let yard = yard_table();
    for (log, log_lines) in [
        (yard_log(&mut random, 3_000, 1), 3_000),
        (yard_log(&mut random, 3_000, 50), 3_000),
        (log_of_strangers(&mut random, 500), 500),
    ] {
        cells.count(&counts(&yard, &log), log_lines);
    }
    cells.assert_each_at_least(2);
    for worst in worst_logs() {
        let log = ["/", "/a", "/a/a", "/a/a/a[a=1][b=1][c=1][d=1]", "/b"].map(|path| line_for("u", 1, path));
        cells.count(&counts(&worst.table, &[worst.line, log.concat()].concat()), 6);
    }
}

/// A table's refusal comes first, whatever the log and the room.
#[test]
fn refused_tables() {
    let mut random = Random::new(0x95);
    let mut tally = Tally::default();
    for fault in LINE_FAULTS {
        for _ in 0..20 {
            let mut lines = dense_table_for_logs(&mut random);
            let log = log_text(&dense_log(&mut random, &lines, &DENSE, 3));
            let Some(at) = fault.put_somewhere(&mut random, &mut lines) else { continue };
            let expected = u64::from(fault.number) | (at as u64 + 1) << 8;
            for log in [&log[..], b"", b"\n", b"0"] {
                for room in [REPORT, 0] {
                    let (answer, _) = season_report(&table_text(&lines), log, room);
                    assert_eq!(answer, expected, "{}", fault.name);
                    tally.count(answer);
                }
            }
        }
    }
    let long = table_of_length(&mut random, TABLE_TEXT + 1, 160);
    for (table, expected) in [(&long[..], 1), (b"", 4 | 1 << 8), (b"\n", 2 | 1 << 8)] {
        assert_eq!(refusal(table, b"\n"), expected);
        tally.count(refusal(table, &[ROOT.repeat(1_000), b"0".to_vec()].concat()));
    }
    tally.assert_at_least(&[(1, 1), (2, 300), (3, 300), (4, 200), (5, 500), (6, 200), (7, 200), (8, 150), (9, 150)]);
}

/// The largest table that is accepted.
#[test]
fn a_table_at_its_length() {
    let table = table_of_length(&mut Random::new(0x96), TABLE_TEXT, 160);
    assert_eq!(counts(&table, ROOT), lines(&[(259, 1)]));
}

/// Each fault of a line alone, at some place of a log, and before another.
#[test]
fn each_fault_alone() {
    let mut random = Random::new(0x97);
    let mut tally = Tally::default();
    for _ in 0..60 {
        let lines = dense_table_for_logs(&mut random);
        let (table, mut log) = (table_text(&lines), dense_log(&mut random, &lines, &DENSE, 6));
        log[3].path = good_path(&mut random);
        let texts: Vec<Vec<u8>> = log.iter().map(LogLine::text).collect();
        let faulty = faulty_lines(&mut random, &log[3]);
        for (name, bad_line) in &faulty {
            let at = random.below(texts.len());
            let mut texts = texts.clone();
            texts[at] = bad_line.clone();
            let answer = refusal(&table, &texts.concat());
            assert_eq!(answer, bad(at + 1), "{name}");
            tally.count(answer);
            texts.extend([ROOT.to_vec(), random.pick(&faulty).1.clone()]);
            assert_eq!(refusal(&table, &texts.concat()), bad(at + 1), "{name}, then another");
        }
    }
    tally.assert_at_least(&[(51, 60 * 46)]);
}

/// A good line of the greatest length, and lines that are longer, one of them of many MB.
#[test]
fn long_lines() {
    let (table, longest) = (EXAMPLES_E_TO_K.as_bytes(), longest_line().text());
    assert_eq!(longest.len(), 2 * 9_476 + 1);
    assert_eq!(counts(table, &longest.repeat(3)), lines(&[(262, 3)]));
    for (name, bad_line) in lines_too_long(8_000_000) {
        assert_eq!(refusal(table, &bad_line), bad(1), "{name}");
        assert_eq!(refusal(table, &[&longest, ROOT, &bad_line].concat()), bad(3), "{name}");
        assert_eq!(refusal(table, &[&longest, ROOT, &bad_line, b"\n", ROOT].concat()), bad(3), "{name}");
    }
    for digits in [2 * 9_476 - 1, 2 * 9_476, 2 * 9_476 + 1, 2 * 9_476 + 2, 65_536, 131_072] {
        for end in [&b"\n"[..], b""] {
            assert_eq!(refusal(table, &[&vec![b'0'; digits][..], end].concat()), bad(1));
        }
    }
}

/// Every byte at every place of a log of two lines, over the byte that is there, and every log that is cut off.
#[test]
fn every_byte_at_every_place() {
    let mut tally = Tally::default();
    let text = [SEASON_LOG.as_bytes(), b"020276760001016101016b012a\n"].concat();
    for at in 0..text.len() {
        for byte in 0..=255u8 {
            let mut over = text.clone();
            over[at] = byte;
            tally.count(season_report(EXAMPLES_E_TO_K.as_bytes(), &over, REPORT).0);
        }
        tally.count(season_report(EXAMPLES_E_TO_K.as_bytes(), &text[..at], REPORT).0);
    }
    tally.assert_at_least(&[(0, 200), (51, 10_000)]);
}

/// Every byte as every byte of a line's frame.
#[test]
fn every_frame_byte() {
    let mut tally = Tally::default();
    let keys = vec![Key { name: b"k".to_vec(), value: b"v".to_vec() }];
    let path =
        Path { elements: vec![Element { name: b"a".to_vec(), keys }, Element { name: b"b".to_vec(), keys: vec![] }] };
    let frame = LogLine { mode: 1, user: b"u".to_vec(), origin: b"oc".to_vec(), path }.frame();
    for at in 0..frame.len() {
        for byte in 0..=255u8 {
            let mut over = frame.clone();
            over[at] = byte;
            tally.count(season_report(EXAMPLES_E_TO_K.as_bytes(), &[ROOT, &hex_line(&over)].concat(), REPORT).0);
        }
    }
    tally.assert_at_least(&[(0, 500), (51, 3_000)]);
}

#[test]
fn damaged_logs() {
    let mut random = Random::new(0x98);
    let mut tally = Tally::default();
    for _ in 0..15_000 {
        let lines = dense_table_for_logs(&mut random);
        let log = dense_log(&mut random, &lines, &DENSE, 4);
        let mut text = log_text(&log);
        if random.one_in(2) {
            damage(&mut random, &mut text, b"0123456789abcdef0123456789abcdef\n");
        } else {
            let mut frames: Vec<Vec<u8>> = log.iter().map(LogLine::frame).collect();
            let marks = [0, 1, 2, 3, 4, 5, 16, 17, 32, 33, 64, 65, b'*', b'.', b'a', b'u', 0x7F];
            damage(&mut random, &mut frames[2], &marks);
            text = frames.iter().flat_map(|frame| hex_line(frame)).collect();
        }
        tally.count(season_report(&table_text(&lines), &text, REPORT).0);
    }
    tally.assert_at_least(&[(0, 600), (51, 12_000)]);
}

/// Lengths of every string about its limit, where the bytes are there, and every byte in them.
#[test]
fn strings_on_both_sides_of_their_limits() {
    let table = VERSION_ONLY.as_bytes();
    let expect = |line: LogLine, good: bool| {
        let answer = season_report(table, &line.text(), REPORT).0;
        assert_eq!(answer, if good { 524 << 8 } else { bad(1) }, "{line:?}");
    };
    let root = LogLine::read("u", Path::default());
    for len in (0..=70).chain([127, 128, 200, 255]) {
        let (string, long) = (vec![b's'; len], (1..=64).contains(&len));
        expect(LogLine { user: string.clone(), ..root.clone() }, long);
        expect(LogLine { origin: string.clone(), ..root.clone() }, len <= 32);
        for part in 0..3 {
            let mut strings = [b"a".to_vec(), b"k".to_vec(), b"v".to_vec()];
            strings[part] = string.clone();
            let [name, key, value] = strings;
            let elements = vec![Element { name, keys: vec![Key { name: key, value }] }];
            expect(LogLine::read("u", Path { elements }), long);
        }
    }
    for byte in 0..=255u8 {
        let prints = (0x20..=0x7E).contains(&byte);
        for string in [vec![byte], vec![b'u', byte], vec![byte, b'u']] {
            expect(LogLine { user: string.clone(), ..root.clone() }, prints);
            expect(LogLine { origin: string, ..root.clone() }, prints);
        }
        expect(LogLine { mode: byte, ..root.clone() }, byte == 1 || byte == 2);
    }
}

/// Counts of elements and keys, whole and one byte short.
#[test]
fn path_counts_on_both_sides_of_their_limits() {
    let head = b"\x01\x01u\x00";
    for count in 0..=255usize {
        let elements = [&head[..], &[count as u8], &b"\x01a\x00".repeat(count)].concat();
        let keys: Vec<u8> =
            (0..count).flat_map(|i| [2, b'a' + (i % 26) as u8, b'a' + (i / 26) as u8, 1, b'*']).collect();
        let keyed = [&head[..], &[1, 1, b'a', count as u8], &keys].concat();
        let twice = [&head[..], &[1, 1, b'a', count as u8], &b"\x01k\x01v".repeat(count)].concat();
        for (frame, most) in [(elements, 16), (keyed, 4), (twice, 1)] {
            let answer = |frame: &[u8]| season_report(VERSION_ONLY.as_bytes(), &hex_line(frame), REPORT).0;
            assert_eq!(answer(&frame), if count <= most { 524 << 8 } else { bad(1) }, "count {count}");
            assert_eq!(answer(&frame[..frame.len() - 1]), bad(1), "count {count}");
        }
    }
}

/// Room for the report exactly, a byte less, none and more; what is at fault in the log comes first.
#[test]
fn room_for_the_report() {
    let mut tally = Tally::default();
    let (table, paper) = (EXAMPLES_E_TO_K.as_bytes(), SEASON_LOG.as_bytes());
    for times in [0, 1, 9, 10, 99, 100, 101, 999, 1_000, 9_999, 10_000, 99_999, 100_000] {
        let log = paper.repeat(times);
        let (_, report) = season_report(table, &log, REPORT);
        assert_eq!(counts_of(&report), lines(&[(1, times as u32), (257, times as u32)]));
        let len = report.len();
        for room in [len, len + 1, len + 100, 2 * REPORT, 100_000] {
            let (answer, filled) = season_report(table, &log, room);
            assert_eq!((answer, &filled), ((len as u64) << 8, &report));
            tally.count(answer);
        }
        for room in [len - 1, len - 2, 523, 262, 1, 0] {
            let (answer, filled) = season_report(table, &log, room);
            assert_eq!((answer, filled.len()), (NO_ROOM, 0));
            tally.count(answer);
            let answer = season_report(table, &[&log[..], b"\n"].concat(), room).0;
            assert_eq!(answer, bad(times + 1));
            tally.count(answer);
        }
    }
    tally.assert_at_least(&[(0, 65), (23, 78), (51, 78)]);
}

/// A million lines are accepted, good or not the line after them is 50, and the last of them may still be 51.
#[test]
fn both_sides_of_a_million_lines() {
    let mut tally = Tally::default();
    let mut check = |log: &[u8], room: usize, expected: u64| {
        let (answer, _) = season_report(EXAMPLES_E_TO_K.as_bytes(), log, room);
        assert_eq!(answer, expected, "answer {answer:#x}, not {expected:#x}");
        tally.count(answer);
    };
    // `u` reads `/a/b` and the root and writes the root, in turn.
    let three = [SEASON_LOG.as_bytes(), ROOT, b"0201750000\n"].concat();
    let full = [&three.repeat(LOG_LINES / 3), ROOT].concat();
    let less = &full[..full.len() - ROOT.len()];
    let (_, report) = season_report(EXAMPLES_E_TO_K.as_bytes(), &full, REPORT);
    assert_eq!(counts_of(&report), lines(&[(1, 333_333), (257, 333_333), (259, 333_334), (262, 333_333)]));
    check(&full, report.len(), (report.len() as u64) << 8);
    check(&full, report.len() - 1, NO_ROOM);

    for behind in [ROOT, b"\n", b"0", b"0101750000"] {
        check(&[&full[..], behind].concat(), REPORT, LOG_LONG);
    }
    check(&[&full[..], ROOT, b"\n"].concat(), 0, LOG_LONG);
    for last in [&b"\n"[..], b"0", b"0101750000", b"\n0101750000\n", b"0001750000\n0101750000\n\n"] {
        check(&[less, last].concat(), REPORT, bad(LOG_LINES));
    }
    check(&[less, b"\n"].concat(), 0, bad(LOG_LINES));
    tally.assert_at_least(&[(0, 1), (23, 1), (50, 5), (51, 6)]);
}

/// A count of seven digits, and logs without one good line.
#[test]
fn a_million_lines_alike() {
    let table = EXAMPLES_E_TO_K.as_bytes();
    assert_eq!(counts(table, &SEASON_LOG.as_bytes().repeat(LOG_LINES)), lines(&[(1, 1_000_000), (257, 1_000_000)]));
    assert_eq!(refusal(table, &vec![b'\n'; LOG_LINES + 1]), bad(1));
    assert_eq!(refusal(table, &vec![b'0'; LOG_LINES + 1]), bad(1));
}

/// The report of the proved call alone, with room for any.
fn proved_report(table: &[u8], log: &[u8]) -> Counts {
    let mut out = [0; REPORT];
    let answer = proved::season_report(table, log, &mut out);
    assert_eq!(word::refusal_number(answer), 0, "{answer:#x}");
    counts_of(&out[..word::length(answer)])
}

/// Of the proved call alone: the order of the log's lines does not matter, the reports of two logs add up to that of
/// both, and the grid's sum is the number of lines.
#[test]
fn logs_in_another_order_and_in_parts() {
    let mut random = Random::new(0x99);
    let mut cells = Cells::default();
    for round in 0..2_000 {
        let lines = dense_table_for_logs(&mut random);
        let table = table_text(&lines);
        let mut log = dense_log(&mut random, &lines, &DENSE, round % 50);
        let whole = proved_report(&table, &log_text(&log));
        cells.count(&whole, log.len());
        random.shuffle(&mut log);
        assert_eq!(proved_report(&table, &log_text(&log)), whole);
        let (first, second) = log.split_at(random.below(log.len() + 1));
        let mut sum = proved_report(&table, &log_text(first));
        sum.iter_mut().zip(proved_report(&table, &log_text(second))).for_each(|(sum, count)| *sum += count);
        assert_eq!(sum, whole);
    }
    cells.assert_each_at_least(80);
}

/// Of the proved call alone: group, member and rule lines in another order, each among its own kind, change no number
/// of the grid, and the rule with an id decides as often.
#[test]
fn tables_in_another_order() {
    let mut random = Random::new(0x9A);
    let mut cells = Cells::default();
    for _ in 0..800 {
        let mut lines = dense_table_for_logs(&mut random);
        let log = log_text(&dense_log(&mut random, &lines, &DENSE, 30));
        let before = proved_report(&table_text(&lines), &log);
        let by_id = |lines: &[Line], counts: &Counts| {
            let ids = lines.iter().filter_map(Line::as_rule).map(|rule| rule.id.clone());
            let mut by_id: Vec<(Vec<u8>, u32)> = ids.zip(counts.iter().copied()).collect();
            by_id.sort();
            by_id
        };
        let ids_before = by_id(&lines, &before);
        shuffle_each_kind(&mut random, &mut lines);
        let after = proved_report(&table_text(&lines), &log);
        assert_eq!(before[RULES..], after[RULES..]);
        assert_eq!(ids_before, by_id(&lines, &after));
        cells.count(&after, 30);
    }
    cells.assert_each_at_least(40);
}

/// Of the proved call alone: a key with the value `*` counts as not given, so leaving it out changes nothing.
#[test]
fn wildcards_count_as_not_given() {
    let mut random = Random::new(0x9B);
    let mut dropped = 0;
    for _ in 0..500 {
        let lines = dense_table_for_logs(&mut random);
        let table = table_text(&lines);
        let mut log = dense_log(&mut random, &lines, &DENSE, 30);
        let before = proved_report(&table, &log_text(&log));
        for element in log.iter_mut().flat_map(|line| &mut line.path.elements) {
            let keys = element.keys.len();
            element.keys.retain(|key| key.value != b"*");
            dropped += keys - element.keys.len();
        }
        assert_eq!(proved_report(&table, &log_text(&log)), before);
    }
    assert!(dropped > 2_000, "{dropped} keys dropped");
}

/// A line of the greatest length whose path a rule of the table shares as far as it goes, and one that differs there.
#[test]
fn long_paths_decided_by_a_rule() {
    let worst = worst_logs().pop().expect("the longest line");
    assert_eq!(worst.line, longest_line().text());
    assert_eq!(counts(&worst.table, &worst.line), lines(&[(1, 1), (261, 1)]));
    let mut other = longest_line();
    other.path.elements[11].keys[3].value[63] = b'x';
    assert_eq!(counts(&worst.table, &other.text()), lines(&[(262, 1)]));
}
