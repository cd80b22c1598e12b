//! The season report (2026-01): how the requests of a log are decided by a table.

use crate::frame::{Action, Mode};
use crate::judge::Judge;
use crate::limits;
use crate::log::LogReader;
use crate::refusal::{Refusal, BUFFER, LOG_LINE, LOG_LONG};
use crate::table::{with_table, Table};
use crate::verdict::PathVerdict;

/// Fills the start of `out` with the report, and gives its length.
pub fn season_report(table: &[u8], log: &[u8], out: &mut [u8]) -> Result<usize, Refusal> {
    let report = with_table(table, |table| Season::of(table, log))??.report();
    out.get_mut(..report.len()).ok_or(BUFFER)?.copy_from_slice(&report);
    Ok(report.len())
}

/// The counts of a report.
struct Season {
    /// "for each of the 256 rules how often it decided"
    rules: [u32; limits::RULES],
    /// "a grid of read and write against permit, denied by a rule, and denied by default"
    grid: [[u32; 3]; 2],
}

impl Season {
    fn of(table: &Table, log: &[u8]) -> Result<Season, Refusal> {
        let mut season = Season { rules: [0; limits::RULES], grid: [[0; 3]; 2] };
        let (mut judge, mut reader) = (Judge::new(table), LogReader::new(log));
        let mut line = 0;
        while !reader.is_at_end() {
            line += 1;
            if line > limits::LOG_LINES {
                return Err(LOG_LONG);
            }
            let counted = reader.next(|asked| season.count(asked.mode, judge.verdict(asked)));
            counted.ok_or(Refusal { number: LOG_LINE, line: line as u32 })?;
        }
        Ok(season)
    }

    fn count(&mut self, mode: Mode, verdict: PathVerdict) {
        let row = match mode {
            Mode::Read => 0,
            Mode::Write => 1,
        };
        let column = match (verdict.action, verdict.rule) {
            (Action::Permit, _) => 0,
            (Action::Deny, Some(_)) => 1,
            (Action::Deny, None) => 2,
        };
        self.grid[row][column] += 1;
        if let Some(rule) = verdict.rule {
            self.rules[usize::from(rule.0)] += 1;
        }
    }

    /// "262 decimal lines without leading zeros: rules 0 to 255, then read permit, read denied by rule, read default,
    /// then the same for write."
    fn report(&self) -> Vec<u8> {
        let mut report = Vec::with_capacity(limits::REPORT);
        for number in self.rules.iter().chain(self.grid.as_flattened()) {
            push_line(&mut report, *number);
        }
        report
    }
}

fn push_line(report: &mut Vec<u8>, mut number: u32) {
    let mut digits = [0; 10];
    let mut first = digits.len();
    loop {
        first -= 1;
        digits[first] = b'0' + (number % 10) as u8;
        number /= 10;
        if number == 0 {
            break;
        }
    }
    report.extend_from_slice(&digits[first..]);
    report.push(b'\n');
}

#[cfg(test)]
mod tests {
    use super::*;
    use crate::generate::log::longest_line;
    use crate::vectors::{EXAMPLES_E_TO_K, SEASON_LOG, VERSION_ONLY};

    /// A good line: `u` reads the root.
    const ROOT: &[u8] = b"0101750000\n";

    fn report(table: &str, log: &[u8]) -> Result<String, Refusal> {
        let mut out = [0; limits::REPORT];
        let len = season_report(table.as_bytes(), log, &mut out)?;
        Ok(String::from_utf8(out[..len].to_vec()).expect("ASCII"))
    }

    /// A report whose lines are 0 but for those with these numbers, counted from 1.
    fn lines(others: &[(usize, u32)]) -> String {
        let number = |line| others.iter().find(|(at, _)| *at == line).map_or(0, |(_, number)| *number);
        (1..=limits::REPORT_LINES).map(|line| format!("{}\n", number(line))).collect()
    }

    fn bad(line: u32) -> Result<String, Refusal> {
        Err(Refusal { number: 51, line })
    }

    #[test]
    fn the_vector_of_the_paper() {
        assert_eq!(limits::REPORT_LINES, 262);
        assert_eq!(report(EXAMPLES_E_TO_K, SEASON_LOG.as_bytes()), Ok(lines(&[(1, 1), (257, 1)])));
    }

    #[test]
    fn an_empty_log_counts_nothing() {
        assert_eq!(report(EXAMPLES_E_TO_K, b""), Ok(lines(&[])));
        assert_eq!(report(VERSION_ONLY, b""), Ok("0\n".repeat(262)));
    }

    #[test]
    fn each_cell_of_the_grid() {
        // Permits and denials by rules 0 to 3: `u` may read `/a` and not `/b`, and write `/b` and not `/a`.
        let rule = |number: u8, action, mode, name| {
            format!("04{action}{mode}00017502{:04x}0001{name}00\n", 0x7230 + u16::from(number))
        };
        let rules = [
            rule(0, "01", "01", "0161"),
            rule(1, "00", "01", "0162"),
            rule(2, "01", "02", "0162"),
            rule(3, "00", "02", "0161"),
        ];
        let table = format!("{VERSION_ONLY}{}", rules.concat());
        let request = |mode, name| format!("{mode}01750001{name}00\n");
        let mut log = String::new();
        for (times, mode, name) in [
            (1, "01", "0161"),
            (2, "01", "0162"),
            (3, "01", "0163"),
            (4, "02", "0162"),
            (5, "02", "0161"),
            (6, "02", "0163"),
        ] {
            log += &request(mode, name).repeat(times);
        }
        let counts = [(1, 1), (2, 2), (3, 4), (4, 5), (257, 1), (258, 2), (259, 3), (260, 4), (261, 5), (262, 6)];
        assert_eq!(report(&table, log.as_bytes()), Ok(lines(&counts)));
    }

    #[test]
    fn the_table_comes_first() {
        assert_eq!(report("", b"\n"), Err(Refusal { number: 4, line: 1 }));
        assert_eq!(report(&format!("{VERSION_ONLY}02\n"), b"\n"), Err(Refusal { number: 3, line: 2 }));
        assert_eq!(report(&"0".repeat(limits::TABLE_TEXT + 1), b"\n"), Err(Refusal::plain(1)));
    }

    #[test]
    fn the_first_bad_line_counts() {
        assert_eq!(report(VERSION_ONLY, b"\n"), bad(1));
        assert_eq!(report(VERSION_ONLY, &[ROOT, b"0", ROOT, b"\n"].concat()), bad(2));
        assert_eq!(report(VERSION_ONLY, &[ROOT, ROOT, b"0101750000"].concat()), bad(3));
        let longest = longest_line().text();
        assert_eq!(report(VERSION_ONLY, &longest), Ok(lines(&[(262, 1)])));
        assert_eq!(report(VERSION_ONLY, &[b"00", &longest[..]].concat()), bad(1));
    }

    #[test]
    fn both_sides_of_a_million_lines() {
        let (full, less) = (ROOT.repeat(limits::LOG_LINES), ROOT.repeat(limits::LOG_LINES - 1));
        assert_eq!(report(VERSION_ONLY, &full), Ok(lines(&[(259, 1_000_000)])));
        for behind in [ROOT, b"\n", b"0", b"0101750000"] {
            assert_eq!(report(VERSION_ONLY, &[&full[..], behind].concat()), Err(Refusal::plain(50)));
        }
        for last in [&b"\n"[..], b"0", b"\n\n", b"0101750000"] {
            assert_eq!(report(VERSION_ONLY, &[&less[..], last].concat()), bad(1_000_000));
        }
    }

    #[test]
    fn nothing_is_stored_unless_all_of_it_fits() {
        let stored = |log: &[u8], room: usize| {
            let mut out = [b'#'; 600];
            let answer = season_report(VERSION_ONLY.as_bytes(), log, &mut out[..room]);
            (answer, String::from_utf8(out.to_vec()).expect("ASCII"))
        };
        let (log, untouched) = (ROOT.repeat(10), "#".repeat(600));
        let report = lines(&[(259, 10)]);
        assert_eq!(report.len(), 525);
        assert_eq!(stored(&log, 525), (Ok(525), format!("{report}{}", &untouched[525..])));
        assert_eq!(stored(&log, 600), (Ok(525), format!("{report}{}", &untouched[525..])));
        assert_eq!(stored(&log, 524), (Err(Refusal::plain(23)), untouched.clone()));
        assert_eq!(stored(b"\n", 0), (Err(Refusal { number: 51, line: 1 }), untouched));
    }
}
