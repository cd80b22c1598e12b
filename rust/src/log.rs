//! A log of path requests: one a line, hex as in a table, "mode, S user, S origin, path".

use std::mem::take;

use crate::frame::{Paths, Taker};
use crate::hex::decode_line;
use crate::limits;
use crate::path::is_path_bytes;
use crate::request::{judge_asker, Asked};

/// How long a good line is at most, without its LF.
const LONGEST_LINE: usize = 2 * limits::LOG_FRAME;

/// Reads a log line by line; the memory of one line serves for the next.
pub struct LogReader<'l> {
    rest: &'l [u8],
    frame: Vec<u8>,
    paths: Paths<'static>,
}

impl<'l> LogReader<'l> {
    pub fn new(log: &'l [u8]) -> LogReader<'l> {
        LogReader { rest: log, frame: Vec::new(), paths: Paths::default() }
    }

    pub fn is_at_end(&self) -> bool {
        self.rest.is_empty()
    }

    /// Hands on the request of the next line; none where the line is bad. A line that is too long to be good is looked
    /// at no further.
    pub fn next<R>(&mut self, then: impl FnOnce(&Asked) -> R) -> Option<R> {
        let longest = &self.rest[..self.rest.len().min(LONGEST_LINE + 1)];
        let end = longest.iter().position(|b| *b == b'\n')?;
        let line = &self.rest[..end];
        self.rest = &self.rest[end + 1..];
        self.frame.clear();
        if !decode_line(line, &mut self.frame) {
            return None;
        }
        let asked = read_request(&self.frame, take(&mut self.paths))?;
        let result = then(&asked);
        self.paths = asked.paths.emptied();
        Some(result)
    }
}

/// The request in a frame, its path put into `paths`; none where it "isn't so framed or gets 20 to 22".
pub fn read_request<'f>(frame: &'f [u8], mut paths: Paths<'f>) -> Option<Asked<'f>> {
    let mut taker = Taker::new(frame);
    let (mode, user, origin) = (taker.byte()?, taker.string()?, taker.string()?);
    let mode = judge_asker(user, mode.into(), origin).ok()?;
    if !is_path_bytes(taker.rest()) {
        return None;
    }
    let path = paths.take(&mut taker)?;
    Some(Asked { user, mode, origin, paths, path })
}

#[cfg(test)]
mod tests {
    use super::*;
    use crate::frame::Mode;
    use crate::generate::log::{faulty_lines, lines_too_long, longest_line, LogLine};
    use crate::generate::path::good_path;
    use crate::random::Random;
    use crate::vectors::SEASON_LOG;

    /// Whether each line of a log is good, up to the first that is not.
    fn good_lines(log: &[u8]) -> (usize, bool) {
        let mut reader = LogReader::new(log);
        let mut good = 0;
        while !reader.is_at_end() {
            if reader.next(|_| ()).is_none() {
                return (good, false);
            }
            good += 1;
        }
        (good, true)
    }

    #[test]
    fn a_line_has_mode_user_origin_and_path() {
        let parts = |line: &[u8]| {
            LogReader::new(line).next(|asked| {
                let names: Vec<&[u8]> = asked.paths.elements(&asked.path).iter().map(|element| element.name).collect();
                (asked.mode, asked.user.to_vec(), asked.origin.to_vec(), names.join(&b'/'))
            })
        };
        let of_the_paper = (Mode::Read, b"u".to_vec(), Vec::new(), b"a/b".to_vec());
        assert_eq!(parts(SEASON_LOG.as_bytes()), Some(of_the_paper));
        let written = (Mode::Write, b"vv".to_vec(), b"oc".to_vec(), b"a".to_vec());
        assert_eq!(parts(b"02027676026f6301016101016b012a\n"), Some(written));
    }

    #[test]
    fn one_line_after_another() {
        assert_eq!(good_lines(b""), (0, true));
        assert_eq!(good_lines(b"0101750000\n0201760000\n"), (2, true));
        assert_eq!(good_lines(b"0101750000\n0201760000"), (1, false));
        assert_eq!(good_lines(b"0101750000\n\n0201760000\n"), (1, false));
        assert_eq!(good_lines(b"0201760001016101016b012a\n0101750000\n0101750001\n"), (2, false));
    }

    #[test]
    fn each_fault_makes_a_line_bad() {
        let mut random = Random::new(0x51);
        for _ in 0..200 {
            let good = LogLine::read("u", good_path(&mut random)).text();
            assert_eq!(good_lines(&good), (1, true));
            let line = LogLine { mode: 2, origin: b"oc".to_vec(), ..LogLine::read("v", good_path(&mut random)) };
            for (name, bad) in faulty_lines(&mut random, &line) {
                assert_eq!(good_lines(&[&good[..], &bad, &good].concat()), (1, false), "{name}");
            }
        }
    }

    #[test]
    fn the_longest_line() {
        let longest = longest_line().text();
        assert_eq!(longest.len(), LONGEST_LINE + 1);
        assert_eq!(limits::LOG_FRAME, 9_476);
        assert_eq!(good_lines(&longest.repeat(2)), (2, true));
        for (name, bad) in lines_too_long(100_000) {
            assert_eq!(good_lines(&[&longest[..], &bad].concat()), (1, false), "{name}");
        }
    }
}
