//! The lines of a rule table: "an even, nonzero count of digits `0-9a-f`, then LF,
//! also after the last line".

/// The frames of a table text up to its first line that is no hex line.
pub struct HexLines {
    bytes: Vec<u8>,
    /// Where each frame ends in `bytes`.
    ends: Vec<usize>,
    /// Whether all lines were hex lines.
    whole: bool,
}

const NO_DIGIT: u8 = 0xFF;

const DIGITS: [u8; 256] = digits();

const fn digits() -> [u8; 256] {
    let mut digits = [NO_DIGIT; 256];
    let mut value = 0;
    while value < 16 {
        digits[b"0123456789abcdef"[value] as usize] = value as u8;
        value += 1;
    }
    digits
}

impl HexLines {
    pub fn decode(text: &[u8]) -> HexLines {
        let mut lines = HexLines { bytes: Vec::with_capacity(text.len() / 2), ends: Vec::new(), whole: true };
        let mut rest = text;
        while !rest.is_empty() && lines.whole {
            match rest.iter().position(|b| *b == b'\n') {
                Some(end) => {
                    lines.whole = lines.push(&rest[..end]);
                    rest = &rest[end + 1..];
                }
                None => lines.whole = false,
            }
        }
        lines
    }

    /// Decodes one line; false where it is no hex line.
    fn push(&mut self, line: &[u8]) -> bool {
        let is_hex = decode_line(line, &mut self.bytes);
        if is_hex {
            self.ends.push(self.bytes.len());
        }
        is_hex
    }

    /// The frames, none of them empty.
    pub fn frames(&self) -> impl Iterator<Item = &[u8]> {
        let starts = std::iter::once(0).chain(self.ends.iter().copied());
        starts.zip(&self.ends).map(|(start, end)| &self.bytes[start..*end])
    }

    /// How many hex lines came before the first line that is none, if there is one.
    pub fn broken_after(&self) -> Option<usize> {
        (!self.whole).then_some(self.ends.len())
    }
}

/// Decodes one line, given without its LF, behind the bytes; false where it is no hex line.
pub fn decode_line(line: &[u8], bytes: &mut Vec<u8>) -> bool {
    if line.is_empty() || !line.len().is_multiple_of(2) {
        return false;
    }
    for pair in line.chunks_exact(2) {
        let (high, low) = (DIGITS[pair[0] as usize], DIGITS[pair[1] as usize]);
        if high == NO_DIGIT || low == NO_DIGIT {
            return false;
        }
        bytes.push(high << 4 | low);
    }
    true
}

#[cfg(test)]
mod tests {
    use super::*;

    fn decoded(text: &[u8]) -> (Vec<Vec<u8>>, Option<usize>) {
        let lines = HexLines::decode(text);
        (lines.frames().map(<[u8]>::to_vec).collect(), lines.broken_after())
    }

    #[test]
    fn lines_end_with_lf() {
        assert_eq!(decoded(b""), (vec![], None));
        assert_eq!(decoded(b"01\n02ff\n"), (vec![vec![1], vec![2, 255]], None));
        assert_eq!(decoded(b"01\n02ff"), (vec![vec![1]], Some(1)));
    }

    #[test]
    fn other_lines_are_broken() {
        for line in ["\n", "0\n", "012\n", "0g\n", "0F\n", "01\r\n", " 01\n", "0x\n"] {
            assert_eq!(decoded(format!("00\n{line}00\n").as_bytes()), (vec![vec![0]], Some(1)), "{line:?}");
        }
    }
}
