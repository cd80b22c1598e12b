//! Path text and path bytes: the reader and the writer.
//!
//! Both work in two passes. The first judges the input and measures the result,
//! the second fills the buffer; so a refused call stores nothing.

use crate::charset::{is_name_byte, is_printable};
use crate::frame::Taker;
use crate::limits;
use crate::refusal::{Refusal, BUFFER, PATH};

/// Reads path text into the start of `out` as path bytes, and gives their length.
pub fn read_path_text(text: &[u8], out: &mut [u8]) -> Result<usize, Refusal> {
    let len = measure_bytes_of(text).ok_or(PATH)?;
    let out = out.get_mut(..len).ok_or(BUFFER)?;
    fill_bytes(text, out);
    Ok(len)
}

/// Writes path bytes into the start of `out` as path text, and gives its length.
pub fn write_path_text(bytes: &[u8], out: &mut [u8]) -> Result<usize, Refusal> {
    let len = measure_text_of(bytes).ok_or(PATH)?;
    let out = out.get_mut(..len).ok_or(BUFFER)?;
    fill_text(bytes, out);
    Ok(len)
}

/// The path bytes of a path text.
pub fn path_bytes(text: &[u8]) -> Result<Vec<u8>, Refusal> {
    let mut bytes = vec![0; measure_bytes_of(text).ok_or(PATH)?];
    fill_bytes(text, &mut bytes);
    Ok(bytes)
}

/// The path text of path bytes.
pub fn path_text(bytes: &[u8]) -> Result<Vec<u8>, Refusal> {
    let mut text = vec![0; measure_text_of(bytes).ok_or(PATH)?];
    fill_text(bytes, &mut text);
    Ok(text)
}

/// Whether these are the bytes of exactly one good path.
pub fn is_path_bytes(bytes: &[u8]) -> bool {
    measure_text_of(bytes).is_some()
}

/// "other strings 64; only origin may be empty".
fn is_good_len(len: usize) -> bool {
    (1..=limits::LONG_STRING).contains(&len)
}

/// "Element and key names use letters, digits and `-_.:`".
fn is_name(name: &[u8]) -> bool {
    is_good_len(name.len()) && name.iter().all(|b| is_name_byte(*b))
}

/// "An element named `...` is refused."
fn is_dots(name: &[u8]) -> bool {
    name == b"..."
}

/// "In a value `]` and `\` are preceded by `\`, and nothing else is".
fn is_escaped(byte: u8) -> bool {
    byte == b']' || byte == b'\\'
}

/// The key names met in one element, to find a key twice.
struct KeyNames<'a> {
    names: [&'a [u8]; limits::KEYS],
    count: usize,
}

impl<'a> KeyNames<'a> {
    fn new() -> KeyNames<'a> {
        KeyNames { names: [&[]; limits::KEYS], count: 0 }
    }

    /// False where the name is there already or the element is full.
    fn add(&mut self, name: &'a [u8]) -> bool {
        if self.count == limits::KEYS || self.names[..self.count].contains(&name) {
            return false;
        }
        self.names[self.count] = name;
        self.count += 1;
        true
    }
}

/// The length of the path bytes of a good path text; none for any other text.
fn measure_bytes_of(text: &[u8]) -> Option<usize> {
    if text == b"/" {
        return Some(1);
    }
    let mut rest = text;
    let mut len = 1;
    let mut elements = 0;
    loop {
        elements += 1;
        if elements > limits::ELEMENTS {
            return None;
        }
        let name;
        (name, rest) = split_name(rest.strip_prefix(b"/")?);
        if !is_good_len(name.len()) || is_dots(name) {
            return None;
        }
        len += 2 + name.len();
        let mut keys = KeyNames::new();
        while let Some(key) = rest.strip_prefix(b"[") {
            let (name, value) = split_name(key);
            if !is_good_len(name.len()) || !keys.add(name) {
                return None;
            }
            let value_len;
            (value_len, rest) = measure_value(value.strip_prefix(b"=")?)?;
            len += 2 + name.len() + value_len;
        }
        if rest.is_empty() {
            return Some(len);
        }
    }
}

/// The name bytes at the start of the text, and what follows them.
fn split_name(text: &[u8]) -> (&[u8], &[u8]) {
    let end = text.iter().position(|b| !is_name_byte(*b)).unwrap_or(text.len());
    text.split_at(end)
}

/// The length of the value at the start of the text once its escapes are taken
/// out, and what follows its `]`.
fn measure_value(text: &[u8]) -> Option<(usize, &[u8])> {
    let mut len = 0;
    let mut star = false;
    let mut bytes = text.iter();
    loop {
        match *bytes.next()? {
            b']' => break,
            b'\\' if is_escaped(*bytes.next()?) => {}
            b'\\' => return None,
            b'*' => star = true,
            byte if is_printable(byte) => {}
            _ => return None,
        }
        len += 1;
    }
    is_good_value(len, star).then_some((len, bytes.as_slice()))
}

/// "A value that is exactly `*` is a wildcard; any other value holds no `*`."
fn is_good_value(len: usize, star: bool) -> bool {
    is_good_len(len) && (!star || len == 1)
}

/// Fills `out`, which has the measured length, from good path text.
fn fill_bytes(text: &[u8], out: &mut [u8]) {
    out[0] = 0;
    if text == b"/" {
        return;
    }
    let mut filler = Filler { out, at: 1 };
    let mut rest = text;
    while !rest.is_empty() {
        let name;
        (name, rest) = split_name(&rest[1..]);
        filler.string(name);
        let count_at = filler.skip();
        let mut keys = 0;
        while let [b'[', key @ ..] = rest {
            let (name, value) = split_name(key);
            filler.string(name);
            rest = fill_value(&value[1..], &mut filler);
            keys += 1;
        }
        filler.out[count_at] = keys;
        filler.out[0] += 1;
    }
}

/// Fills in the value at the start of good text, and gives what follows its `]`.
fn fill_value<'t>(text: &'t [u8], filler: &mut Filler) -> &'t [u8] {
    let len_at = filler.skip();
    let (len, rest) = unescape(text, filler.rest());
    filler.at += len;
    filler.out[len_at] = len as u8;
    rest
}

/// Takes the escapes out of a good value that ends with `]`; gives its length and what
/// follows it.
fn unescape<'t>(text: &'t [u8], out: &mut [u8]) -> (usize, &'t [u8]) {
    let mut bytes = text.iter();
    let mut len = 0;
    loop {
        match bytes.next() {
            None | Some(b']') => return (len, bytes.as_slice()),
            Some(b'\\') => out[len] = bytes.next().copied().unwrap_or_default(),
            Some(byte) => out[len] = *byte,
        }
        len += 1;
    }
}

/// Puts the escapes into a value, and gives the length of its text.
fn escape(value: &[u8], out: &mut [u8]) -> usize {
    let mut len = 0;
    for byte in value {
        if is_escaped(*byte) {
            out[len] = b'\\';
            len += 1;
        }
        out[len] = *byte;
        len += 1;
    }
    len
}

/// Stores bytes one after another in a buffer that is long enough.
struct Filler<'o> {
    out: &'o mut [u8],
    at: usize,
}

impl Filler<'_> {
    fn byte(&mut self, byte: u8) {
        self.out[self.at] = byte;
        self.at += 1;
    }

    fn bytes(&mut self, bytes: &[u8]) {
        self.out[self.at..self.at + bytes.len()].copy_from_slice(bytes);
        self.at += bytes.len();
    }

    /// "S is one length byte, then that many bytes."
    fn string(&mut self, string: &[u8]) {
        self.byte(string.len() as u8);
        self.bytes(string);
    }

    /// What is still to be filled.
    fn rest(&mut self) -> &mut [u8] {
        &mut self.out[self.at..]
    }

    /// Leaves a place for a count to be stored later.
    fn skip(&mut self) -> usize {
        self.at += 1;
        self.at - 1
    }
}

/// The length of the path text of path bytes; none for bytes that aren't exactly
/// one good path.
fn measure_text_of(bytes: &[u8]) -> Option<usize> {
    let mut taker = Taker::new(bytes);
    let elements = taker.byte()?;
    if usize::from(elements) > limits::ELEMENTS {
        return None;
    }
    let mut len = usize::from(elements == 0);
    for _ in 0..elements {
        let name = taker.string()?;
        if !is_name(name) || is_dots(name) {
            return None;
        }
        len += 1 + name.len();
        let mut keys = KeyNames::new();
        for _ in 0..taker.byte()? {
            let (name, value) = (taker.string()?, taker.string()?);
            if !is_name(name) || !keys.add(name) {
                return None;
            }
            len += 3 + name.len() + measure_escaped(value)?;
        }
    }
    taker.is_at_end().then_some(len)
}

/// The length of a value's text; none for bytes that are no value.
fn measure_escaped(value: &[u8]) -> Option<usize> {
    let mut escapes = 0;
    let mut star = false;
    for byte in value {
        if !is_printable(*byte) {
            return None;
        }
        star |= *byte == b'*';
        escapes += usize::from(is_escaped(*byte));
    }
    is_good_value(value.len(), star).then_some(value.len() + escapes)
}

/// Fills `out`, which has the measured length, from good path bytes.
fn fill_text(bytes: &[u8], out: &mut [u8]) {
    let (mut taker, mut filler) = (Taker::new(bytes), Filler { out, at: 0 });
    let filled = fill_elements(&mut taker, &mut filler);
    debug_assert!(filled.is_some() && filler.at == filler.out.len());
}

fn fill_elements(taker: &mut Taker, filler: &mut Filler) -> Option<()> {
    let elements = taker.byte()?;
    if elements == 0 {
        filler.byte(b'/');
    }
    for _ in 0..elements {
        filler.byte(b'/');
        filler.bytes(taker.string()?);
        for _ in 0..taker.byte()? {
            filler.byte(b'[');
            filler.bytes(taker.string()?);
            filler.byte(b'=');
            filler.at += escape(taker.string()?, filler.rest());
            filler.byte(b']');
        }
    }
    Some(())
}

#[cfg(test)]
mod tests {
    use super::*;

    fn reads(text: &str, bytes: &[u8]) {
        assert_eq!(path_bytes(text.as_bytes()).as_deref(), Ok(bytes), "{text}");
        assert_eq!(path_text(bytes).as_deref(), Ok(text.as_bytes()), "{text}");
    }

    fn refuses(text: &[u8]) {
        assert_eq!(path_bytes(text), Err(PATH), "{}", text.escape_ascii());
    }

    #[test]
    fn reads_good_text_and_writes_it_back() {
        reads("/", &[0]);
        reads("/a", b"\x01\x01a\x00");
        reads("/a/bc", b"\x02\x01a\x00\x02bc\x00");
        reads("/a[k=*]", b"\x01\x01a\x01\x01k\x01*");
        reads("/a[k=x/[=y][l= ]/b", b"\x02\x01a\x02\x01k\x05x/[=y\x01l\x01 \x01b\x00");
        reads(r"/a[k=\]\\]", b"\x01\x01a\x01\x01k\x02]\\");
        reads("/..[...=1]/....", b"\x02\x02..\x01\x03...\x011\x04....\x00");
    }

    #[test]
    fn refuses_every_other_text() {
        for text in [
            "",
            "a",
            "//",
            "/a/",
            "/a//b",
            "/...",
            "/a*",
            "/*",
            "/a b",
            "/a[",
            "/a[k",
            "/a[k=",
            "/a[k=v",
            "/a[k]",
            "/a[=v]",
            "/a[k=]",
            "/a]",
            "/a[k=v]b",
            "/a[k=v][k=*]",
            "/a[k=**]",
            "/a[k=*x]",
            r"/a[k=\*]",
            r"/a[k=\[]",
            r"/a[k=\/]",
            r"/a[k=\",
            r"/a[k=\]",
            "/[k=v]",
            "[k=v]",
            "/a[k=v] ",
            "/a[*=v]",
        ] {
            refuses(text.as_bytes());
        }
        refuses(b"/a[k=\x7f]");
        refuses(b"/a[k=\x1f]");
    }

    #[test]
    fn limits_lie_where_the_paper_puts_them() {
        assert!(path_bytes("/a".repeat(16).as_bytes()).is_ok());
        refuses("/a".repeat(17).as_bytes());
        assert!(path_bytes(b"/a[a=1][b=1][c=1][d=1]").is_ok());
        refuses(b"/a[a=1][b=1][c=1][d=1][e=1]");
        assert!(path_bytes(format!("/{}", "n".repeat(64)).as_bytes()).is_ok());
        refuses(format!("/{}", "n".repeat(65)).as_bytes());
        assert!(path_bytes(format!("/a[k={}]", r"\]".repeat(64)).as_bytes()).is_ok());
        refuses(format!("/a[k={}]", r"\]".repeat(65)).as_bytes());
    }

    #[test]
    fn longest_path_has_the_lengths_of_the_paper() {
        let key = |n| format!("[{}={}]", n, r"\\".repeat(64));
        let keys: String = ["a", "b", "c", "d"].map(|n| key(n.repeat(64))).concat();
        let text = format!("/{}{}", "n".repeat(64), keys).repeat(16);
        let bytes = path_bytes(text.as_bytes()).unwrap();
        assert_eq!((text.len(), bytes.len()), (limits::PATH_TEXT, limits::PATH_BYTES));
        assert_eq!(path_text(&bytes).unwrap(), text.as_bytes());
    }

    #[test]
    fn writer_wants_exactly_one_good_path() {
        for bytes in [
            &b""[..],
            b"\x00\x00",
            b"\x01",
            b"\x01\x01a",
            b"\x01\x01a\x00\x00",
            b"\x01\x00\x00",
            b"\x01\x01*\x00",
            b"\x01\x03...\x00",
            b"\x01\x01a\x01\x01k\x00",
            b"\x01\x01a\x01\x00\x01v",
            b"\x01\x01a\x01\x01k\x02**",
            b"\x01\x01a\x02\x01k\x01v\x01k\x01w",
            b"\x01\x01a\x01\x01k\x01\x7f",
        ] {
            assert_eq!(path_text(bytes), Err(PATH), "{}", bytes.escape_ascii());
        }
    }

    #[test]
    fn nothing_is_stored_unless_all_of_it_fits() {
        let mut out = *b"######";
        assert_eq!(read_path_text(b"/a", &mut out[..3]), Err(BUFFER));
        assert_eq!(read_path_text(b"/a/", &mut out[..0]), Err(PATH));
        assert_eq!(write_path_text(b"\x01\x01a\x00", &mut out[..1]), Err(BUFFER));
        assert_eq!(&out, b"######");
        assert_eq!(read_path_text(b"/a", &mut out), Ok(4));
        assert_eq!(&out, b"\x01\x01a\x00##");
        assert_eq!(write_path_text(b"\x01\x01a\x00", &mut out[..2]), Ok(2));
        assert_eq!(&out, b"/aa\x00##");
    }
}
