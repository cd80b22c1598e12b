//! Tables on which a tree verdict takes long: every rule concerns `u` and fits the asked path, and is to be
//! compared with many others to the end.

use super::path::{Element, Key, Path};
use super::table::{table_text, Line, Rule};
use crate::limits;

pub struct WorstTree {
    pub name: &'static str,
    pub table: Vec<u8>,
    /// The path to ask about.
    pub path: Vec<u8>,
}

pub fn worst_trees() -> Vec<WorstTree> {
    let root = Path::default();
    let named = |name, table, path: &Path| WorstTree { name, table, path: path.text() };
    vec![
        named("equal ranks", full_table(|number| (b'u', 1, last_key(plain(14), number))), &root),
        named("one path", full_table(|number| (b'u', (number % 2) as u8, plain(14))), &root),
        named("half denied", full_table(|number| (b'u', (number % 2) as u8, last_key(plain(14), number))), &root),
        named("long names", full_table(|number| (b'u', (number % 2) as u8, long_names(number))), &root),
        named("10 keys a rule", full_table(|number| turned(number, &[4, 4, 2])), &root),
        named("33 keys a rule", full_table(|number| turned(number, &[4, 4, 4, 4, 4, 4, 4, 4, 1])), &root),
        named("64 keys a rule", full_table(|number| turned(number, &[4; 16])), &root),
        named("long values", full_table(long_values), &root),
        named("keys that are asked", full_table(partly_asked), &keyed(&[4])),
        named("ranks that rise", full_table(rising), &plain(16)),
        named("keys that rise", full_table(rising_keys), &keyed(&[4; 16])),
        named("values alike in low bits", full_table(alike_in_low_bits), &root),
        named(
            "all keys asked",
            full_table(|number| (b'u', (number % 2) as u8, last_key(plain(14), number))),
            &keyed(&[4; 16]),
        ),
        named("keys split in two", full_table(split_keys), &root),
    ]
}

/// As many rules as go into a table, at most 256. Of each its subject (`u`, or the group `g` that holds `u`), its
/// action and its path.
fn full_table(rule: impl Fn(usize) -> (u8, u8, Path)) -> Vec<u8> {
    let mut text = table_text(&[Line::version("v1"), Line::group("g"), Line::member("g", "u")]);
    for number in 0..256 {
        let (subject, action, path) = rule(number);
        let line = Line::Rule(Rule {
            action,
            mode: 1,
            subject_kind: u8::from(subject == b'g'),
            subject: vec![subject],
            id: format!("{:03}", 255 - number).into_bytes(),
            origin: Vec::new(),
            path,
        });
        let line = line.text();
        if limits::TABLE_TEXT < text.len() + line.len() {
            break;
        }
        text.extend(line);
    }
    text
}

fn element(name: &[u8]) -> Element {
    Element { name: name.to_vec(), keys: Vec::new() }
}

/// `/a/a/a` ..
fn plain(elements: usize) -> Path {
    Path { elements: vec![element(b"a"); elements] }
}

/// The path with a key that tells it from all others, in its last element.
fn last_key(mut path: Path, number: usize) -> Path {
    let value = vec![b'0' + (number / 64) as u8, b'0' + (number % 64) as u8];
    path.elements.last_mut().expect("an element").keys.push(Key { name: b"z".to_vec(), value });
    path
}

/// An element for each count, with that many keys.
fn keyed(counts: &[usize]) -> Path {
    let mut path = plain(counts.len());
    for (element, count) in path.elements.iter_mut().zip(counts) {
        element.keys = (0..*count).map(|k| Key { name: vec![b'a' + k as u8], value: b"1".to_vec() }).collect();
    }
    path
}

/// The keys in turn as they are, permitted, and in the other order, denied; the last key differs in each.
fn turned(number: usize, counts: &[usize]) -> (u8, u8, Path) {
    let mut path = keyed(counts);
    path.elements.last_mut().expect("an element").keys.pop();
    let mut path = last_key(path, number);
    if number.is_multiple_of(2) {
        path.elements.iter_mut().for_each(|element| element.keys.reverse());
    }
    (b'u', (number % 2) as u8, path)
}

fn long_names(number: usize) -> Path {
    let mut name = vec![b'a'; 46];
    name.extend(format!("{number:02x}").bytes());
    Path { elements: vec![element(&name)] }
}

/// Two elements with four keys each, as long as they may be.
fn long_values(number: usize) -> (u8, u8, Path) {
    let mut path = keyed(&[4, 4]);
    for key in path.elements.iter_mut().flat_map(|element| &mut element.keys) {
        key.value = vec![b'v'; 62];
    }
    path.elements[1].keys.pop();
    (b'u', (number % 2) as u8, last_key(path, number))
}

/// Four keys of the asked path, or none, before keys of its own.
fn partly_asked(number: usize) -> (u8, u8, Path) {
    let count = if number.is_multiple_of(2) { 4 } else { 0 };
    let (_, action, path) = turned(number, &[count, 4, 2]);
    (b'u', action, path)
}

/// Each is better than those before it, and covers the joined paths of them all: a key that is not asked, then the
/// asked elements.
fn rising(number: usize) -> (u8, u8, Path) {
    let mut path = plain(number / 16 + 1);
    path.elements[0].keys.push(Key { name: b"k".to_vec(), value: b"1".to_vec() });
    let (subject, action) = [(b'g', 1), (b'g', 0), (b'u', 1), (b'u', 0)][number / 4 % 4];
    (subject, action, path)
}

/// The same, with one asked key after another.
fn rising_keys(number: usize) -> (u8, u8, Path) {
    let mut path = plain(16);
    path.elements[0].keys.push(Key { name: b"k".to_vec(), value: b"1".to_vec() });
    for (at, element) in path.elements.iter_mut().enumerate() {
        let count = (number / 4).saturating_sub(3 * at).min(3);
        element.keys.extend(keyed(&[count]).elements.remove(0).keys);
    }
    let (subject, action) = [(b'g', 1), (b'g', 0), (b'u', 1), (b'u', 0)][number % 4];
    (subject, action, path)
}

/// Two keys in the last element, each of 17 letters, that differ only in where the name ends and the value begins.
fn split_keys(number: usize) -> (u8, u8, Path) {
    let mut path = plain(2);
    for (letter, at) in [(b'a', number / 16), (b'b', number % 16)] {
        let key = Key { name: vec![letter; at + 1], value: vec![letter; 16 - at] };
        path.elements[1].keys.push(key);
    }
    (b'u', (number % 2) as u8, path)
}

/// Values of eight words of four bytes that differ in the highest byte of a word by 64: a hash that multiplies words and
/// keeps the low end of each product gives them four hashes, whatever its factors.
fn alike_in_low_bits(number: usize) -> (u8, u8, Path) {
    let mut path = last_key(plain(2), number);
    let word = |at: usize| if number >> at & 1 == 0 { *b"aaa0" } else { *b"aaap" };
    path.elements[1].keys[0].value = (0..8).flat_map(word).collect();
    (b'u', (number % 2) as u8, path)
}
