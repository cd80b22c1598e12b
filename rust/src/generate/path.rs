//! Paths: good ones, and ones with a single fault of a chosen kind.

use crate::limits;
use crate::random::Random;

pub const NAME_BYTES: &[u8] = b"abcxyzABCXYZ0189-_.:";
/// Value bytes other than `*`, with those that path text treats apart more often.
pub const VALUE_BYTES: &[u8] = b"abcXYZ019 /[]=\\]\\[=/~!-_.:\"'";
/// The bytes that mean something in path text.
pub const TEXT_MARKS: &[u8] = b"/[]=\\*.a";
/// Bytes that are lengths and counts, at limits and about them, in path bytes.
pub const FRAME_MARKS: &[u8] = &[0, 1, 2, 3, 4, 5, 16, 17, 63, 64, 65, 255, b'*', b'.', b']', b'a'];

#[derive(Clone, PartialEq, Eq, Debug)]
pub struct Key {
    pub name: Vec<u8>,
    pub value: Vec<u8>,
}

#[derive(Clone, PartialEq, Eq, Debug)]
pub struct Element {
    pub name: Vec<u8>,
    pub keys: Vec<Key>,
}

/// A path as its parts; the encoders below take it as it is, good or not.
#[derive(Clone, PartialEq, Eq, Debug, Default)]
pub struct Path {
    pub elements: Vec<Element>,
}

impl Path {
    pub fn bytes(&self) -> Vec<u8> {
        let mut bytes = vec![self.elements.len() as u8];
        for element in &self.elements {
            push_string(&mut bytes, &element.name);
            bytes.push(element.keys.len() as u8);
            for key in &element.keys {
                push_string(&mut bytes, &key.name);
                push_string(&mut bytes, &key.value);
            }
        }
        bytes
    }

    pub fn text(&self) -> Vec<u8> {
        let mut text = Vec::new();
        for element in &self.elements {
            text.push(b'/');
            text.extend(&element.name);
            for key in &element.keys {
                text.push(b'[');
                text.extend(&key.name);
                text.push(b'=');
                for byte in &key.value {
                    if matches!(byte, b']' | b'\\') {
                        text.push(b'\\');
                    }
                    text.push(*byte);
                }
                text.push(b']');
            }
        }
        if text.is_empty() {
            text.push(b'/');
        }
        text
    }
}

/// S: one length byte, then the bytes.
pub fn push_string(bytes: &mut Vec<u8>, string: &[u8]) {
    bytes.push(string.len() as u8);
    bytes.extend(string);
}

/// A short length mostly; now and then one at the limit.
fn some_len(random: &mut Random, limit: usize) -> usize {
    match random.below(12) {
        0 => limit,
        1 => random.between(1, limit),
        _ => random.between(1, 6),
    }
}

pub fn good_name(random: &mut Random) -> Vec<u8> {
    let len = some_len(random, limits::LONG_STRING);
    let name = random.bytes_of(NAME_BYTES, len);
    if name == b"..." {
        b"..".to_vec()
    } else {
        name
    }
}

pub fn good_value(random: &mut Random) -> Vec<u8> {
    if random.one_in(6) {
        return b"*".to_vec();
    }
    let len = some_len(random, limits::LONG_STRING);
    random.bytes_of(VALUE_BYTES, len)
}

pub fn good_element(random: &mut Random) -> Element {
    let name = good_name(random);
    let count = if random.one_in(2) { 0 } else { random.between(1, limits::KEYS) };
    let mut keys: Vec<Key> = Vec::new();
    while keys.len() < count {
        let name = good_name(random);
        if keys.iter().all(|key| key.name != name) {
            keys.push(Key { name, value: good_value(random) });
        }
    }
    Element { name, keys }
}

pub fn good_path(random: &mut Random) -> Path {
    let count = match random.below(16) {
        0 => 0,
        1 => limits::ELEMENTS,
        2 => random.between(1, limits::ELEMENTS),
        _ => random.between(1, 4),
    };
    Path { elements: (0..count).map(|_| good_element(random)).collect() }
}

/// The path whose bytes and whose text are the longest.
pub fn longest_path() -> Path {
    let key = |name: u8| Key { name: vec![name; limits::LONG_STRING], value: vec![b'\\'; limits::LONG_STRING] };
    let element = Element { name: vec![b'n'; limits::LONG_STRING], keys: b"abcd".iter().map(|n| key(*n)).collect() };
    Path { elements: vec![element; limits::ELEMENTS] }
}

/// The ways in which a path can be at fault and still read.
#[derive(Clone, Copy, PartialEq, Eq, Debug)]
pub enum Fault {
    ElementCount,
    KeyCount,
    NameEmpty,
    NameLong,
    KeyNameEmpty,
    KeyNameLong,
    ValueEmpty,
    ValueLong,
    NameByte,
    KeyNameByte,
    ValueByte,
    NameStar,
    KeyNameStar,
    ValueStar,
    Dots,
    KeyTwice,
}

pub const FAULTS: [Fault; 16] = [
    Fault::ElementCount,
    Fault::KeyCount,
    Fault::NameEmpty,
    Fault::NameLong,
    Fault::KeyNameEmpty,
    Fault::KeyNameLong,
    Fault::ValueEmpty,
    Fault::ValueLong,
    Fault::NameByte,
    Fault::KeyNameByte,
    Fault::ValueByte,
    Fault::NameStar,
    Fault::KeyNameStar,
    Fault::ValueStar,
    Fault::Dots,
    Fault::KeyTwice,
];

impl Fault {
    /// The refusal number that paper 01 gives to a rule with this fault alone.
    pub fn number(self) -> u8 {
        match self {
            Fault::ElementCount | Fault::KeyCount | Fault::NameEmpty | Fault::NameLong => 5,
            Fault::KeyNameEmpty | Fault::KeyNameLong | Fault::ValueEmpty | Fault::ValueLong => 5,
            Fault::NameByte | Fault::KeyNameByte | Fault::ValueByte => 6,
            Fault::NameStar | Fault::KeyNameStar | Fault::ValueStar | Fault::Dots => 7,
            Fault::KeyTwice => 8,
        }
    }
}

/// Puts one fault into a path, somewhere.
pub fn put_fault(random: &mut Random, path: &mut Path, fault: Fault) {
    if fault == Fault::ElementCount {
        while path.elements.len() <= limits::ELEMENTS {
            path.elements.push(good_element(random));
        }
        return;
    }
    if path.elements.is_empty() {
        path.elements.push(good_element(random));
    }
    let at = random.below(path.elements.len());
    put_element_fault(random, &mut path.elements[at], fault);
}

fn put_element_fault(random: &mut Random, element: &mut Element, fault: Fault) {
    match fault {
        Fault::KeyCount => {
            element.keys = b"abcde".iter().map(|n| Key { name: vec![*n], value: good_value(random) }).collect();
        }
        Fault::KeyTwice => {
            let name = element.keys.first().map_or_else(|| b"k".to_vec(), |key| key.name.clone());
            element.keys.truncate(limits::KEYS - 1);
            if element.keys.is_empty() {
                element.keys.push(Key { name: name.clone(), value: good_value(random) });
            }
            element.keys.push(Key { name, value: good_value(random) });
        }
        Fault::NameEmpty => element.name.clear(),
        Fault::NameLong => element.name = vec![b'n'; limits::LONG_STRING + 1],
        Fault::NameByte => spoil(random, &mut element.name, b" /[]=\\@~\x00\x7f\xff"),
        Fault::NameStar => spoil(random, &mut element.name, b"*"),
        Fault::Dots => element.name = b"...".to_vec(),
        _ => {
            if element.keys.is_empty() {
                element.keys.push(Key { name: good_name(random), value: good_value(random) });
            }
            let at = random.below(element.keys.len());
            put_key_fault(random, &mut element.keys[at], fault);
        }
    }
}

fn put_key_fault(random: &mut Random, key: &mut Key, fault: Fault) {
    match fault {
        Fault::KeyNameEmpty => key.name.clear(),
        Fault::KeyNameLong => key.name = vec![b'k'; limits::LONG_STRING + 1],
        Fault::KeyNameByte => spoil(random, &mut key.name, b" /[]=\\@~\x00\x7f\xff"),
        Fault::KeyNameStar => spoil(random, &mut key.name, b"*"),
        Fault::ValueEmpty => key.value.clear(),
        Fault::ValueLong => key.value = vec![b'v'; limits::LONG_STRING + 1],
        Fault::ValueByte => {
            if key.value == b"*" {
                key.value = b"v".to_vec();
            }
            spoil(random, &mut key.value, b"\x00\x0a\x1f\x7f\x80\xff");
        }
        Fault::ValueStar => {
            if key.value.len() == 1 {
                key.value.push(b'v');
            }
            spoil(random, &mut key.value, b"*");
        }
        _ => unreachable!("not a fault of a key"),
    }
}

/// Stores a byte of the set somewhere in the string.
fn spoil(random: &mut Random, string: &mut Vec<u8>, set: &[u8]) {
    let byte = *random.pick(set);
    if string.is_empty() {
        string.push(byte);
    } else {
        let at = random.below(string.len());
        string[at] = byte;
    }
}
