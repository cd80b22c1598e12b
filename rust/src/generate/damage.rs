//! Small random damage to a text or to frame bytes.

use crate::random::Random;

/// Does one small edit, now and then two or three; `likely` are the bytes that mean
/// something in the text, and are stored more often than others.
pub fn damage(random: &mut Random, text: &mut Vec<u8>, likely: &[u8]) {
    let edits = if random.one_in(3) { random.between(2, 3) } else { 1 };
    for _ in 0..edits {
        edit(random, text, likely);
    }
}

fn edit(random: &mut Random, text: &mut Vec<u8>, likely: &[u8]) {
    if text.is_empty() {
        text.push(any_byte(random, likely));
        return;
    }
    let at = random.below(text.len());
    match random.below(8) {
        0 => text[at] ^= 1 << random.below(8),
        1 | 2 => text[at] = any_byte(random, likely),
        3 => drop(text.remove(at)),
        4 | 5 => text.insert(random.below(text.len() + 1), any_byte(random, likely)),
        6 => double_or_swap(random, text, likely),
        _ => cut(random, text, at),
    }
}

fn any_byte(random: &mut Random, likely: &[u8]) -> u8 {
    if random.one_in(4) {
        random.byte()
    } else {
        *random.pick(likely)
    }
}

/// Doubles a byte, by choice one of the likely ones, or swaps two neighbours.
fn double_or_swap(random: &mut Random, text: &mut Vec<u8>, likely: &[u8]) {
    let places: Vec<usize> = (0..text.len()).filter(|i| likely.contains(&text[*i])).collect();
    let at = if places.is_empty() { random.below(text.len()) } else { *random.pick(&places) };
    if random.one_in(3) && at + 1 < text.len() {
        text.swap(at, at + 1);
    } else {
        text.insert(at, text[at]);
    }
}

/// Cuts the end off, or a few bytes out of the middle.
fn cut(random: &mut Random, text: &mut Vec<u8>, at: usize) {
    let end = if random.one_in(2) { text.len() } else { (at + random.between(1, 6)).min(text.len()) };
    text.drain(at..end);
}
