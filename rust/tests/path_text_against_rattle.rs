//! Path text and path bytes: the proved reader and writer against the Rust ones.

use burgee_rust::compare::{path_read, path_write};
use burgee_rust::generate::damage::damage;
use burgee_rust::generate::path::{good_path, longest_path, put_fault, Path, FAULTS, FRAME_MARKS, TEXT_MARKS};
use burgee_rust::generate::short::for_each_short_string;
use burgee_rust::limits;
use burgee_rust::path::{path_bytes, path_text};
use burgee_rust::random::Random;
use burgee_rust::tally::Tally;
use burgee_rust::word;

/// Buffers of exactly the length, one byte short, none at all, and larger.
fn buffer_lengths(random: &mut Random, exact: usize) -> [usize; 6] {
    [exact, exact - 1, 0, exact + 1, random.below(exact + 1), exact + random.between(2, 300)]
}

/// The text and the bytes of one good path, through both calls, with each kind
/// of buffer, and the round trips.
fn compare_good_path(random: &mut Random, path: &Path, tally: &mut Tally) {
    let (text, bytes) = (path.text(), path.bytes());
    for out_len in buffer_lengths(random, bytes.len()) {
        let (answer, filled) = path_read(&text, out_len);
        tally.count(answer);
        assert_eq!(word::refusal_number(answer), if out_len < bytes.len() { 23 } else { 0 });
        assert!(out_len < bytes.len() || filled == bytes, "text -> bytes of {path:?}");
    }
    for out_len in buffer_lengths(random, text.len()) {
        let (answer, filled) = path_write(&bytes, out_len);
        tally.count(answer);
        assert_eq!(word::refusal_number(answer), if out_len < text.len() { 23 } else { 0 });
        assert!(out_len < text.len() || filled == text, "bytes -> text of {path:?}");
    }
}

/// One text of unknown worth, and back where it reads.
fn compare_text(random: &mut Random, text: &[u8], tally: &mut Tally) {
    let room = match path_bytes(text) {
        Ok(bytes) => *random.pick(&[bytes.len(), bytes.len() - 1, bytes.len() + 9]),
        Err(_) => *random.pick(&[0, 1, text.len(), text.len() + 40]),
    };
    let (answer, bytes) = path_read(text, room);
    tally.count(answer);
    if word::refusal_number(answer) == 0 {
        assert_eq!(path_write(&bytes, text.len()).1, text, "text -> bytes -> text");
    }
}

/// Path bytes of unknown worth, and back where they are a path.
fn compare_bytes(random: &mut Random, bytes: &[u8], tally: &mut Tally) {
    let room = match path_text(bytes) {
        Ok(text) => *random.pick(&[text.len(), text.len() - 1, text.len() + 9]),
        Err(_) => *random.pick(&[0, 1, bytes.len(), bytes.len() * 2 + 40]),
    };
    let (answer, text) = path_write(bytes, room);
    tally.count(answer);
    if word::refusal_number(answer) == 0 {
        assert_eq!(path_read(&text, bytes.len()).1, bytes, "bytes -> text -> bytes");
    }
}

#[test]
fn good_paths() {
    let mut random = Random::new(0x11);
    let mut tally = Tally::default();
    for _ in 0..6_000 {
        let path = good_path(&mut random);
        compare_good_path(&mut random, &path, &mut tally);
    }
    tally.assert_at_least(&[(0, 30_000), (23, 20_000)]);
}

#[test]
fn longest_path_both_ways() {
    let mut random = Random::new(0x12);
    let mut tally = Tally::default();
    let path = longest_path();
    assert_eq!(path.bytes().len(), limits::PATH_BYTES);
    assert_eq!(path.text().len(), limits::PATH_TEXT);
    compare_good_path(&mut random, &path, &mut tally);
    tally.assert_at_least(&[(0, 6), (23, 6)]);
}

#[test]
fn damaged_texts() {
    let mut random = Random::new(0x13);
    let mut tally = Tally::default();
    for _ in 0..40_000 {
        let mut text = good_path(&mut random).text();
        damage(&mut random, &mut text, TEXT_MARKS);
        compare_text(&mut random, &text, &mut tally);
    }
    tally.assert_at_least(&[(0, 5_000), (22, 15_000), (23, 2_500)]);
}

#[test]
fn damaged_bytes() {
    let mut random = Random::new(0x14);
    let mut tally = Tally::default();
    for _ in 0..40_000 {
        let mut bytes = good_path(&mut random).bytes();
        damage(&mut random, &mut bytes, FRAME_MARKS);
        compare_bytes(&mut random, &bytes, &mut tally);
    }
    tally.assert_at_least(&[(0, 2_000), (22, 30_000), (23, 1_000)]);
}

#[test]
fn each_fault_alone_and_in_pairs() {
    let mut random = Random::new(0x15);
    for first in FAULTS {
        let (mut texts, mut frames) = (Tally::default(), Tally::default());
        for round in 0..600 {
            let mut path = good_path(&mut random);
            put_fault(&mut random, &mut path, first);
            if round % 2 == 1 {
                let second = *random.pick(&FAULTS);
                put_fault(&mut random, &mut path, second);
            }
            compare_text(&mut random, &path.text(), &mut texts);
            compare_bytes(&mut random, &path.bytes(), &mut frames);
        }
        // A second fault may take the first one away again, and a fault of the
        // parts may be a good text (a name with a `/` is two names).
        texts.assert_at_least(&[(22, 400)]);
        frames.assert_at_least(&[(22, 550)]);
    }
}

/// Every text of up to six bytes out of the eight that matter most, and every
/// such beginning of a value.
#[test]
fn every_short_text() {
    let mut tally = Tally::default();
    for_each_short_string(b"/a[]=\\*.", 6, |text| {
        tally.count(path_read(text, 10).0);
        tally.count(path_read(&[b"/a[a=", text].concat(), 12).0);
        if text.len() <= 4 {
            for room in 0..10 {
                tally.count(path_read(text, room).0);
            }
        }
    });
    tally.assert_at_least(&[(0, 2_000), (22, 500_000), (23, 90)]);
}

/// Every string of up to six bytes out of counts, lengths and a few others.
#[test]
fn every_short_frame() {
    let mut tally = Tally::default();
    for_each_short_string(&[0, 1, 2, 3, b'a', b'*', b']'], 6, |bytes| {
        tally.count(path_write(bytes, 12).0);
    });
    for_each_short_string(&[0, 1, 2, b'a', b'*', b'\\'], 4, |tail| {
        let bytes = [b"\x01\x01a\x01\x01k", tail].concat();
        for room in [5, 6, 7, 8] {
            tally.count(path_write(&bytes, room).0);
        }
    });
    tally.assert_at_least(&[(0, 10), (22, 140_000), (23, 20)]);
}

/// Every byte at every place of a small text, stored over and put between.
#[test]
fn every_byte_at_every_place() {
    let mut tally = Tally::default();
    let text = br"/ab[k=v\]w][l=*]/c[m=\\]";
    let bytes = path_bytes(text).unwrap();
    for byte in 0..=255u8 {
        for at in 0..=text.len() {
            if at < text.len() {
                let mut over = text.to_vec();
                over[at] = byte;
                tally.count(path_read(&over, 64).0);
            }
            let mut between = text.to_vec();
            between.insert(at, byte);
            tally.count(path_read(&between, 64).0);
        }
        for at in 0..=bytes.len() {
            if at < bytes.len() {
                let mut over = bytes.clone();
                over[at] = byte;
                tally.count(path_write(&over, 64).0);
            }
            let mut between = bytes.clone();
            between.insert(at, byte);
            tally.count(path_write(&between, 64).0);
        }
    }
    tally.assert_at_least(&[(0, 2_000), (22, 10_000)]);
}

/// `\x` for every x, alone in a value, at its start, and at its end.
#[test]
fn every_escape() {
    let mut tally = Tally::default();
    for byte in 0..=255u8 {
        for (before, after) in [("/a[k=", "]"), ("/a[k=x", "]"), ("/a[k=", "y]"), ("/a[k=x", "y]/b")] {
            let text = [before.as_bytes(), &[b'\\', byte], after.as_bytes()].concat();
            tally.count(path_read(&text, 32).0);
        }
    }
    assert_eq!((tally.of(0), tally.of(22)), (8, 4 * 254));
}

/// Each limit at its two sides, and lengths of 0.
#[test]
fn limits_on_both_sides() {
    let name = |len: usize| "n".repeat(len);
    let expectations = [
        (0, "/a".repeat(16)),
        (22, "/a".repeat(17)),
        (0, "/a[a=1][b=2][c=3][d=4]".repeat(16)),
        (22, "/a[a=1][b=2][c=3][d=4][e=5]".into()),
        (0, format!("/{}", name(64))),
        (22, format!("/{}", name(65))),
        (0, format!("/a[{}=v]", name(64))),
        (22, format!("/a[{}=v]", name(65))),
        (0, format!("/a[k={}]", name(64))),
        (22, format!("/a[k={}]", name(65))),
        (0, format!("/a[k={}]", r"\]".repeat(64))),
        (22, format!("/a[k={}]", r"\]".repeat(65))),
        (22, format!("/a[k={}*]", name(63))),
        (22, "/".repeat(2)),
        (22, "/a[=v]".into()),
        (22, "/a[k=]".into()),
        (22, "".into()),
        (0, "/".into()),
        (22, "/...".into()),
        (0, "/..../..[...=...]".into()),
        (22, "/a[k=1][k=2]".into()),
        (22, "/a[k=*][k=*]".into()),
        (0, "/a[k=1]/a[k=1]".into()),
    ];
    for (number, text) in expectations {
        assert_eq!(word::refusal_number(path_read(text.as_bytes(), 20_000).0), number, "{text}");
    }
}

/// The same limits in path bytes: counts and lengths past them whose bytes are
/// there, frames cut short, and bytes after the path.
#[test]
fn frames_at_the_limits() {
    let mut random = Random::new(0x16);
    let mut tally = Tally::default();
    for count in 0..=255usize {
        let elements = [&[count as u8], &b"\x01a\x00".repeat(count)[..]].concat();
        let keys: Vec<u8> =
            (0..count).flat_map(|i| [2, b'a' + (i % 26) as u8, b'a' + (i / 26) as u8, 1, b'v']).collect();
        let keyed = [&[1, 1, b'a', count as u8], &keys[..]].concat();
        let named = [&[1, count as u8], &vec![b'n'; count][..], &[0]].concat();
        let valued = [&[1, 1, b'a', 1, 1, b'k', count as u8], &vec![b'v'; count][..]].concat();
        for bytes in [elements, keyed, named, valued] {
            tally.count(path_write(&bytes, 2_000).0);
            for cut in 1..bytes.len().min(6) {
                compare_bytes(&mut random, &bytes[..bytes.len() - cut], &mut tally);
            }
            compare_bytes(&mut random, &[&bytes[..], &[0]].concat(), &mut tally);
        }
    }
    // 17 counts of elements, 5 of keys, 64 lengths of a name and of a value.
    tally.assert_at_least(&[(0, 17 + 5 + 64 + 64), (22, 5_000)]);
}

/// Every proper beginning of a good text and of good bytes.
#[test]
fn every_beginning() {
    let mut random = Random::new(0x17);
    let mut tally = Tally::default();
    for _ in 0..300 {
        let path = good_path(&mut random);
        let (text, bytes) = (path.text(), path.bytes());
        for end in (0..text.len()).take(400) {
            compare_text(&mut random, &text[..end], &mut tally);
        }
        for end in (0..bytes.len()).take(400) {
            compare_bytes(&mut random, &bytes[..end], &mut tally);
        }
    }
    tally.assert_at_least(&[(0, 500), (22, 10_000), (23, 250)]);
}
