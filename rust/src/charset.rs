//! The two byte sets of the rule table and of path text.

const NAME: u8 = 1;
const PRINTABLE: u8 = 2;

const CLASSES: [u8; 256] = classes();

const fn classes() -> [u8; 256] {
    let mut classes = [0; 256];
    let mut byte = 0;
    while byte < 256 {
        let b = byte as u8;
        if b.is_ascii_alphanumeric() || matches!(b, b'-' | b'_' | b'.' | b':') {
            classes[byte] |= NAME;
        }
        if b >= 0x20 && b <= 0x7E {
            classes[byte] |= PRINTABLE;
        }
        byte += 1;
    }
    classes
}

/// "Element and key names use letters, digits and `-_.:`".
#[inline]
pub fn is_name_byte(byte: u8) -> bool {
    CLASSES[byte as usize] & NAME != 0
}

/// "other strings use bytes 0x20 to 0x7E".
#[inline]
pub fn is_printable(byte: u8) -> bool {
    CLASSES[byte as usize] & PRINTABLE != 0
}

#[cfg(test)]
mod tests {
    use super::*;

    #[test]
    fn name_bytes_are_66() {
        assert_eq!((0..=255).filter(|b| is_name_byte(*b)).count(), 26 + 26 + 10 + 4);
        assert!(!is_name_byte(b'*') && !is_name_byte(b'/') && !is_name_byte(b'='));
    }

    #[test]
    fn printable_bytes_are_95() {
        assert_eq!((0..=255).filter(|b| is_printable(*b)).count(), 95);
        assert!(!is_printable(0x1F) && is_printable(0x20));
        assert!(is_printable(0x7E) && !is_printable(0x7F));
    }
}
