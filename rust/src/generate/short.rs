//! Every string of a few bytes.

/// Hands on every string of up to `longest` bytes out of the set.
pub fn for_each_short_string(set: &[u8], longest: usize, mut each: impl FnMut(&[u8])) {
    extend_each(set, longest, &mut Vec::with_capacity(longest), &mut each);
}

fn extend_each(set: &[u8], longest: usize, string: &mut Vec<u8>, each: &mut impl FnMut(&[u8])) {
    each(string);
    if string.len() < longest {
        for byte in set {
            string.push(*byte);
            extend_each(set, longest, string, each);
            string.pop();
        }
    }
}

#[cfg(test)]
mod tests {
    use super::*;

    #[test]
    fn all_strings_of_up_to_two_bytes() {
        let mut all = Vec::new();
        for_each_short_string(b"ab", 2, |string| all.push(String::from_utf8(string.to_vec()).unwrap()));
        assert_eq!(all, ["", "a", "aa", "ab", "b", "ba", "bb"]);
    }
}
