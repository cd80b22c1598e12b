//! Slices lent to a call. Each begins or ends where memory does, so that a call that
//! touches a byte past it on that side ends the process; on the other side lie known
//! bytes, so that a test sees one stored to.

use std::ops::Range;
use std::sync::OnceLock;

use crate::pages::Pages;
use crate::random::Random;

/// The edge of memory at which a slice lies.
#[derive(Clone, Copy, PartialEq, Eq, Debug)]
pub enum Edge {
    Start,
    End,
}

/// Both, so that a call lent its slices at each can't touch a byte about them unseen.
pub const EDGES: [Edge; 2] = [Edge::Start, Edge::End];

/// How many known bytes lie on the other side.
const KNOWN: usize = 128;
/// The longest slice lent.
const LONGEST: usize = 1 << 18;

/// Bytes without a pattern, others at each edge.
fn known(edge: Edge) -> &'static [u8] {
    static BYTES: [OnceLock<Vec<u8>>; 2] = [OnceLock::new(), OnceLock::new()];
    BYTES[edge as usize].get_or_init(|| {
        let mut random = Random::new(0xB0A7 + edge as u64);
        (0..LONGEST).map(|_| random.byte()).collect()
    })
}

pub struct Lent {
    pages: Pages,
    lent: Range<usize>,
    known: Range<usize>,
    edge: Edge,
}

impl Lent {
    /// Known bytes to be stored over.
    pub fn new(len: usize, edge: Edge) -> Lent {
        Lent::holding(&known(edge)[..len], edge)
    }

    pub fn holding(bytes: &[u8], edge: Edge) -> Lent {
        let mut lent = Lent::with_room(bytes.len(), edge);
        lent.hold(bytes);
        lent
    }

    /// No bytes, in memory for up to `longest` of them.
    pub fn with_room(longest: usize, edge: Edge) -> Lent {
        let mut lent = Lent { pages: Pages::new(longest + KNOWN), lent: 0..0, known: 0..0, edge };
        lent.hold(&[]);
        lent
    }

    /// These bytes instead, at the same edge of the same memory.
    pub fn hold(&mut self, bytes: &[u8]) {
        let (len, end) = (bytes.len(), self.pages.bytes().len());
        (self.lent, self.known) = match self.edge {
            Edge::Start => (0..len, len..len + KNOWN),
            Edge::End => (end - len..end, end - len - KNOWN..end - len),
        };
        self.pages.bytes_mut()[self.lent.clone()].copy_from_slice(bytes);
        self.pages.bytes_mut()[self.known.clone()].copy_from_slice(&known(self.edge)[..KNOWN]);
    }

    pub fn slice(&self) -> &[u8] {
        &self.pages.bytes()[self.lent.clone()]
    }

    pub fn slice_mut(&mut self) -> &mut [u8] {
        &mut self.pages.bytes_mut()[self.lent.clone()]
    }

    /// Checks the bytes, and the known ones beside them.
    pub fn assert_holds(&self, bytes: &[u8]) {
        assert!(self.pages.bytes()[self.known.clone()] == known(self.edge)[..KNOWN], "bytes beside a slice changed");
        assert!(self.slice() == bytes, "the bytes of a slice are not as they should be");
    }

    /// Of bytes to be stored over: checks that the first ones are these now, and that no
    /// other byte was stored to.
    pub fn assert_filled(&self, bytes: &[u8]) {
        let left = &known(self.edge)[bytes.len()..self.lent.len()];
        assert!(self.slice()[bytes.len()..] == *left, "bytes past the reported length changed");
        self.assert_holds(&[bytes, left].concat());
    }
}

/// Lends the inputs to a call, and sees that they stay as they are.
pub fn lend<const N: usize>(inputs: [&[u8]; N], edge: Edge, call: impl FnOnce([&[u8]; N]) -> u64) -> u64 {
    let lent = inputs.map(|input| Lent::holding(input, edge));
    let answer = call(lent.each_ref().map(Lent::slice));
    for (lent, input) in lent.iter().zip(inputs) {
        lent.assert_holds(input);
    }
    answer
}

#[cfg(test)]
mod tests {
    use super::*;

    #[test]
    fn a_slice_lies_at_its_edge() {
        for len in [0, 1, 3, 3_968, 3_969, 4_096, 70_000] {
            let bytes = vec![7; len];
            let [start, end] = EDGES.map(|edge| Lent::holding(&bytes, edge));
            assert_eq!(start.slice().as_ptr(), start.pages.bytes().as_ptr());
            assert_eq!(end.slice().as_ptr_range().end, end.pages.bytes().as_ptr_range().end);
            start.assert_holds(&bytes);
            end.assert_holds(&bytes);
        }
    }

    #[test]
    fn other_bytes_lie_at_the_same_edge() {
        let mut lent = Lent::with_room(9_000, Edge::End);
        for len in [9_000, 0, 3] {
            let bytes = vec![7; len];
            lent.hold(&bytes);
            assert_eq!(lent.slice().as_ptr_range().end, lent.pages.bytes().as_ptr_range().end);
            lent.assert_holds(&bytes);
        }
    }

    #[test]
    fn filled_bytes_are_compared() {
        let mut lent = Lent::new(4, Edge::Start);
        lent.slice_mut()[..3].copy_from_slice(b"abc");
        lent.assert_filled(b"abc");
    }

    #[test]
    #[should_panic(expected = "past the reported length")]
    fn a_byte_past_the_length_is_seen() {
        let mut lent = Lent::new(4, Edge::Start);
        lent.slice_mut()[3] ^= 1;
        lent.assert_filled(&lent.slice()[..3]);
    }

    #[test]
    #[should_panic(expected = "beside a slice")]
    fn a_byte_beside_a_slice_is_seen() {
        let mut lent = Lent::holding(b"abc", Edge::End);
        let before = lent.lent.start - 1;
        lent.pages.bytes_mut()[before] ^= 1;
        lent.assert_holds(b"abc");
    }

    #[test]
    #[should_panic(expected = "not as they should be")]
    fn a_changed_byte_is_seen() {
        let mut lent = Lent::holding(b"abc", Edge::End);
        lent.slice_mut()[1] = b'x';
        lent.assert_holds(b"abc");
    }
}
