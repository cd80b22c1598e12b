//! Counts of the answers in a test, so that the test fails where its inputs no longer
//! reach what they were made for.

use crate::word;

pub struct Tally([usize; 64]);

impl Default for Tally {
    fn default() -> Tally {
        Tally([0; 64])
    }
}

impl Tally {
    pub fn count(&mut self, answer: u64) {
        self.0[usize::from(word::refusal_number(answer))] += 1;
    }

    /// How often a refusal number was given, or 0 for what was accepted.
    pub fn of(&self, number: u8) -> usize {
        self.0[usize::from(number)]
    }

    /// Each number with how often it was given at least.
    pub fn assert_at_least(&self, minima: &[(u8, usize)]) {
        for (number, minimum) in minima {
            assert!(self.of(*number) >= *minimum, "{number} came too rarely, not {minimum} times: {:?}", self.counts());
        }
    }

    /// The numbers that were given, 0 for what was accepted among them.
    pub fn numbers(&self) -> Vec<u8> {
        (0..64).filter(|number| self.of(*number) > 0).collect()
    }

    fn counts(&self) -> Vec<(usize, usize)> {
        self.0.iter().copied().enumerate().filter(|(_, count)| *count > 0).collect()
    }
}
