//! The faults of one table line or of one policy. The paper gives each its smallest
//! number, so all faults are gathered before one is named.

/// A set of refusal numbers.
#[derive(Clone, Copy, Default)]
pub struct Faults(u64);

impl Faults {
    pub fn add(&mut self, number: u8) {
        self.0 |= 1 << number;
    }

    pub fn add_if(&mut self, at_fault: bool, number: u8) {
        if at_fault {
            self.add(number);
        }
    }

    /// Nothing where there is no fault, else the smallest number.
    pub fn verdict(self) -> Result<(), u8> {
        match self.0 {
            0 => Ok(()),
            faults => Err(faults.trailing_zeros() as u8),
        }
    }
}

#[cfg(test)]
mod tests {
    use super::*;

    #[test]
    fn the_smallest_number_counts() {
        let mut faults = Faults::default();
        assert_eq!(faults.verdict(), Ok(()));
        faults.add(8);
        faults.add(6);
        faults.add_if(false, 5);
        assert_eq!(faults.verdict(), Err(6));
    }
}
