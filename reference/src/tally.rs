//! How many compared cases agree with the reference, for each verdict, and how many differ.

use std::collections::BTreeMap;
use std::fmt::{Display, Formatter};

#[derive(Default)]
pub struct Tally {
    agree: BTreeMap<u32, usize>,
    differ: usize,
}

impl Tally {
    /// Counts a case by the verdict of the reference.
    pub fn count(&mut self, number: u32, agrees: bool) {
        if agrees {
            *self.agree.entry(number).or_default() += 1;
        } else {
            self.differ += 1;
        }
    }

    pub fn differing(&self) -> usize {
        self.differ
    }
}

impl Display for Tally {
    fn fmt(&self, formatter: &mut Formatter) -> std::fmt::Result {
        writeln!(formatter, "verdict  agree")?;
        for (number, count) in &self.agree {
            writeln!(formatter, "{number:7} {count:6}")?;
        }
        let agree: usize = self.agree.values().sum();
        writeln!(formatter, "{agree} cases agree, {} differ", self.differ)
    }
}
