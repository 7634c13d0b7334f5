//! The answer and the numbers of the refusals.

use std::fmt::{Display, Formatter};

#[derive(Debug, Clone, Copy, PartialEq, Eq)]
pub struct Answer {
    pub number: u32,
    pub first: u32,
    pub second: u32,
    pub third: u32,
    pub cost: u64,
    pub trucks: u32,
}

impl Answer {
    /// The six numbers with a blank between each two.
    pub fn in_one_line(&self) -> String {
        let places = format!("{} {} {}", self.first, self.second, self.third);
        format!("{} {places} {} {}", self.number, self.cost, self.trucks)
    }
}

/// The six lines that a program prints.
impl Display for Answer {
    fn fmt(&self, formatter: &mut Formatter) -> std::fmt::Result {
        writeln!(formatter, "number={}", self.number)?;
        writeln!(formatter, "first={}", self.first)?;
        writeln!(formatter, "second={}", self.second)?;
        writeln!(formatter, "third={}", self.third)?;
        writeln!(formatter, "cost={}", self.cost)?;
        writeln!(formatter, "trucks={}", self.trucks)
    }
}

pub const ACCEPTED: u32 = 0;
pub const SHORT_TABLE: u32 = 1;
pub const OVERLONG_INSTANCE: u32 = 2;
pub const OVERLONG_PLAN: u32 = 3;
pub const INSTANCE_FORM: u32 = 4;
pub const INSTANCE_RANGE: u32 = 5;
pub const CODE_CLASH: u32 = 6;
pub const PLAN_FORM: u32 = 7;
pub const PLAN_RANGE: u32 = 8;
pub const NOT_ONCE: u32 = 9;
pub const PLANT: u32 = 10;
pub const PRODUCT: u32 = 11;
pub const SUPPLIER: u32 = 12;
pub const DAY: u32 = 13;
pub const DOCK: u32 = 14;
pub const MIXED: u32 = 15;
pub const DOCKS: u32 = 16;
pub const SECOND_PAIR: u32 = 17;
pub const TURNED: u32 = 18;
pub const TOP_HEAVY: u32 = 19;
pub const TOO_MANY: u32 = 20;
pub const DENSE: u32 = 21;
pub const OUTSIDE: u32 = 22;
pub const OVERLAP: u32 = 23;
pub const UNBRACED: u32 = 24;
pub const ORDER: u32 = 25;
pub const OVERLOAD: u32 = 26;
pub const MIDDLE: u32 = 27;
pub const REAR: u32 = 28;

/// Refusals of the writer, which no check answers.
pub const SHORT_BUFFER: u32 = 29;
pub const UNFILLED_TABLE: u32 = 30;

#[derive(Debug, Clone, Copy, PartialEq, Eq)]
pub struct Refusal {
    pub number: u32,
    pub places: [u32; 3],
}

/// What a rule says of the whole plan.
pub type Verdict = Result<(), Refusal>;

pub fn refuse(number: u32, places: [u32; 3]) -> Verdict {
    Err(Refusal { number, places })
}

impl Refusal {
    pub fn answer(self) -> Answer {
        let [first, second, third] = self.places;
        Answer {
            number: self.number,
            first,
            second,
            third,
            cost: 0,
            trucks: 0,
        }
    }
}
