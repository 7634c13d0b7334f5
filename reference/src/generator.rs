//! Cases on the edges of the rules, with the answers of the reference. The same call always gives the same cases.

mod checking;
mod contacts;
mod damage;
mod edges;
mod late;
mod limits;
mod mutate;
mod packed;
mod plant_docks;
mod random;
mod reading;
mod reading_fields;
mod reading_files;
mod reading_lines;
mod reading_numbers;
mod recipe;
mod render;
mod sized;
mod table_edits;
mod tables;

use crate::table::NAMED_WORDS;
use crate::{check, Answer};
use packed::Case;
use random::Random;
pub use tables::ChangedTable;

/// Two files, their answer, and a word on how they were made.
#[derive(Debug, Clone, PartialEq, Eq)]
pub struct Made {
    pub kind: String,
    pub instance: Vec<u8>,
    pub plan: Vec<u8>,
    pub answer: Answer,
}

impl Made {
    fn new(kind: impl Into<String>, instance: Vec<u8>, plan: Vec<u8>) -> Self {
        let answer = check(&instance, &plan, &mut vec![0; NAMED_WORDS]);
        Made {
            kind: kind.into(),
            instance,
            plan,
            answer,
        }
    }

    fn of(kind: impl Into<String>, case: &Case) -> Self {
        Made::new(kind, render::instance(&case.instance), render::plan(&case.plan))
    }
}

/// So many random cases, with `small` of small loads only; the same seed gives the same cases.
pub fn random(count: u64, seed: u64, small: bool) -> impl Iterator<Item = Made> {
    // Each case has its own stream, so it does not depend on those before it.
    (0..count).map(move |index| recipe::make(&mut Random::new(seed, index), small))
}

/// Every bad and edge input of the two files, each a small change of one load; that load comes first.
pub fn reading() -> Vec<Made> {
    reading::all()
}

/// A fixed list of cases through every verdict, from small to full size, some with their stacks in other orders.
pub fn checking() -> Vec<Made> {
    checking::all()
}

/// An accepted load of 1 to 256 stacks, one item each: all on one used truck, or on at least one for every 16 stacks. Each draw is another
/// load of that size.
pub fn sized(stacks: u32, one_truck: bool, draw: u64) -> Made {
    sized::load(stacks, one_truck, draw)
}

/// The load of that size and draw on many used trucks, but with an item number out of range in the last line of its plan.
pub fn unreadable_at_the_end(stacks: u32, draw: u64) -> Made {
    sized::unreadable_at_the_end(stacks, draw)
}

/// A load of that size that is refused with that number at the last place of its rule, which is broken at no other place. 22: the height of
/// the stack with the highest number. 23, 25: the two stacks with the highest numbers, all stacks on one used truck. 28: the last departure
/// of the last used truck. Each draw is a small edit of another accepted load.
pub fn refused_at_the_end(stacks: u32, number: u32, draw: u64) -> Made {
    late::load(stacks, number, draw)
}

/// A filled table with one word changed or two exchanged, in many ways: words of every kind, also behind a count and beyond the named ones.
/// After these come tables with several words changed together, which go with each other. Some of all these are still what a readable pair
/// of files fills.
pub fn changed_tables(table: &[u32]) -> impl Iterator<Item = ChangedTable> + '_ {
    tables::changed(table).chain(table_edits::edited(table))
}
