//! Document 01's load, which is the repository's example, and small helpers the tests share.

#![allow(dead_code)] // each test file uses a part

pub mod buffers;
pub mod generator;
pub mod naive;

use reference::table::NAMED_WORDS;
use reference::{check, Answer};

pub const INSTANCE: &str = include_str!("../../../examples/one_load/instance.txt");
pub const PLAN: &str = include_str!("../../../examples/one_load/plan.txt");

pub fn answer(instance: &str, plan: &str) -> Answer {
    check(instance.as_bytes(), plan.as_bytes(), &mut vec![7; NAMED_WORDS])
}

pub const fn accepted(cost: u64, trucks: u32) -> Answer {
    Answer {
        number: 0,
        first: 0,
        second: 0,
        third: 0,
        cost,
        trucks,
    }
}

pub const fn refused(number: u32, first: u32, second: u32, third: u32) -> Answer {
    Answer {
        number,
        first,
        second,
        third,
        cost: 0,
        trucks: 0,
    }
}

/// Replaces text that must stand there exactly once.
pub fn edit(text: &str, old: &str, new: &str) -> String {
    assert_eq!(text.matches(old).count(), 1, "{old:?} must stand once");
    text.replace(old, new)
}
