//! Each caller's side is held to the reference checker: the answer, every word of the table and the bad line, on files long and short,
//! valid and damaged, with tables too short, exact and longer.

mod c_programs;
mod responder;

use kaqlluwe::TABLE_WORDS;
use reference::generator::{self, Made};
use responder::{Call, Responder};
use std::collections::BTreeSet;

/// What a call leaves behind: the six numbers, the words of the table, and where the bad line of that answer stands.
struct Outcome {
    answer: [u64; 6],
    table: Vec<u32>,
    bad_line: BadLine,
}

#[derive(Debug, PartialEq)]
struct BadLine {
    in_plan: bool,
    start: usize,
    end: usize,
}

/// Random cases besides the fixed ones.
const RANDOM_CASES: u64 = 2_400;
const SEED: u64 = 20_261_116;
/// Lengths of the table that the cases take in turn.
const LENGTHS: [usize; 7] = [
    TABLE_WORDS,
    TABLE_WORDS + 1,
    0,
    TABLE_WORDS,
    TABLE_WORDS + 1_000,
    TABLE_WORDS - 1,
    TABLE_WORDS,
];

/// What the two calls of a library leave behind. The wrapper and the reference have the same names for them.
macro_rules! outcome_of {
    ($library:ident, $case:expr, $words:expr) => {{
        let Made { instance, plan, .. } = $case;
        let mut table = table_before($words);
        let answer = $library::check(instance, plan, &mut table);
        let places = [answer.first, answer.second, answer.third].map(u64::from);
        let line = $library::bad_line(instance, plan, answer.number, answer.first);
        Outcome {
            answer: [
                answer.number.into(),
                places[0],
                places[1],
                places[2],
                answer.cost,
                answer.trucks.into(),
            ],
            table,
            bad_line: located(instance, plan, line),
        }
    }};
}

/// The words before a call are all different, so that one that is written in another's place shows.
fn table_before(words: usize) -> Vec<u32> {
    (0..words as u32).map(|place| 3_000_000_000 + place).collect()
}

/// Where a returned part stands.
fn located(instance: &[u8], plan: &[u8], part: &[u8]) -> BadLine {
    let in_plan = plan.as_ptr_range().contains(&part.as_ptr());
    let file = if in_plan { plan } else { instance };
    let start = part.as_ptr() as usize - file.as_ptr() as usize;
    BadLine {
        in_plan,
        start,
        end: start + part.len(),
    }
}

fn answered_in_c(responder: &mut Responder, case: &Made, words: usize) -> Outcome {
    responder.send(Call::Check, &case.instance, &case.plan, &table_before(words));
    let answer = responder.numbers();
    let table = responder.words(words);
    let [plan, start, end] = responder.numbers();
    Outcome {
        answer,
        table,
        bad_line: BadLine {
            in_plan: plan == 1,
            start: start as usize,
            end: end as usize,
        },
    }
}

fn all_cases() -> impl Iterator<Item = Made> {
    let fixed = generator::reading().into_iter().chain(generator::checking());
    fixed.chain(generator::random(RANDOM_CASES, SEED, false))
}

/// Every verdict must be among the cases, and there must be some thousand of them.
fn agrees_with_reference(mut call: impl FnMut(&Made, usize) -> Outcome) {
    let mut verdicts = BTreeSet::new();
    let mut count = 0;
    for (case, &words) in all_cases().zip(LENGTHS.iter().cycle()) {
        let expected = outcome_of!(reference, &case, words);
        let found = call(&case, words);
        assert_eq!(found.answer, expected.answer, "{} with {words} words", case.kind);
        assert_eq!(found.bad_line, expected.bad_line, "{} with {words} words", case.kind);
        // There are too many words to print them.
        assert!(found.table == expected.table, "{} with {words} words", case.kind);
        verdicts.insert(expected.answer[0]);
        count += 1;
    }
    assert!(verdicts.into_iter().eq(0..=28));
    assert!(count >= 4_000, "{count}");
}

#[test]
fn rust_is_answered_as_the_reference_answers() {
    agrees_with_reference(|case, words| outcome_of!(kaqlluwe, case, words));
}

#[test]
fn c_is_answered_as_the_reference_answers() {
    let mut responder = Responder::start();
    agrees_with_reference(|case, words| answered_in_c(&mut responder, case, words));
    responder.end();
}
