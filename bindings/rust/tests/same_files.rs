//! The writer is held to the reference's: its three numbers, every byte of both buffers and every word of the table, for tables that a
//! check has filled, tables with a word changed, and buffers and tables too short, exact and longer. What comes of a stored case is held
//! to the files of that case as well.

mod c_programs;
mod responder;

use kaqlluwe::{FILE_BYTES, TABLE_WORDS};
use reference::generator::{self, ChangedTable, Made};
use responder::{Call, Responder};
use std::collections::BTreeMap;

/// What a call is lent; of the buffers their lengths.
struct Lent {
    kind: String,
    table: Vec<u32>,
    instance: usize,
    plan: usize,
}

/// What it leaves behind.
#[derive(PartialEq)]
struct Outcome {
    numbers: [u64; 3],
    instance: Vec<u8>,
    plan: Vec<u8>,
    table: Vec<u32>,
}

/// Lengths of both buffers that suffice, taken in turn.
const ENOUGH: [(usize, usize); 4] = [
    (FILE_BYTES, FILE_BYTES),
    (FILE_BYTES + 1, FILE_BYTES),
    (FILE_BYTES, FILE_BYTES + 1),
    (FILE_BYTES + 4_000, FILE_BYTES + 300),
];
/// Lengths of either buffer, each with each of the other, and with each length of the table.
const LENGTHS: [usize; 5] = [0, FILE_BYTES - 1, FILE_BYTES, FILE_BYTES + 1, FILE_BYTES + 4_000];
const TABLE_LENGTHS: [usize; 5] = [0, TABLE_WORDS - 1, TABLE_WORDS, TABLE_WORDS + 1, TABLE_WORDS + 1_000];

/// Random cases whose tables are written, besides the stored ones.
const RANDOM_CASES: u64 = 600;
const SEED: u64 = 20_261_117;
/// Stored cases, readable ones, whose tables are changed.
const CHANGED: [&str; 4] = ["unchanged", "full", "large-spread", "range-ends-12"];

/// The pattern has a prime length, so that bytes moved by a round number show, and no byte of a file.
fn buffer_before(length: usize) -> Vec<u8> {
    let pattern: Vec<u8> = (128..255).collect();
    let mut buffer = pattern.repeat(length / pattern.len() + 1);
    buffer.truncate(length);
    buffer
}

/// The two calls have the same form.
macro_rules! outcome_of {
    ($write:path, $lent:expr) => {{
        let Lent {
            table, instance, plan, ..
        } = $lent;
        let (mut instance, mut plan) = (buffer_before(*instance), buffer_before(*plan));
        let written = $write(table, &mut instance, &mut plan);
        Outcome {
            numbers: [
                written.number.into(),
                written.instance_length as u64,
                written.plan_length as u64,
            ],
            instance,
            plan,
            table: table.clone(),
        }
    }};
}

fn written_in_c(responder: &mut Responder, lent: &Lent) -> Outcome {
    let (instance, plan) = (buffer_before(lent.instance), buffer_before(lent.plan));
    responder.send(Call::Write, &instance, &plan, &lent.table);
    Outcome {
        numbers: responder.numbers(),
        instance: responder.bytes(lent.instance),
        plan: responder.bytes(lent.plan),
        table: responder.words(lent.table.len()),
    }
}

/// What the reference's check leaves of a table of that length.
fn table_of(case: &Made, words: usize) -> Vec<u32> {
    let mut table: Vec<u32> = (0..words as u32).map(|place| 3_000_000_000 + place).collect();
    reference::check(&case.instance, &case.plan, &mut table);
    table
}

/// The stored cases are the generator's; a test of the reference holds them to it.
fn stored_cases() -> Vec<Made> {
    generator::reading().into_iter().chain(generator::checking()).collect()
}

fn named<'a>(cases: &'a [Made], name: &str) -> &'a Made {
    cases.iter().find(|case| case.kind == name).unwrap()
}

/// The table that each case fills, with lengths that suffice.
fn filled_tables(cases: &[Made]) -> impl Iterator<Item = (&Made, Lent)> {
    let lengths = ENOUGH.into_iter().cycle().zip([0, 1, 1_000].into_iter().cycle());
    cases.iter().zip(lengths).map(|(case, ((instance, plan), beyond))| {
        let lent = Lent {
            kind: case.kind.clone(),
            table: table_of(case, TABLE_WORDS + beyond),
            instance,
            plan,
        };
        (case, lent)
    })
}

fn is_readable(case: &Made) -> bool {
    case.answer.number == 0 || case.answer.number > 8
}

fn changed_tables(stored: &[Made]) -> impl Iterator<Item = Lent> + '_ {
    let tables = CHANGED.iter().flat_map(|name| {
        let case = named(stored, name);
        assert!(is_readable(case), "{name}");
        let table = table_of(case, TABLE_WORDS + 2);
        generator::changed_tables(&table).collect::<Vec<ChangedTable>>()
    });
    tables
        .zip(ENOUGH.into_iter().cycle())
        .map(|(changed, (instance, plan))| Lent {
            kind: changed.kind,
            table: changed.words,
            instance,
            plan,
        })
}

/// Every length with every other, of tables that are filled, that no files fill, and that an unreadable pair leaves.
fn all_lengths(stored: &[Made]) -> Vec<Lent> {
    let mut all = Vec::new();
    for name in ["unchanged", "full", "empty-both"] {
        for spare_word in [0, 1] {
            let mut table = table_of(named(stored, name), TABLE_WORDS + 1_000);
            table[6] = spare_word;
            add_lengths(&mut all, name, &table);
        }
    }
    all
}

fn add_lengths(all: &mut Vec<Lent>, kind: &str, table: &[u32]) {
    for words in TABLE_LENGTHS {
        for instance in LENGTHS {
            all.extend(LENGTHS.map(|plan| Lent {
                kind: format!("{kind} with {words} words"),
                table: table[..words].to_vec(),
                instance,
                plan,
            }));
        }
    }
}

/// The outcome, which is the reference's.
fn same_as_reference(lent: &Lent, call: impl FnOnce(&Lent) -> Outcome) -> Outcome {
    let expected = outcome_of!(reference::writer::write, lent);
    let found = call(lent);
    let told = format!("{}, buffers of {} and {}", lent.kind, lent.instance, lent.plan);
    assert_eq!(found.numbers, expected.numbers, "{told}");
    // There are too many bytes to print them.
    assert!(found == expected, "{told}");
    found
}

/// The buffers hold these files, and behind them what they held before.
fn holds_files(outcome: &Outcome, case: &Made) {
    for (buffer, file, length) in [
        (&outcome.instance, &case.instance, outcome.numbers[1]),
        (&outcome.plan, &case.plan, outcome.numbers[2]),
    ] {
        assert_eq!(length, file.len() as u64, "{}", case.kind);
        let mut expected = buffer_before(buffer.len());
        expected[..file.len()].copy_from_slice(file);
        assert!(*buffer == expected, "{}", case.kind);
    }
}

/// How many calls of each kind were answered with each number.
type Tally = BTreeMap<(&'static str, u64), usize>;

fn agrees_with_reference(mut call: impl FnMut(&Lent) -> Outcome) -> Tally {
    let mut tally = Tally::new();
    let mut count = |kind, outcome: &Outcome| *tally.entry((kind, outcome.numbers[0])).or_default() += 1;
    let stored = stored_cases();
    let random: Vec<Made> = generator::random(RANDOM_CASES, SEED, false).collect();
    for (case, lent) in filled_tables(&stored).chain(filled_tables(&random)) {
        let outcome = same_as_reference(&lent, &mut call);
        if is_readable(case) {
            assert_eq!(outcome.numbers[0], 0, "{}", case.kind);
            holds_files(&outcome, case);
        } else {
            assert_eq!(outcome.numbers[0], 30, "{}", case.kind);
        }
        count("filled", &outcome);
    }
    for lent in changed_tables(&stored) {
        count("changed", &same_as_reference(&lent, &mut call));
    }
    for lent in all_lengths(&stored) {
        count("lengths", &same_as_reference(&lent, &mut call));
    }
    tally
}

/// There have to be many of every kind.
fn agrees_often(call: impl FnMut(&Lent) -> Outcome) {
    let tally = agrees_with_reference(call);
    for (kind, number, least) in [
        ("filled", 0, 1_100),
        ("filled", 30, 900),
        ("changed", 0, 1_700),
        ("changed", 30, 3_500),
        ("lengths", 0, 54),
        ("lengths", 29, 480),
        ("lengths", 30, 216),
    ] {
        let count = tally.get(&(kind, number)).copied().unwrap_or(0);
        assert!(count >= least, "{kind}, {number}: {tally:?}");
    }
}

#[test]
fn rust_is_given_the_files_that_the_reference_gives() {
    agrees_often(|lent| outcome_of!(kaqlluwe::write_files, lent));
}

#[test]
fn c_is_given_the_files_that_the_reference_gives() {
    let mut responder = Responder::start();
    agrees_often(|lent| written_in_c(&mut responder, lent));
    responder.end();
}
