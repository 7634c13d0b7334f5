//! The generator's cases of reading: always the same files, and each fault has the verdict its name promises.

mod common;

use common::generator::written_as_made;
use reference::generator::reading;
use std::collections::BTreeSet;

const FORM: [u32; 2] = [4, 7];
const RANGE: [u32; 2] = [5, 8];

/// Faults by the end of their names.
const WRONG_FORM: &[&str] = &[
    "-written-two-zeros",
    "-written-zero-one",
    "-written-11-digits",
    "-written-minus",
    "-written-plus",
    "-written-space-before",
    "-written-space-after",
    "-written-letter",
    "-comma-front",
    "-comma-end",
    "-key-letter",
    "-key-upper",
    "-key-number",
    "-equals-missing",
    "-space-before-key",
    "-carriage-return",
    "-byte-0",
    "-byte-255",
    "-two-faults",
    "-form-and-range",
    "-form-range",
    "-empty",
    "-missing",
    "-doubled",
    "-unended",
    "-cut-after",
    "-cut-within",
    "-too-few",
    "-too-many",
    "-more",
    "-one-high",
    "-one-low",
];
const OUT_OF_RANGE: &[&str] = &[
    "-below",
    "-above",
    "-written-32-bits",
    "-written-33-bits",
    "-written-10-digits",
    "-written-wrapped",
    "-repeat-next",
    "-repeat-apart",
    "-range-form",
    "-range-first",
];

#[test]
fn the_files_are_always_the_same() {
    written_as_made("reading", &["--reading"], reading());
}

#[test]
fn the_unchanged_load_is_accepted_and_every_verdict_of_reading_occurs() {
    let cases = reading();
    assert_eq!(cases[0].answer.number, 0);
    assert_eq!(cases[0].kind, "unchanged");
    let verdicts: BTreeSet<u32> = cases.iter().map(|made| made.answer.number).collect();
    for verdict in [0, 2, 3, 4, 5, 6, 7, 8] {
        assert!(verdicts.contains(&verdict), "{verdict}");
    }
    let names: BTreeSet<&str> = cases.iter().map(|made| made.kind.as_str()).collect();
    assert_eq!(names.len(), cases.len(), "each case has a name of its own");
}

#[test]
fn each_fault_has_the_verdict_its_name_promises() {
    let cases = reading();
    for (ends, verdicts) in [(WRONG_FORM, FORM), (OUT_OF_RANGE, RANGE)] {
        for end in ends {
            let mut named = cases.iter().filter(|made| made.kind.ends_with(end)).peekable();
            assert!(named.peek().is_some(), "{end}");
            for made in named {
                assert!(
                    verdicts.contains(&made.answer.number),
                    "{}: {:?}",
                    made.kind,
                    made.answer
                );
            }
        }
    }
}
