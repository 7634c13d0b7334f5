//! Tables with one word changed, two exchanged, or several that go with each other. Whether one is written is told a second time here: it is printed without a look at its
//! sense, and the reader has to find the same words again.

mod common;

use common::buffers::{holds, is_refused, written};
use common::naive;
use reference::check;
use reference::generator::{changed_tables, checking, random, reading, ChangedTable, Made};
use reference::table::NAMED_WORDS;
use std::collections::{BTreeMap, BTreeSet};

const BEYOND: usize = 3;

fn filled(made: &Made) -> Option<Vec<u32>> {
    let mut table = vec![9; NAMED_WORDS + BEYOND];
    let number = check(&made.instance, &made.plan, &mut table).number;
    (number == 0 || number > 8).then_some(table)
}

fn named(cases: Vec<Made>, name: &str) -> Vec<u32> {
    let made = cases.into_iter().find(|made| made.kind == name);
    filled(&made.unwrap()).unwrap()
}

/// How many tables were written and refused.
#[derive(Debug, Default, Clone, Copy)]
struct Outcomes {
    written: usize,
    refused: usize,
}

impl Outcomes {
    /// Compares what becomes of the table, and counts it.
    fn add(&mut self, kind: &str, table: &[u32]) {
        if naive::is_filled(table) {
            let (answer, instance, plan) = written(table, 2);
            let files = [naive::instance(table), naive::plan(table)];
            assert_eq!(answer.number, 0, "{kind}");
            assert_eq!(
                [answer.instance_length, answer.plan_length],
                [files[0].len(), files[1].len()],
                "{kind}"
            );
            assert!(holds(&instance, &files[0]) && holds(&plan, &files[1]), "{kind}");
            self.written += 1;
        } else {
            assert!(is_refused(table, 30), "{kind}");
            self.refused += 1;
        }
    }
}

/// The outcomes by the kind of word.
fn compared(table: &[u32], outcomes: &mut BTreeMap<String, Outcomes>) {
    for ChangedTable { kind, words } in changed_tables(table) {
        let word = kind.split(',').next().unwrap().to_string();
        outcomes.entry(word).or_default().add(&kind, &words);
    }
}

#[test]
fn changed_tables_are_written_exactly_when_they_can_be_read_back() {
    let mut outcomes = BTreeMap::new();
    compared(&named(reading(), "unchanged"), &mut outcomes);
    compared(&named(reading(), "full"), &mut outcomes);
    compared(&named(checking(), "large-spread"), &mut outcomes);
    for table in random(40, 31, false).filter_map(|made| filled(&made)).take(8) {
        compared(&table, &mut outcomes);
    }
    let total = |part: fn(&Outcomes) -> usize| outcomes.values().map(part).sum::<usize>();
    let (written, refused) = (total(|kind| kind.written), total(|kind| kind.refused));
    assert!(
        written >= 5_000 && refused >= 10_000,
        "{written} written, {refused} refused"
    );
    for (kind, outcomes) in &outcomes {
        // A count changed alone never fits its entries, and a spare word has to be zero.
        let never_written = matches!(kind.as_str(), "count" | "spare word");
        assert_eq!(outcomes.written >= 80, !never_written, "{kind}: {outcomes:?}");
        assert_eq!(outcomes.refused >= 80, kind != "word beyond", "{kind}: {outcomes:?}");
    }
    assert_eq!(outcomes.len(), 13);
}

#[test]
fn a_change_differs_from_the_table_and_has_a_name_of_its_own() {
    let table = named(reading(), "unchanged");
    let changed: Vec<ChangedTable> = changed_tables(&table).collect();
    let names: BTreeSet<&str> = changed.iter().map(|changed| changed.kind.as_str()).collect();
    assert_eq!(names.len(), changed.len());
    for ChangedTable { kind, words } in &changed {
        assert_eq!(words.len(), table.len(), "{kind}");
        let differing = words.iter().zip(&table).filter(|(one, other)| one != other).count();
        let most = if kind.starts_with("together, ") { words.len() } else { 2 };
        assert!((1..=most).contains(&differing), "{kind}");
    }
    assert!(changed.into_iter().eq(changed_tables(&table)), "always the same");
}

/// Every single word of a small table, which are zero for the most part, one up and at its largest.
#[test]
fn every_word_of_a_small_table() {
    let table = named(reading(), "unchanged");
    let mut outcomes = Outcomes::default();
    for at in 0..table.len() {
        for word in [table[at] + 1, u32::MAX] {
            let mut changed = table.clone();
            changed[at] = word;
            outcomes.add(&format!("word {at} is {word}"), &changed);
        }
    }
    assert_eq!((outcomes.written, outcomes.refused), (113, 17_845));
}
