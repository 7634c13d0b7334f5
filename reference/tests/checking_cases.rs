//! The generator's cases of the whole check: always the same files, each case has the verdict its name promises, and the order of the
//! stacks changes no answer.

mod common;

use common::generator::{order_group, written_as_made};
use reference::generator::{checking, Made};
use std::collections::{BTreeMap, BTreeSet};

#[test]
fn the_files_are_always_the_same() {
    written_as_made("check", &["--check"], checking());
}

#[test]
fn there_are_cases_for_each_verdict_and_each_has_a_name_of_its_own() {
    let cases = checking();
    assert!(cases.len() >= 450, "{}", cases.len());
    let names: BTreeSet<&str> = cases.iter().map(|made| made.kind.as_str()).collect();
    assert_eq!(names.len(), cases.len());
    for verdict in (0..=28).filter(|&verdict| verdict != 1) {
        let least = if matches!(verdict, 2 | 3) { 1 } else { 10 };
        let count = cases.iter().filter(|made| made.answer.number == verdict).count();
        assert!(count >= least, "verdict {verdict}: {count} cases");
    }
}

#[test]
fn each_aimed_case_has_its_verdict() {
    let mut aimed: BTreeMap<u32, usize> = BTreeMap::new();
    for made in checking() {
        let Some(rest) = made.kind.strip_prefix("aimed-") else {
            continue;
        };
        let number = made.answer.number;
        assert!(rest.starts_with(&format!("{number}-")), "{}: {number}", made.kind);
        *aimed.entry(number).or_default() += 1;
    }
    // All but 1 to 3.
    assert_eq!(aimed.len(), 26);
    assert!(aimed.values().all(|&count| count >= 10), "{aimed:?}");
}

#[test]
fn some_plans_have_full_size() {
    let mut full = checking();
    full.retain(|made| made.plan.starts_with(b"stacks=256\n"));
    let accepted = |made: &Made| made.answer.number == 0;
    assert!(full.iter().any(|made| accepted(made) && made.answer.trucks == 1));
    assert!(full.iter().any(|made| accepted(made) && made.answer.trucks >= 16));
    assert!(full.iter().any(|made| made.answer.number == 28));
}

#[test]
fn other_orders_of_the_stacks_have_the_same_answer() {
    let cases = checking();
    let mut groups = 0;
    let mut verdicts = BTreeSet::new();
    for made in &cases {
        let name = made.kind.as_str();
        let orders: Vec<&Made> = cases
            .iter()
            .filter(|other| order_group(&other.kind) == Some(name))
            .collect();
        let mut plans = BTreeSet::from([&made.plan]);
        for other in &orders {
            assert_eq!(made.answer, other.answer, "{name}");
            assert!(made.instance == other.instance, "{name}");
            assert_eq!(stacks_sorted(&made.plan), stacks_sorted(&other.plan), "{name}");
            assert!(plans.insert(&other.plan), "{name}: the same order twice");
        }
        if !orders.is_empty() {
            groups += 1;
            verdicts.insert(made.answer.number);
        }
    }
    assert!(groups >= 20, "{groups}");
    assert_eq!(verdicts.len(), 21, "0 and 9 to 28");
}

/// The count of stacks and then each stack with its load, by the bytes of their lines.
fn stacks_sorted(plan: &[u8]) -> Vec<String> {
    let plan = String::from_utf8_lossy(plan);
    let lines: Vec<&str> = plan.lines().collect();
    let mut stacks: Vec<String> = lines[1..].chunks(2).map(|pair| pair.join("\n")).collect();
    stacks.sort();
    stacks.push(lines[0].to_string());
    stacks
}
