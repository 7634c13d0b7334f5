//! The stored cases of the repository are the generator's, with the reference's answers.

mod common;

use common::generator::{generate, order_group, same_files};
use common::refused;
use reference::generator::checking;
use std::collections::{BTreeMap, BTreeSet};
use std::path::{Path, PathBuf};
use std::process::Command;

fn kept() -> PathBuf {
    Path::new(env!("CARGO_MANIFEST_DIR")).join("../crates/stored_cases")
}

fn lines_of(path: &Path) -> Vec<String> {
    let text = std::fs::read_to_string(path).unwrap();
    text.lines().map(str::to_string).collect()
}

/// Lines that are printed for each case: the six of its answer, its sentence, and one of checksums and handed-back lines.
const PRINTED: usize = 8;

/// The label of each stored case, and the six lines of its answer.
fn stored_answers() -> Vec<(String, Vec<String>)> {
    let labels = lines_of(&kept().join("data/labels.txt"));
    let printed = lines_of(&kept().join("stdout"));
    assert_eq!(PRINTED * labels.len(), printed.len());
    let answers = printed.chunks(PRINTED).map(|lines| lines[..6].to_vec());
    labels.into_iter().zip(answers).collect()
}

#[test]
fn the_stored_cases_are_those_of_the_generator() {
    let reading = generate("stored-reading", &["--reading"]);
    let check = generate("stored-check", &["--check"]);
    let made = Path::new(env!("CARGO_TARGET_TMPDIR")).join("stored-crate");
    let _ = std::fs::remove_dir_all(&made);
    let run = Command::new(env!("CARGO_BIN_EXE_stored"))
        .args([&made, &reading, &check])
        .output()
        .unwrap();
    assert!(run.status.success(), "{}", String::from_utf8_lossy(&run.stderr));
    same_files(&made.join("data"), &kept().join("data"));
    let printed = |folder: &Path| std::fs::read(folder.join("stdout")).unwrap();
    assert!(printed(&made) == printed(&kept()), "crates/stored_cases/stdout");
}

#[test]
fn the_program_is_run_on_the_shipped_example() {
    let root = Path::new(env!("CARGO_MANIFEST_DIR")).join("..");
    same_files(&root.join("crates/loadcheck/data"), &root.join("examples/one_load"));
}

#[test]
fn every_verdict_is_stored_and_many_cases_are_of_the_whole_check() {
    let stored = stored_answers();
    let verdicts: BTreeSet<&str> = stored.iter().map(|(_, answer)| answer[0].as_str()).collect();
    for verdict in 0..=28 {
        assert!(verdicts.contains(format!("number={verdict}").as_str()), "{verdict}");
    }
    let labels: BTreeSet<&str> = stored.iter().map(|(label, _)| label.as_str()).collect();
    assert_eq!(labels.len(), stored.len(), "each case has a name of its own");
    let check = checking();
    let count = check.iter().filter(|made| labels.contains(made.kind.as_str())).count();
    assert!(count >= 400, "{count}");
}

#[test]
fn stored_plans_have_the_same_answer_in_every_order() {
    let stored: BTreeMap<String, Vec<String>> = stored_answers().into_iter().collect();
    let orders: Vec<&String> = stored.keys().filter(|label| order_group(label).is_some()).collect();
    assert!(orders.len() >= 40, "{}", orders.len());
    for label in orders {
        let first = order_group(label).unwrap();
        assert_eq!(stored[label], stored[first], "{label}");
    }
}

#[test]
fn a_table_is_short_below_the_named_words() {
    let stored: BTreeMap<String, Vec<String>> = stored_answers().into_iter().collect();
    let mut lent = 0;
    for (label, answer) in &stored {
        let Some((whole, words)) = label.rsplit_once("-table-") else {
            continue;
        };
        if words == "8976" {
            assert_eq!(answer, &stored[whole], "{label}");
        } else {
            assert_eq!(answer.join("\n") + "\n", refused(1, 0, 0, 0).to_string(), "{label}");
        }
        lent += 1;
    }
    // Seven cases, each with three lengths.
    assert_eq!(lent, 21);
}
