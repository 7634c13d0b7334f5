//! A program is compared by what it prints for each case, in a working folder that is gone afterwards.

mod common;

use common::generator::{generate, listed};
use std::os::unix::fs::PermissionsExt;
use std::path::{Path, PathBuf};
use std::process::{Command, Output};

/// Runs the comparison with a temporary folder of its own, which has to be empty in the end.
fn compare(name: &str, cases: &Path, program: &Path) -> Output {
    let temporary = fresh_folder(&format!("{name}-temporary"));
    let run = Command::new(env!("CARGO_BIN_EXE_compare_program"))
        .args([cases, program])
        .env("TMPDIR", &temporary)
        .output()
        .unwrap();
    assert_eq!(std::fs::read_dir(temporary).unwrap().count(), 0);
    run
}

fn fresh_folder(name: &str) -> PathBuf {
    let folder = Path::new(env!("CARGO_TARGET_TMPDIR")).join(name);
    let _ = std::fs::remove_dir_all(&folder);
    std::fs::create_dir_all(&folder).unwrap();
    folder
}

/// A program that prints the same whatever the files say, and ends with this status.
fn program_printing(name: &str, lines: &str, status: u8) -> PathBuf {
    let path = fresh_folder(name).join("program");
    std::fs::write(&path, format!("#!/bin/sh\ncat <<'end'\n{lines}end\nexit {status}\n")).unwrap();
    std::fs::set_permissions(&path, PermissionsExt::from_mode(0o755)).unwrap();
    path
}

/// The six lines of the answer of a listed case.
fn lines_of(words: &[String]) -> String {
    let names = ["number", "first", "second", "third", "cost", "trucks"];
    let numbers = names.iter().zip(&words[1..7]);
    numbers.map(|(name, number)| format!("{name}={number}\n")).collect()
}

#[test]
fn the_reference_agrees_with_itself() {
    let cases = generate("program-reading", &["--reading"]);
    let run = compare("program-reference", &cases, Path::new(env!("CARGO_BIN_EXE_reference")));
    assert_eq!(run.status.code(), Some(0));
    let printed = String::from_utf8_lossy(&run.stdout).into_owned();
    let last = format!("{} cases agree, 0 differ\n", listed(&cases).len());
    assert!(printed.ends_with(&last), "{printed}");
    assert!(!printed.contains("differs"), "{printed}");
}

#[test]
fn a_program_that_always_accepts_differs() {
    let cases = generate("program-small", &["60", "7", "--small"]);
    let list = listed(&cases);
    // The answer of an accepted case, so that this case alone agrees, and others with that answer if there are any.
    let accepted = list.iter().find(|words| words[1] == "0").unwrap();
    let agree = list.iter().filter(|words| words[1..7] == accepted[1..7]).count();
    let run = compare(
        "program-accepts",
        &cases,
        &program_printing("program-accepting", &lines_of(accepted), 0),
    );
    assert_eq!(run.status.code(), Some(1));
    let printed = String::from_utf8_lossy(&run.stdout).into_owned();
    let last = format!("{agree} cases agree, {} differ\n", list.len() - agree);
    assert!(printed.ends_with(&last), "{printed}");
    let refused = list.iter().find(|words| words[1] != "0").unwrap();
    assert!(
        printed.contains(&format!("differs: {} {}", refused[0], refused[7])),
        "{printed}"
    );
}

#[test]
fn a_byte_too_many_and_a_failing_end_differ() {
    let cases = generate("program-one", &["1", "7", "--small"]);
    let answer = lines_of(&listed(&cases)[0]);
    for (more, status, code) in [("", 0, 0), ("\n", 0, 1), ("", 3, 1)] {
        let program = program_printing("program-one-printing", &format!("{answer}{more}"), status);
        assert_eq!(compare("program-one-run", &cases, &program).status.code(), Some(code));
    }
}
