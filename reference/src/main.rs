//! Checks `plan.txt` against `instance.txt` and prints the answer. Both stand in the folder that is given, or else in the working folder.

use std::io::ErrorKind;
use std::path::{Path, PathBuf};
use std::process::ExitCode;

fn main() -> ExitCode {
    let folder = std::env::args_os().nth(1).map_or_else(PathBuf::new, PathBuf::from);
    let files = read_or_empty(&folder.join("instance.txt"))
        .and_then(|instance| Ok((instance, read_or_empty(&folder.join("plan.txt"))?)));
    match files {
        Ok((instance, plan)) => {
            print_answer(&instance, &plan);
            ExitCode::SUCCESS
        }
        Err(error) => {
            eprintln!("reference: {error}");
            ExitCode::FAILURE
        }
    }
}

/// An absent file reads as empty; any other trouble is reported.
fn read_or_empty(path: &Path) -> std::io::Result<Vec<u8>> {
    match std::fs::read(path) {
        Err(error) if error.kind() == ErrorKind::NotFound => Ok(Vec::new()),
        other => other,
    }
}

fn print_answer(instance: &[u8], plan: &[u8]) {
    let mut table = vec![0; reference::table::NAMED_WORDS];
    print!("{}", reference::check(instance, plan, &mut table));
}
