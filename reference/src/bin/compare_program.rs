//! Compares a program with the reference by running it: it reads `instance.txt` and `plan.txt` from its working folder and has to print
//! the six lines of the reference's answer, byte for byte.

use reference::case_folder::{self, ListedCase};
use reference::table::NAMED_WORDS;
use reference::tally::Tally;
use reference::{check, Answer};
use std::io::{ErrorKind, Result};
use std::path::{Path, PathBuf};
use std::process::{Command, ExitCode, Output, Stdio};

const USAGE: &str = "usage: compare_program DIR PROGRAM
  DIR      generated cases (see cases)
  PROGRAM  a program that checks instance.txt and plan.txt of its working folder and prints its answer";

/// So many of the differing cases are told.
const MOST_TOLD: usize = 10;

fn main() -> ExitCode {
    let arguments: Vec<String> = std::env::args().skip(1).collect();
    let [folder, program] = &arguments[..] else {
        eprintln!("{USAGE}");
        return ExitCode::FAILURE;
    };
    match compare(Path::new(folder), Path::new(program)) {
        Ok(tally) => {
            print!("{tally}");
            ExitCode::from(u8::from(tally.differing() > 0))
        }
        Err(error) => {
            eprintln!("compare_program: {error}");
            ExitCode::FAILURE
        }
    }
}

fn compare(folder: &Path, program: &Path) -> Result<Tally> {
    let cases = case_folder::read(folder)?;
    let runner = Runner::new(program)?;
    let mut tally = Tally::default();
    for case in &cases {
        let answer = check(&case.instance, &case.plan, &mut vec![0; NAMED_WORDS]);
        let differing = runner.differing_run(case, answer)?;
        tally.count(answer.number, differing.is_none());
        if let Some(run) = differing.filter(|_| tally.differing() <= MOST_TOLD) {
            tell(case, answer, &run);
        }
    }
    Ok(tally)
}

fn tell(case: &ListedCase, answer: Answer, run: &Output) {
    println!("differs: {} {}", case.name, case.label);
    println!("  the reference says {}", answer.in_one_line());
    let printed = String::from_utf8_lossy(&run.stdout);
    println!("  the program ({}) says {:?}", run.status, printed);
}

/// The program and a working folder for it, which goes when the runner goes.
struct Runner {
    program: PathBuf,
    folder: PathBuf,
}

impl Drop for Runner {
    fn drop(&mut self) {
        // What cannot be removed is left to the system, which owns the folder above.
        let _ = std::fs::remove_dir_all(&self.folder);
    }
}

impl Runner {
    fn new(program: &Path) -> Result<Self> {
        // It is started from another folder, so its path must not depend on this one.
        let program = program.canonicalize()?;
        let folder = std::env::temp_dir().join(format!("compare_program-{}", std::process::id()));
        std::fs::create_dir_all(&folder)?;
        Ok(Runner { program, folder })
    }

    /// A run that did not print the answer. An absent file reads as empty, so a case with an empty file is run without it too.
    fn differing_run(&self, case: &ListedCase, answer: Answer) -> Result<Option<Output>> {
        let some_empty = case.instance.is_empty() || case.plan.is_empty();
        let ways: &[bool] = if some_empty { &[true, false] } else { &[true] };
        for &keep_empty in ways {
            self.place("instance.txt", &case.instance, keep_empty)?;
            self.place("plan.txt", &case.plan, keep_empty)?;
            let run = self.run()?;
            if !run.status.success() || run.stdout != answer.to_string().as_bytes() {
                return Ok(Some(run));
            }
        }
        Ok(None)
    }

    fn place(&self, name: &str, file: &[u8], keep_empty: bool) -> Result<()> {
        let path = self.folder.join(name);
        if keep_empty || !file.is_empty() {
            return std::fs::write(path, file);
        }
        match std::fs::remove_file(path) {
            Err(error) if error.kind() != ErrorKind::NotFound => Err(error),
            _ => Ok(()),
        }
    }

    fn run(&self) -> Result<Output> {
        Command::new(&self.program)
            .current_dir(&self.folder)
            .stdin(Stdio::null())
            .output()
    }
}
