//! Turns generated cases into the stored cases of a program of the repository: its data, and what it must print.

use reference::case_folder::{self, ListedCase};
use reference::sentence::sentence;
use reference::{bad_line, check, text, verdict};
use std::fmt::Write;
use std::path::Path;
use std::process::ExitCode;

const USAGE: &str = "usage: stored CRATE DIR...
  CRATE  the folder whose data/ and stdout are written
  DIR    generated cases (see cases), those of each folder after those of the one before";

/// Words of the table that the program has, of which it lends some. The named ones are 8,976.
const TABLE_WORDS: usize = 8_980;
/// What every word of the table holds before a call.
const BEFORE: u32 = 7;
/// No words, one too few, just enough.
const OTHER_LENGTHS: [usize; 3] = [0, 8_975, 8_976];
/// Cases that are tried with those lengths too: plans that are accepted, that a rule refuses, and files that cannot be read.
const OTHERWISE_LENT: [&str; 7] = [
    "unchanged",
    "empty-both",
    "both-65536-bytes",
    "full",
    "large-one-truck",
    "large-one-truck-rear",
    "overlong-plan",
];
/// Verdicts and lines for which the bad line is asked besides the answer's own: line 0, a line that may be missing, and other numbers.
const ASKED: [(u32, u32); 5] = [(4, 0), (5, 3), (7, 2), (8, 9_999), (6, 1)];

/// The files of all cases, one after the other. A file that one of them begins with is not written again. Parts in the middle of a file
/// are not looked for, which would take long and spare little.
#[derive(Default)]
struct Files {
    bytes: Vec<u8>,
    starts: Vec<usize>,
}

impl Files {
    fn place(&mut self, file: &[u8]) -> usize {
        if file.is_empty() {
            return 0;
        }
        if let Some(&start) = self.starts.iter().find(|&&start| self.bytes[start..].starts_with(file)) {
            return start;
        }
        let start = self.bytes.len();
        self.bytes.extend_from_slice(file);
        self.starts.push(start);
        start
    }
}

#[derive(Default)]
struct Stored {
    files: Files,
    cases: String,
    labels: String,
    printed: String,
}

fn main() -> ExitCode {
    let arguments: Vec<String> = std::env::args().skip(1).collect();
    let [to, _, ..] = &arguments[..] else {
        eprintln!("{USAGE}");
        return ExitCode::FAILURE;
    };
    match store(&arguments[1..], Path::new(to)) {
        Ok(()) => ExitCode::SUCCESS,
        Err(error) => {
            eprintln!("stored: {error}");
            ExitCode::FAILURE
        }
    }
}

fn store(from: &[String], to: &Path) -> std::io::Result<()> {
    let mut stored = Stored::default();
    for folder in from {
        for case in case_folder::read(Path::new(folder))? {
            stored.add_case(&case);
        }
    }
    let data = to.join("data");
    std::fs::create_dir_all(&data)?;
    std::fs::write(data.join("files.bin"), &stored.files.bytes)?;
    std::fs::write(data.join("cases.txt"), &stored.cases)?;
    std::fs::write(data.join("labels.txt"), &stored.labels)?;
    std::fs::write(to.join("stdout"), &stored.printed)
}

impl Stored {
    fn add_case(&mut self, case: &ListedCase) {
        self.add(&case.label, case, TABLE_WORDS);
        if OTHERWISE_LENT.contains(&case.label.as_str()) {
            for words in OTHER_LENGTHS {
                self.add(&format!("{}-table-{words}", case.label), case, words);
            }
        }
    }

    fn add(&mut self, label: &str, case: &ListedCase, words: usize) {
        let (instance, plan) = (&case.instance, &case.plan);
        let (a, b) = (self.files.place(instance), self.files.place(plan));
        let line = format!("case={a},{},{b},{},{words}", instance.len(), plan.len());
        writeln!(self.cases, "{line}").expect("a string takes every line");
        writeln!(self.labels, "{label}").expect("a string takes every line");
        let printed = printed(instance, plan, words);
        writeln!(self.printed, "{printed}").expect("a string takes every line");
    }
}

/// What is printed for one case: the six lines of the answer; its sentence; then one line with a checksum of the whole table and, for the
/// answer's bad line and for each that is asked besides, its file, start and end, and a checksum of its bytes.
fn printed(instance: &[u8], plan: &[u8], words: usize) -> String {
    let mut table = vec![BEFORE; TABLE_WORDS];
    let answer = check(instance, plan, &mut table[..words]);
    let mut lines = format!("{answer}{}\n{}", sentence(&answer), checksum(table.into_iter()));
    for (number, asked) in [(answer.number, answer.first)].into_iter().chain(ASKED) {
        let (file, start, end) = located(instance, plan, number, asked);
        let bytes = bad_line(instance, plan, number, asked).iter();
        let sum = checksum(bytes.map(|&byte| u32::from(byte)));
        write!(lines, "; {file} {start} {end} {sum}").expect("a string takes every line");
    }
    lines
}

fn checksum(words: impl Iterator<Item = u32>) -> u64 {
    words.fold(0, |sum, word| (sum * 31 + u64::from(word)) % 4_294_967_291)
}

/// 0 for the instance and 1 for the plan, and from where to where the bad line stands there.
fn located(instance: &[u8], plan: &[u8], number: u32, line: u32) -> (u32, usize, usize) {
    let (file, bytes) = match number {
        verdict::INSTANCE_FORM | verdict::INSTANCE_RANGE => (0, instance),
        verdict::PLAN_FORM | verdict::PLAN_RANGE => (1, plan),
        _ => return (0, instance.len(), instance.len()),
    };
    match text::nth_line(bytes, line) {
        Some(line) => {
            let start = line.as_ptr() as usize - bytes.as_ptr() as usize;
            (file, start, start + line.len())
        }
        None => (0, instance.len(), instance.len()),
    }
}
