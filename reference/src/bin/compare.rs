//! Compares the definitions of `crates/meaning` with the reference, by computation in the proof kernel: for each case a
//! theorem that the definition computes to the reference's result, proved by reflexivity in a crate of its own in the folder for temporary files.
//!
//! Compared are the answer of every case, the part that is handed back for every unreadable file, and the whole table
//! afterwards for the first cases. A short table and files of the most bytes and one more are added to the cases.

use reference::table::NAMED_WORDS;
use reference::tally::Tally;
use reference::{bad_line, case_folder, check, Answer, MOST_BYTES};
use std::collections::BTreeSet;
use std::fmt::Write;
use std::path::{Path, PathBuf};
use std::process::{Command, ExitCode};

const USAGE: &str = "usage: compare DIR [--tables COUNT]
  DIR            cases as `cases` writes them
  --tables COUNT compare the whole table too, for the first COUNT cases (default 20)
Run it in the repository's folder.";

/// Theorems to a module: the kernel takes a module at a time.
const PER_MODULE: usize = 50;

/// Runs of one byte from here on are told by their length.
const LONG_RUN: usize = 64;

/// What the table holds before the check, so that an untouched word shows.
const BEFORE: u32 = 7;

const HEAD: &str = "use Rattle.std.proofs.Common.{◌≡◌, refl, ℕ, List, [], ◌∷◌, ◌++◌}
use Rattle.std.specs.Prelude.{replicate}
use Rattle.meaning.specs.Limits.{small}
use Rattle.meaning.specs.Text.{bytes}
use Rattle.meaning.specs.Check.{answer, table_after}
use Rattle.meaning.specs.BadLine.{handed_back, part_bytes}
";

struct Order {
    folder: PathBuf,
    tables: usize,
}

struct Case {
    name: String,
    instance: Vec<u8>,
    plan: Vec<u8>,
    answer: Answer,
    table: Vec<u32>,
}

impl Case {
    fn new(name: &str, instance: Vec<u8>, plan: Vec<u8>, words: usize) -> Self {
        let mut table = vec![BEFORE; words];
        let answer = check(&instance, &plan, &mut table);
        Case {
            name: name.to_string(),
            instance,
            plan,
            answer,
            table,
        }
    }
}

fn main() -> ExitCode {
    let arguments: Vec<String> = std::env::args().skip(1).collect();
    let Some(order) = parse(&arguments) else {
        eprintln!("{USAGE}");
        return ExitCode::FAILURE;
    };
    match compare(&order) {
        Ok(true) => ExitCode::SUCCESS,
        Ok(false) => ExitCode::FAILURE,
        Err(error) => {
            eprintln!("compare: {error}");
            ExitCode::FAILURE
        }
    }
}

fn parse(arguments: &[String]) -> Option<Order> {
    let mut order = Order {
        folder: PathBuf::from(arguments.first()?),
        tables: 20,
    };
    for option in arguments[1..].chunks(2) {
        let count = option.get(1)?.parse().ok()?;
        match option[0].as_str() {
            "--tables" => order.tables = count,
            _ => return None,
        }
    }
    Some(order)
}

/// True where every case agrees.
fn compare(order: &Order) -> Result<bool, String> {
    let cases = read_cases(order)?;
    let scratch = std::env::temp_dir().join(format!("kaqlluwe-compare-{}", std::process::id()));
    copy_definitions(&scratch)?;
    let mut differing = BTreeSet::new();
    // A case agrees only where a run with its theorems was proved, so those that fail are left out and the rest runs again.
    loop {
        let left: Vec<usize> = (0..cases.len()).filter(|index| !differing.contains(index)).collect();
        write_theorems(&scratch, &cases, &left, order)?;
        let (proved, said) = prove(&scratch)?;
        if proved {
            break;
        }
        let failed = failed_cases(&said);
        if failed.is_empty() {
            return Err(format!("the kernel could not tell:\n{said}"));
        }
        for &index in &failed {
            println!(
                "differs: {} (the reference says {:?})",
                cases[index].name, cases[index].answer
            );
        }
        differing.extend(failed);
    }
    // Kept where the kernel could not tell, so that its crates can be read.
    let _ = std::fs::remove_dir_all(&scratch);
    let mut tally = Tally::default();
    for (index, case) in cases.iter().enumerate() {
        tally.count(case.answer.number, !differing.contains(&index));
    }
    print!("{tally}");
    Ok(differing.is_empty())
}

fn read_cases(order: &Order) -> Result<Vec<Case>, String> {
    let listed = case_folder::read(&order.folder).map_err(|error| error.to_string())?;
    let mut cases: Vec<Case> = listed
        .into_iter()
        .map(|case| Case::new(&case.name, case.instance, case.plan, NAMED_WORDS))
        .collect();
    let extremes = cases.first().map(extremes).unwrap_or_default();
    cases.extend(extremes);
    Ok(cases)
}

/// A short table, and files at the most bytes that are read and one beyond, from the files of one case.
fn extremes(case: &Case) -> Vec<Case> {
    let stretched = |file: &[u8], length: usize| {
        let mut longer = file.to_vec();
        longer.resize(length, b'9');
        longer
    };
    let (instance, plan) = (&case.instance, &case.plan);
    let long = stretched(plan, MOST_BYTES);
    let overlong = stretched(plan, MOST_BYTES + 1);
    vec![
        Case::new("short-table", instance.clone(), plan.clone(), NAMED_WORDS - 1),
        Case::new(
            "longest-instance",
            stretched(instance, MOST_BYTES),
            plan.clone(),
            NAMED_WORDS,
        ),
        Case::new(
            "overlong-instance",
            stretched(instance, MOST_BYTES + 1),
            overlong.clone(),
            NAMED_WORDS,
        ),
        Case::new("longest-plan", instance.clone(), long, NAMED_WORDS),
        Case::new("overlong-plan", instance.clone(), overlong, NAMED_WORDS),
    ]
}

/// The definitions alone, without their proofs: a change of a definition can be tried before the proofs follow.
fn copy_definitions(scratch: &Path) -> Result<(), String> {
    let told = |error: std::io::Error| error.to_string();
    let _ = std::fs::remove_dir_all(scratch.join("crates"));
    for part in ["src", "specs"] {
        let from = Path::new("crates/meaning").join(part);
        let to = scratch.join("crates/meaning").join(part);
        std::fs::create_dir_all(&to).map_err(told)?;
        let folder = std::fs::read_dir(&from).map_err(|error| format!("{}: {error}", from.display()))?;
        for entry in folder {
            let entry = entry.map_err(told)?;
            std::fs::copy(entry.path(), to.join(entry.file_name())).map_err(told)?;
        }
    }
    std::fs::write(scratch.join("crates.txt"), "meaning:\ncases: meaning\n").map_err(told)
}

fn write_theorems(scratch: &Path, cases: &[Case], left: &[usize], order: &Order) -> Result<(), String> {
    let told = |error: std::io::Error| error.to_string();
    let home = scratch.join("crates/cases");
    let _ = std::fs::remove_dir_all(&home);
    std::fs::create_dir_all(home.join("src")).map_err(told)?;
    std::fs::create_dir_all(home.join("specs")).map_err(told)?;
    std::fs::write(home.join("src/lib.rt"), "#![tactic(auto)]\n\n#[derive(Clone, Copy)]\npub struct Nothing {\n    pub none: u32,\n}\n").map_err(told)?;
    let mut modules = String::new();
    for (number, part) in left.chunks(PER_MODULE).enumerate() {
        writeln!(modules, "pub mod Cases{number}").expect("a string takes every line");
        let theorems: String = part
            .iter()
            .map(|&index| theorems_of(index, &cases[index], order))
            .collect();
        std::fs::write(
            home.join(format!("specs/Cases{number}.antt")),
            format!("{HEAD}{theorems}"),
        )
        .map_err(told)?;
    }
    std::fs::write(home.join("specs/Lib.antt"), modules).map_err(told)
}

fn theorems_of(index: usize, case: &Case, order: &Order) -> String {
    let mut text = answer_theorem(index, case);
    if matches!(case.answer.number, 4 | 5 | 7 | 8) {
        text += &line_theorem(index, case);
    }
    if index < order.tables {
        text += &table_theorem(index, case);
    }
    text
}

/// The answer, after the two files, which the other theorems name too.
fn answer_theorem(index: usize, case: &Case) -> String {
    let (instance, plan, words) = (literal(&case.instance), literal(&case.plan), case.table.len());
    // The fields of the record have the names that are printed.
    let printed = case.answer.to_string().replace('=', " = ");
    let fields = printed.trim_end().replace('\n', "; ");
    format!(
        "
abbrev instance-{index} : List ℕ
instance-{index} = {instance}

abbrev plan-{index} : List ℕ
plan-{index} = {plan}

pub answer-{index} : answer small {words} instance-{index} plan-{index} ≡ record {{ {fields} }}
unfolding answer
answer-{index} = refl
"
    )
}

/// The part that is handed back for an unreadable file.
fn line_theorem(index: usize, case: &Case) -> String {
    let (number, line) = (case.answer.number, case.answer.first);
    let part = literal(bad_line(&case.instance, &case.plan, number, line));
    format!(
        "
pub line-{index} : part_bytes instance-{index} plan-{index} (handed_back instance-{index} plan-{index} {number} {line}) ≡ {part}
unfolding handed_back
line-{index} = refl
"
    )
}

/// The whole table afterwards.
fn table_theorem(index: usize, case: &Case) -> String {
    let (words, after) = (case.table.len(), runs(&case.table));
    format!(
        "
pub table-{index} : table_after small (replicate {words} {BEFORE}) instance-{index} plan-{index} ≡ {after}
unfolding table_after
table-{index} = refl
"
    )
}

/// Bytes as a term: strings where they are plain ASCII, numbers elsewhere, long runs of one byte by their length.
fn literal(bytes: &[u8]) -> String {
    let plain = |byte: u8| byte == b'\n' || (byte.is_ascii_graphic() || byte == b' ') && byte != b'"' && byte != b'\\';
    let mut parts = Vec::new();
    let mut at = 0;
    while at < bytes.len() {
        let run = run_length(&bytes[at..]);
        if run >= LONG_RUN {
            parts.push(format!("replicate {run} {}", bytes[at]));
            at += run;
            continue;
        }
        let kind = plain(bytes[at]);
        let mut end = at;
        while end < bytes.len() && plain(bytes[end]) == kind && run_length(&bytes[end..]) < LONG_RUN {
            end += 1;
        }
        let part = &bytes[at..end];
        parts.push(if kind {
            format!("bytes \"{}\"", String::from_utf8_lossy(part).replace('\n', "\\n"))
        } else {
            format!(
                "({} ∷ [])",
                part.iter().map(u8::to_string).collect::<Vec<_>>().join(" ∷ ")
            )
        });
        at = end;
    }
    joined(parts)
}

/// How often the first value stands at the front.
fn run_length<T: PartialEq>(values: &[T]) -> usize {
    values.iter().take_while(|&value| *value == values[0]).count()
}

/// Words as a term: runs of one value are told by their length.
fn runs(words: &[u32]) -> String {
    let mut parts = Vec::new();
    let mut at = 0;
    while at < words.len() {
        let run = run_length(&words[at..]);
        parts.push(format!("replicate {run} {}", words[at]));
        at += run;
    }
    joined(parts)
}

fn joined(parts: Vec<String>) -> String {
    let last = parts.last().cloned().unwrap_or_else(|| "[]".to_string());
    let front = &parts[..parts.len().saturating_sub(1)];
    front
        .iter()
        .rev()
        .fold(last, |rest, part| format!("{part} ++ ({rest})"))
}

fn prove(scratch: &Path) -> Result<(bool, String), String> {
    let run = Command::new("rt")
        .arg("check")
        .current_dir(scratch.join("crates/cases"))
        .output();
    let run = run.map_err(|error| format!("rt: {error}"))?;
    let said = String::from_utf8_lossy(&run.stdout).into_owned() + &String::from_utf8_lossy(&run.stderr);
    Ok((run.status.success(), said))
}

/// The cases whose theorems the kernel refused.
fn failed_cases(said: &str) -> BTreeSet<usize> {
    let mut failed = BTreeSet::new();
    for kind in ["answer", "line", "table"] {
        for (at, found) in said.match_indices(&format!("error: `{kind}-")) {
            let digits = &said[at + found.len()..];
            let end = digits.find('`').unwrap_or(0);
            failed.extend(digits[..end].parse::<usize>());
        }
    }
    failed
}
