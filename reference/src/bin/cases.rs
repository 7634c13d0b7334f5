//! Writes generated cases on the edges of the rules, with the answers of the reference.

use reference::generator::{self, Made};
use std::fmt::Write;
use std::path::{Path, PathBuf};
use std::process::ExitCode;

const USAGE: &str = "usage: cases DIR COUNT SEED [--small]
       cases DIR --reading
       cases DIR --check
  DIR        where the files and list.txt are written
  COUNT SEED so many random cases; the same seed gives the same files
  --small    small loads only
  --reading  every bad and edge input of the two files, each a small change of one load
  --check    a fixed list of cases through every verdict, from small to full size, some with their stacks in other orders";

enum Content {
    Random { count: u64, seed: u64, small: bool },
    Reading,
    Check,
}

struct Order {
    folder: PathBuf,
    content: Content,
}

fn main() -> ExitCode {
    let arguments: Vec<String> = std::env::args().skip(1).collect();
    let Some(order) = parse(&arguments) else {
        eprintln!("{USAGE}");
        return ExitCode::FAILURE;
    };
    match write_cases(&order) {
        Ok(tally) => {
            print_tally(&tally);
            ExitCode::SUCCESS
        }
        Err(error) => {
            eprintln!("cases: {error}");
            ExitCode::FAILURE
        }
    }
}

fn parse(arguments: &[String]) -> Option<Order> {
    let words: Vec<&str> = arguments.iter().map(String::as_str).collect();
    let (folder, content) = match words[..] {
        [folder, "--reading"] => (folder, Content::Reading),
        [folder, "--check"] => (folder, Content::Check),
        [folder, count, seed] => (folder, random_content(count, seed, false)?),
        [folder, count, seed, "--small"] => (folder, random_content(count, seed, true)?),
        _ => return None,
    };
    Some(Order {
        folder: PathBuf::from(folder),
        content,
    })
}

fn random_content(count: &str, seed: &str, small: bool) -> Option<Content> {
    Some(Content::Random {
        count: count.parse().ok()?,
        seed: seed.parse().ok()?,
        small,
    })
}

/// Writes the files and the list; returns how many cases each verdict has.
fn write_cases(order: &Order) -> std::io::Result<[u64; 29]> {
    std::fs::create_dir_all(&order.folder)?;
    let (letter, cases) = cases_of(&order.content);
    let mut tally = [0; 29];
    let mut list = String::new();
    for (index, made) in cases.enumerate() {
        let name = format!("{letter}{index:06}");
        write_file(&order.folder, &name, "instance", &made.instance)?;
        write_file(&order.folder, &name, "plan", &made.plan)?;
        tally[made.answer.number as usize] += 1;
        let answer = made.answer.in_one_line();
        writeln!(list, "{name} {answer} {}", made.kind).expect("a string takes every line");
    }
    std::fs::write(order.folder.join("list.txt"), list)?;
    Ok(tally)
}

/// The cases one after the other, and the letter their names begin with.
fn cases_of(content: &Content) -> (char, Box<dyn Iterator<Item = Made>>) {
    match *content {
        Content::Random { count, seed, small } => ('c', Box::new(generator::random(count, seed, small))),
        Content::Reading => ('r', Box::new(generator::reading().into_iter())),
        Content::Check => ('k', Box::new(generator::checking().into_iter())),
    }
}

fn write_file(folder: &Path, name: &str, kind: &str, bytes: &[u8]) -> std::io::Result<()> {
    std::fs::write(folder.join(format!("{name}.{kind}")), bytes)
}

fn print_tally(tally: &[u64; 29]) {
    let count: u64 = tally.iter().sum();
    println!("verdict   cases   percent");
    for (number, &cases) in tally.iter().enumerate() {
        let percent = 100.0 * cases as f64 / count.max(1) as f64;
        println!("{number:7} {cases:7} {percent:9.1}");
    }
}
