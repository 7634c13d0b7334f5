//! Time of the exported check beside the reference checker, on the same files in one run, and of the writer beside the reference's, on the
//! same tables. Both are given a table (the writers: buffers) that is used again and again and is not cleared before a call; what a call
//! clears or allocates for itself is a part of its time.

mod before;

use kaqlluwe::{FILE_BYTES, TABLE_WORDS};
use reference::generator::{self, Made};
use reference::verdict::UNFILLED_TABLE;
use std::hint::black_box;
use std::time::{Duration, Instant};

/// So many loads of each kind are measured, and the mean of their times is told.
const LOADS: u64 = 6;
/// The time of a load is the best of so many rounds. In each round both libraries run, one after the other.
const ROUNDS: usize = 60;
/// Each runs for about so long in a round, on the same load again and again.
const ROUND: Duration = Duration::from_millis(4);
/// At full size the check may take at most this part of the reference's time, and elsewhere all of it. So may the writer at any size, for a
/// table that is written; no bar is set for one that it refuses.
const FULL_SIZE_BAR: f64 = 0.5;
const BAR: f64 = 1.0;

/// Seconds for one call of each.
#[derive(Clone, Copy)]
struct Times {
    exported: f64,
    reference: f64,
}

impl Times {
    fn ratio(self) -> f64 {
        self.exported / self.reference
    }
}

/// A table to write out, and the number that is answered.
struct FilledTable {
    words: Vec<u32>,
    number: u32,
}

fn seconds_per_call(calls: u32, mut call: impl FnMut() -> u32) -> f64 {
    let start = Instant::now();
    for _ in 0..calls {
        black_box(call());
    }
    start.elapsed().as_secs_f64() / f64::from(calls)
}

/// The best times of two calls.
fn best_times(mut exported: impl FnMut() -> u32, mut reference: impl FnMut() -> u32) -> Times {
    let calls = |once: f64| (ROUND.as_secs_f64() / once).ceil() as u32;
    let exported_calls = calls(seconds_per_call(20, &mut exported));
    let reference_calls = calls(seconds_per_call(20, &mut reference));
    let mut best = Times {
        exported: f64::INFINITY,
        reference: f64::INFINITY,
    };
    for _ in 0..ROUNDS {
        best.exported = best.exported.min(seconds_per_call(exported_calls, &mut exported));
        best.reference = best.reference.min(seconds_per_call(reference_calls, &mut reference));
    }
    best
}

/// The best times for the check of one load.
fn checked(load: &Made) -> Times {
    let mut table = vec![0; TABLE_WORDS];
    let mut other_table = vec![0; TABLE_WORDS];
    let (instance, plan) = (black_box(&load.instance[..]), black_box(&load.plan[..]));
    let mut exported = || kaqlluwe::check(instance, plan, &mut table).number;
    let mut reference = || reference::check(instance, plan, &mut other_table).number;
    assert_eq!((exported(), reference()), (load.answer.number, load.answer.number));
    best_times(exported, reference)
}

/// The best times for writing out one table.
fn written(table: &FilledTable) -> Times {
    let buffers = || (vec![0; FILE_BYTES], vec![0; FILE_BYTES]);
    let (mut instance, mut plan) = buffers();
    let (mut other_instance, mut other_plan) = buffers();
    let words = black_box(&table.words[..]);
    let mut exported = || kaqlluwe::write_files(words, &mut instance, &mut plan).number;
    let mut reference = || reference::writer::write(words, &mut other_instance, &mut other_plan).number;
    assert_eq!((exported(), reference()), (table.number, table.number));
    best_times(exported, reference)
}

/// The mean over the loads of one kind.
fn mean<Load>(loads: &[Load], measured: fn(&Load) -> Times) -> Times {
    let times: Vec<Times> = loads.iter().map(measured).collect();
    let mean_of = |part: fn(&Times) -> f64| times.iter().map(part).sum::<f64>() / times.len() as f64;
    Times {
        exported: mean_of(|times| times.exported),
        reference: mean_of(|times| times.reference),
    }
}

/// The first draws of a kind. The answer of each must have this number.
fn drawn(number: u32, draw: impl Fn(u64) -> Made) -> Vec<Made> {
    let loads: Vec<Made> = (0..LOADS).map(draw).collect();
    for load in &loads {
        assert_eq!(load.answer.number, number, "{}", load.kind);
    }
    loads
}

fn held(ratio: f64, bar: f64) -> String {
    let word = if ratio <= bar { "met" } else { "missed" };
    format!("{bar:.2}, {word}")
}

/// The name of the rows, the times of the call and their ratio, the table's own columns, and those of an earlier library.
fn print_head(name: &str, call: &str, own: &[&str], before: &[&str]) {
    let time = format!("{call}, µs");
    let columns = [&[name, &time, "reference, µs", "ratio"], own, before].concat();
    println!("| {} |", columns.join(" | "));
    println!("|{}", "---|".repeat(columns.len()));
}

fn print_row(name: &str, times: Times, own: &[String], before: &[String]) {
    let measured = [
        name.to_string(),
        format!("{:.1}", times.exported * 1e6),
        format!("{:.1}", times.reference * 1e6),
        format!("{:.2}", times.ratio()),
    ];
    println!("| {} |", [&measured, own, before].concat().join(" | "));
}

/// A kind of load with the number of its answer and the bar that it is held to.
fn print_kind(kind: &str, number: u32, bar: f64, draw: impl Fn(u64) -> Made) {
    let loads = drawn(number, draw);
    let times = mean(&loads, checked);
    print_row(kind, times, &[held(times.ratio(), bar)], &before::cells(&loads));
}

fn print_kinds() {
    print_head("Load", "check", &["bar"], before::columns());
    print_kind("small: 8 stacks", 0, BAR, |draw| generator::sized(8, false, draw));
    for (kind, one_truck) in [("spread over trucks", false), ("one used truck", true)] {
        print_kind(&format!("full size, {kind}"), 0, FULL_SIZE_BAR, |draw| {
            generator::sized(256, one_truck, draw)
        });
    }
    print_kind("full size, unreadable at the last line", 8, FULL_SIZE_BAR, |draw| {
        generator::unreadable_at_the_end(256, draw)
    });
    for (kind, number) in [
        ("last stack too high", 22),
        ("one used truck, last pair overlaps", 23),
        ("one used truck, last pair out of order", 25),
        ("rear axle overloaded at the last departure", 28),
    ] {
        print_kind(&format!("full size, {kind}"), number, FULL_SIZE_BAR, |draw| {
            generator::refused_at_the_end(256, number, draw)
        });
    }
}

/// How time grows with the stacks: each row beside the one of the fewest.
fn print_growth(spread: &str, one_truck: bool) {
    println!();
    let own = ["check grows", "reference grows"];
    print_head(&format!("Stacks, {spread}"), "check", &own, before::columns());
    let mut fewest: Option<Times> = None;
    for stacks in [32, 64, 128, 256] {
        let loads = drawn(0, |draw| generator::sized(stacks, one_truck, draw));
        let times = mean(&loads, checked);
        let first = *fewest.get_or_insert(times);
        let growth = [times.exported / first.exported, times.reference / first.reference];
        let own = growth.map(|grown| format!("{grown:.1}"));
        print_row(&stacks.to_string(), times, &own, &before::cells(&loads));
    }
}

/// The table that an accepted load fills.
fn filled(load: &Made) -> FilledTable {
    let mut words = vec![0; TABLE_WORDS];
    assert_eq!(reference::check(&load.instance, &load.plan, &mut words).number, 0);
    FilledTable { words, number: 0 }
}

/// The last word of a full table names an item that is not there.
fn spoilt_at_the_end(mut table: FilledTable) -> FilledTable {
    table.words[TABLE_WORDS - 1] = table.words[3] + 1;
    table.number = UNFILLED_TABLE;
    table
}

/// A kind of table to write out with the bar that it is held to, if there is one.
fn print_written(kind: &str, bar: Option<f64>, table: impl Fn(u64) -> FilledTable) {
    let tables: Vec<FilledTable> = (0..LOADS).map(table).collect();
    let times = mean(&tables, written);
    let told = bar.map_or("–".to_string(), |bar| held(times.ratio(), bar));
    print_row(kind, times, &[told], &before::writer_cells(&tables));
}

fn print_writer() {
    println!();
    print_head("Table written out", "writer", &["bar"], before::writer_columns());
    let sized = |stacks, one_truck, draw| filled(&generator::sized(stacks, one_truck, draw));
    print_written("small: 8 stacks", Some(BAR), |draw| sized(8, false, draw));
    print_written("full size, spread over trucks", Some(BAR), |draw| {
        sized(256, false, draw)
    });
    print_written("full size, one used truck", Some(BAR), |draw| sized(256, true, draw));
    print_written("full size, refused for its last word", None, |draw| {
        spoilt_at_the_end(sized(256, false, draw))
    });
}

fn main() {
    println!("Mean over {LOADS} loads, each the best of {ROUNDS} rounds. Tables and buffers are not cleared before a call.\n");
    print_kinds();
    print_growth("spread over trucks", false);
    print_growth("one used truck", true);
    print_writer();
}
