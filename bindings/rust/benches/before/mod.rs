//! Time of the exported check and writer beside those of an earlier library, if KAQLLUWE_BEFORE named its file when the benchmark was
//! built. Most of a difference between two libraries is small, so many short turns are measured, of which a busy machine leaves some alone.

mod library;

use crate::{seconds_per_call, FilledTable};
use kaqlluwe::{Answer, Written, FILE_BYTES, TABLE_WORDS};
use reference::generator::Made;
use std::hint::black_box;
use std::time::Duration;

/// All loads are measured so many times, which shows how far the measurements lie apart.
const REPEATS: usize = 5;
/// A repeat has so many rounds for each load. In a round both libraries run, and in the next one in the other order.
const ROUNDS: usize = 20;
/// In a round each has so many turns on end, and its time is that of its best turn.
const TURNS: usize = 16;
/// A turn takes about so long.
const TURN: Duration = Duration::from_micros(100);
/// Not slower than the earlier library by more than 3 in 100.
const BAR: f64 = 1.03;

type Check = fn(&[u8], &[u8], &mut [u32]) -> Answer;
type Write = fn(&[u32], &mut [u8], &mut [u8]) -> Written;

/// Seconds for one call, of the new library and of the earlier one.
type Pair = [f64; 2];
const NEVER: Pair = [f64::INFINITY; 2];

const COLUMNS: &[&str] = &["new, µs", "before, µs", "new/before", "in each repeat", "bar"];

/// What a table of checks has of this; nothing without an earlier library.
pub fn columns() -> &'static [&'static str] {
    library::CHECK.map_or(&[], |_| COLUMNS)
}

/// What a table of written files has of this; nothing either where the earlier library has no writer.
pub fn writer_columns() -> &'static [&'static str] {
    library::WRITE.map_or(&[], |_| COLUMNS)
}

/// The cells of these columns for a row of checks.
pub fn cells(loads: &[Made]) -> Vec<String> {
    let compared = |before| cells_of(loads, |load| checked(load, before));
    library::CHECK.map_or(Vec::new(), compared)
}

/// The cells of these columns for a row of written files.
pub fn writer_cells(tables: &[FilledTable]) -> Vec<String> {
    let compared = |before| cells_of(tables, |table| written(table, before));
    library::WRITE.map_or(Vec::new(), compared)
}

/// The cells, given how one load is measured in one repeat.
fn cells_of<Load>(loads: &[Load], measured: impl Fn(&Load) -> Pair) -> Vec<String> {
    let mut best = vec![NEVER; loads.len()];
    let mut ratios = [(); REPEATS].map(|()| {
        let times: Vec<Pair> = loads.iter().map(&measured).collect();
        best = best
            .iter()
            .zip(&times)
            .map(|(best, times)| least(*best, *times))
            .collect();
        let [new, before] = mean(&times);
        new / before
    });
    ratios.sort_by(f64::total_cmp);
    let [new, before] = mean(&best);
    vec![
        format!("{:.1}", new * 1e6),
        format!("{:.1}", before * 1e6),
        format!("{:.3}", new / before),
        format!("{:.3} to {:.3}", ratios[0], ratios[REPEATS - 1]),
        crate::held(new / before, BAR),
    ]
}

/// The best turns for one check in one repeat. Both libraries are lent the same table.
fn checked(load: &Made, before: Check) -> Pair {
    let mut table = vec![0; TABLE_WORDS];
    let (instance, plan) = (black_box(&load.instance[..]), black_box(&load.plan[..]));
    measured([kaqlluwe::check as Check, before], load.answer.number, |check| {
        check(instance, plan, &mut table).number
    })
}

/// The best turns for one table written out in one repeat. Both libraries are lent the same buffers.
fn written(table: &FilledTable, before: Write) -> Pair {
    let (mut instance, mut plan) = (vec![0; FILE_BYTES], vec![0; FILE_BYTES]);
    let words = black_box(&table.words[..]);
    measured([kaqlluwe::write_files as Write, before], table.number, |write| {
        write(words, &mut instance, &mut plan).number
    })
}

/// The best turns of two calls, which have to answer with this number.
fn measured<Call: Copy>(calls: [Call; 2], number: u32, mut run: impl FnMut(Call) -> u32) -> Pair {
    let mut best_turn = |call: Call, times: u32| {
        let mut run = || run(call);
        assert_eq!(run(), number);
        let turns = (0..TURNS).map(|_| seconds_per_call(times, &mut run));
        turns.fold(f64::INFINITY, f64::min)
    };
    let times = (TURN.as_secs_f64() / best_turn(calls[1], 1)).ceil() as u32;
    let rounds = (0..ROUNDS).map(|round| {
        let mut best = NEVER;
        let mut both = [(calls[0], 0), (calls[1], 1)];
        both.rotate_left(round % 2);
        for (call, place) in both {
            best[place] = best_turn(call, times);
        }
        best
    });
    rounds.fold(NEVER, least)
}

fn least(one: Pair, other: Pair) -> Pair {
    [one[0].min(other[0]), one[1].min(other[1])]
}

fn mean(loads: &[Pair]) -> Pair {
    [0, 1].map(|place| loads.iter().map(|times| times[place]).sum::<f64>() / loads.len() as f64)
}
