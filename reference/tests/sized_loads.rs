//! Loads of a given size: their counts, their used trucks, the last line of one that cannot be read, and the last place of a broken rule.

mod common;

use common::refused;
use reference::bad_line;
use reference::generator::{refused_at_the_end, sized, unreadable_at_the_end, Made};
use reference::model::{Instance, Plan};
use reference::reader::{read_instance, read_plan};
use std::collections::BTreeSet;

const SIZES: [u32; 4] = [32, 64, 128, 256];

fn read(made: &Made) -> (Instance, Plan) {
    let instance = read_instance(&made.instance).unwrap();
    let plan = read_plan(&made.plan, instance.items.len(), instance.trucks.len()).unwrap();
    (instance, plan)
}

/// Accepted; everything that is counted is as many as the size asks for, with one item to a stack.
fn is_full_load(made: &Made, stacks: u32) {
    assert_eq!(made.answer.number, 0, "{}", made.kind);
    let (instance, plan) = read(made);
    assert_eq!(plan.stacks.len() as u32, stacks, "{}", made.kind);
    assert!(plan.stacks.iter().all(|stack| stack.load.len() == 1), "{}", made.kind);
    assert_eq!(instance.items.len() as u32, stacks, "{}", made.kind);
    assert_eq!(instance.trucks.len() as u32, stacks / 16, "{}", made.kind);
    for truck in &instance.trucks {
        assert_eq!((truck.products.len(), truck.suppliers.len()), (32, 8), "{}", made.kind);
    }
}

#[test]
fn one_used_truck_takes_all_stacks() {
    for (stacks, draw) in SIZES.into_iter().zip(0..) {
        let made = sized(stacks, true, draw);
        is_full_load(&made, stacks);
        assert_eq!(made.answer.trucks, 1, "{}", made.kind);
    }
}

#[test]
fn many_used_trucks_share_the_stacks() {
    for (stacks, draw) in SIZES.into_iter().zip(0..) {
        let made = sized(stacks, false, draw);
        is_full_load(&made, stacks);
        assert!(made.answer.trucks >= stacks / 16, "{}", made.kind);
    }
}

#[test]
fn the_first_draws_have_several_codes_and_a_cost() {
    for (stacks, one_truck) in SIZES.into_iter().flat_map(|stacks| [(stacks, true), (stacks, false)]) {
        let made = sized(stacks, one_truck, 0);
        assert!(made.answer.cost > 0, "{}", made.kind);
        let codes: BTreeSet<u32> = read(&made).0.items.iter().map(|item| item.code).collect();
        assert!(codes.len() > 2, "{}: {codes:?}", made.kind);
    }
}

#[test]
fn a_draw_always_gives_the_same_load_and_another_draw_another() {
    for one_truck in [true, false] {
        assert!(sized(64, one_truck, 1) == sized(64, one_truck, 1));
        assert!(sized(64, one_truck, 1).plan != sized(64, one_truck, 2).plan);
    }
}

#[test]
fn other_sizes_work_too() {
    for stacks in [1, 2, 15, 16, 17, 255] {
        for one_truck in [true, false] {
            let made = sized(stacks, one_truck, 0);
            assert_eq!(made.answer.number, 0, "{}", made.kind);
            assert_eq!(read(&made).1.stacks.len() as u32, stacks, "{}", made.kind);
        }
    }
}

#[test]
fn the_last_line_alone_cannot_be_read() {
    for stacks in SIZES {
        let made = unreadable_at_the_end(stacks, 3);
        let last = 2 * stacks + 1;
        assert_eq!(made.answer, refused(8, last, 0, 0), "{stacks}");
        let line = bad_line(&made.instance, &made.plan, 8, last);
        assert_eq!(line, format!("load={}", stacks + 1).as_bytes());
        let readable = sized(stacks, false, 3);
        assert!(made.instance == readable.instance, "{stacks}");
        let before = made.plan.len() - line.len() - 1;
        assert!(readable.plan.starts_with(&made.plan[..before]), "{stacks}");
    }
}

#[test]
fn the_last_place_alone_is_broken() {
    for (number, draw) in [22, 23, 25, 28]
        .into_iter()
        .flat_map(|number| [(number, 0), (number, 1)])
    {
        let made = refused_at_the_end(256, number, draw);
        let (instance, plan) = read(&made);
        let mut stacks: Vec<u32> = plan.stacks.iter().map(|stack| stack.number).collect();
        stacks.sort_unstable();
        let used: BTreeSet<(u32, u32)> = plan.stacks.iter().map(|stack| (stack.truck, stack.copy)).collect();
        let (truck, copy) = *used.last().unwrap();
        let departures = instance.trucks[truck as usize - 1].suppliers.len() as u32;
        let answer = match number {
            22 => refused(22, stacks[255], 3, 0),
            23 => refused(23, stacks[254], stacks[255], 0),
            25 => refused(25, stacks[255], stacks[254], 0),
            _ => refused(28, truck, copy, departures),
        };
        assert_eq!(made.answer, answer, "{}", made.kind);
        assert_eq!(
            (stacks.len(), used.len() == 1),
            (256, matches!(number, 23 | 25)),
            "{}",
            made.kind
        );
    }
}
