//! A fixed list of cases through the whole check: some aimed at each verdict, two neighbouring rules broken together, stacks with one and
//! two plant docks, edges just long enough and just too short, others taken as they come, overlong files, plans of full size, and plans
//! whose stacks are given in several orders.
//! Every draw comes from one seed, so the files are always the same.

use super::mutate::{mixed_supplier_alone, Change, CHANGES};
use super::packed::{packed, Case, Size, Wish};
use super::random::Random;
use super::reading::Load;
use super::reading_files::filled;
use super::recipe::{
    aimed, at_range_end, changed_once, damaged_twice, drawn, in_other_order, nudged, unaimed, wish_for,
};
use super::recipe::{LARGE, MEDIUM, SMALL, TARGETS};
use super::{contacts, plant_docks, sized, Made};
use crate::MOST_BYTES;

const SEED: u64 = 2022;

/// Small cases for each verdict.
const FOR_EACH_VERDICT: u64 = 14;
/// With so many stacks there are six orders.
const LEAST_STACKS: usize = 3;
/// Stacks that a medium case has at least.
const MEDIUM_STACKS: usize = 8;

type Recipe = fn(&mut Random, Size) -> Made;

/// Recipes that are taken as they come, and how many cases each gives.
const UNAIMED: [(Recipe, u64); 4] = [(unaimed, 50), (nudged, 60), (at_range_end, 30), (damaged_twice, 40)];

/// Each group of cases draws for itself, so that a change of one leaves the others as they are. A group's place here is part of its seed, so
/// a new one goes last.
#[derive(Clone, Copy)]
enum Group {
    Small,
    Changes,
    Neighbours,
    Medium,
    Unaimed,
    Overlong,
    Large,
    Orders,
}

fn stream(group: Group, index: u64) -> Random {
    Random::new(SEED, group as u64 * 1_000_000 + index)
}

pub fn all() -> Vec<Made> {
    let mut cases = Vec::new();
    add_small(&mut cases);
    add_changes(&mut cases);
    add_neighbours(&mut cases);
    cases.extend(plant_docks::all());
    cases.extend(contacts::all());
    add_medium(&mut cases);
    add_unaimed(&mut cases);
    add_overlong(&mut cases);
    add_large(&mut cases);
    add_orders(&mut cases);
    cases
}

fn add(cases: &mut Vec<Made>, label: String, made: Made) {
    cases.push(Made { kind: label, ..made });
}

fn with_verdict(made: Made, target: u32) -> Option<Made> {
    (made.answer.number == target).then_some(made)
}

/// A case that has the verdict aimed at, and at least so many stacks.
fn reached(rng: &mut Random, size: Size, target: u32, stacks: usize) -> Made {
    drawn(|| with_verdict(aimed(rng, size, target), target).filter(|made| stack_lines(&made.plan) >= stacks))
}

fn stack_lines(plan: &[u8]) -> usize {
    let lines = plan.split(|&byte| byte == b'\n');
    lines.filter(|line| line.starts_with(b"stack=")).count()
}

fn add_small(cases: &mut Vec<Made>) {
    for target in TARGETS {
        for index in 0..FOR_EACH_VERDICT {
            let mut rng = stream(Group::Small, u64::from(target) * FOR_EACH_VERDICT + index);
            let made = reached(&mut rng, SMALL, target, 0);
            add(cases, format!("aimed-{target}-{}-{}", made.kind, index + 1), made);
        }
    }
}

/// Each change by itself, where it gets the verdict that it is aimed at.
fn add_changes(cases: &mut Vec<Made>) {
    let further: [(u32, &str, Change); 1] = [(15, "mixed-supplier-same-dock", mixed_supplier_alone)];
    for (index, &(target, label, change)) in (0..).zip(CHANGES.iter().chain(&further)) {
        let mut rng = stream(Group::Changes, index);
        let label = format!("aimed-{target}-{label}-alone");
        cases.push(drawn(|| {
            with_verdict(changed_once(&mut rng, SMALL, target, &label, change), target)
        }));
    }
}

/// Two rules broken that follow each other: the first of them is told.
fn add_neighbours(cases: &mut Vec<Made>) {
    for target in 9..28 {
        let mut rng = stream(Group::Neighbours, u64::from(target));
        cases.push(drawn(|| broken_twice(&mut rng, target)));
    }
}

/// The later rule is broken first, since it is seen to be broken only as long as the earlier one is kept.
fn broken_twice(rng: &mut Random, target: u32) -> Option<Made> {
    let later = target + 1;
    let suited = rng.pick(&[target, later]);
    let wish = wish_for(rng, suited);
    let mut case = packed(rng, SMALL, wish);
    change_for(rng, later)(&mut case, rng);
    with_verdict(Made::of("", &case), later)?;
    change_for(rng, target)(&mut case, rng);
    with_verdict(Made::of(format!("aimed-{target}-before-{later}"), &case), target)
}

fn change_for(rng: &mut Random, target: u32) -> Change {
    let fitting: Vec<Change> = CHANGES
        .iter()
        .filter(|change| change.0 == target)
        .map(|change| change.2)
        .collect();
    rng.pick(&fitting)
}

/// One for each verdict on files that are read.
fn add_medium(cases: &mut Vec<Made>) {
    for target in readable_verdicts() {
        let mut rng = stream(Group::Medium, u64::from(target));
        let made = reached(&mut rng, MEDIUM, target, MEDIUM_STACKS);
        add(cases, format!("aimed-{target}-{}-medium", made.kind), made);
    }
}

fn readable_verdicts() -> impl Iterator<Item = u32> {
    TARGETS.into_iter().filter(|&target| target == 0 || target > 8)
}

fn add_unaimed(cases: &mut Vec<Made>) {
    for (place, (recipe, count)) in (0..).zip(UNAIMED) {
        for index in 0..count {
            let made = recipe(&mut stream(Group::Unaimed, 1_000 * place + index), SMALL);
            add(cases, format!("{}-{}", made.kind, index + 1), made);
        }
    }
}

/// The long files are those of the cases of reading, so that they need to be stored once only.
fn add_overlong(cases: &mut Vec<Made>) {
    let made = reached(&mut stream(Group::Overlong, 0), SMALL, 0, LEAST_STACKS);
    let load = Load::unchanged();
    let instance = filled(&load.instance.bytes(), MOST_BYTES + 1);
    let plan = filled(&load.plan.bytes(), MOST_BYTES + 1);
    cases.push(Made::new("overlong-instance", instance.clone(), made.plan));
    cases.push(Made::new("overlong-plan", made.instance.clone(), plan.clone()));
    cases.push(Made::new("overlong-instance-as-plan", made.instance, instance.clone()));
    cases.push(Made::new("overlong-exchanged", plan, instance));
}

/// As many stacks as there may be, one item each: all on one used truck, accepted and refused late, and spread over many.
fn add_large(cases: &mut Vec<Made>) {
    let mut rng = stream(Group::Large, 0);
    let case = packed(&mut rng, LARGE, Wish::full_size(true));
    for (word, target) in [("overlap", 23), ("loading-order", 25), ("rear", 28)] {
        cases.push(broken(&mut rng, &case, &format!("large-one-truck-{word}"), target));
    }
    add_in_orders(cases, &mut rng, "large-one-truck", Made::of("", &case));
    add(cases, "large-spread".to_string(), sized::spread(&mut rng, LARGE));
}

/// The case with a change that gets it the verdict aimed at.
fn broken(rng: &mut Random, case: &Case, label: &str, target: u32) -> Made {
    drawn(|| {
        let mut other = case.clone();
        change_for(rng, target)(&mut other, rng);
        with_verdict(Made::of(label, &other), target)
    })
}

/// Accepted plans, and one for each rule.
fn add_orders(cases: &mut Vec<Made>) {
    for (index, target) in (1..).zip([0; 5].into_iter().chain(readable_verdicts().skip(1))) {
        let mut rng = stream(Group::Orders, index);
        let made = reached(&mut rng, SMALL, target, LEAST_STACKS);
        let label = format!("reordered-{index}-{target}-{}", made.kind);
        add_in_orders(cases, &mut rng, &label, made);
    }
}

/// The plan as it is, with its stacks reversed, with the first one last, and shuffled. The answers have to be the same.
fn add_in_orders(cases: &mut Vec<Made>, rng: &mut Random, label: &str, made: Made) {
    let reversed = in_other_order(&made, format!("{label}-order-1"), |stacks| stacks.reverse());
    let rotated = in_other_order(&made, format!("{label}-order-2"), |stacks| stacks.rotate_left(1));
    let so_far = [&made.plan, &reversed.plan, &rotated.plan];
    let shuffled = drawn(|| {
        let other = in_other_order(&made, format!("{label}-order-3"), |stacks| rng.shuffle(stacks));
        (!so_far.contains(&&other.plan)).then_some(other)
    });
    add(cases, label.to_string(), made);
    cases.extend([reversed, rotated, shuffled]);
}
