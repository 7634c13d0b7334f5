//! Chooses what a case is to show and makes it.

use super::damage::{self, Damage, StackLines, Text};
use super::mutate::{Change, CHANGES};
use super::packed::{packed, Case, Size, Wish};
use super::random::Random;
use super::{render, Made};
use crate::MOST_BYTES;

/// Every verdict that a full table and short files can reach.
pub const TARGETS: [u32; 26] = [
    0, 4, 5, 6, 7, 8, 9, 10, 11, 12, 13, 14, 15, 16, 17, 18, 19, 20, 21, 22, 23, 24, 25, 26, 27, 28,
];

pub const SMALL: Size = Size {
    items: 8,
    trucks: 3,
    stacks: 8,
    products: 4,
    docks: 4,
};
pub const MEDIUM: Size = Size {
    items: 40,
    trucks: 6,
    stacks: 30,
    products: 12,
    docks: 5,
};
pub const LARGE: Size = Size {
    items: 256,
    trucks: 16,
    stacks: 256,
    products: 32,
    docks: 8,
};

/// Not every draw is as it is wanted, so others follow.
const MOST_TRIES: usize = 200;

/// The first draw that gives a case.
pub fn drawn(mut draw: impl FnMut() -> Option<Made>) -> Made {
    let found = (0..MOST_TRIES).find_map(|_| draw());
    found.expect("some draw gives a case")
}

fn draw_size(rng: &mut Random, small: bool) -> Size {
    match rng.below(20) {
        _ if small => SMALL,
        0..=11 => SMALL,
        12..=17 => MEDIUM,
        _ => LARGE,
    }
}

pub fn make(rng: &mut Random, small: bool) -> Made {
    let size = draw_size(rng, small);
    let made = match rng.below(100) {
        0..=1 if !small => long_files(rng, size),
        2..=69 => {
            let target = rng.pick(&TARGETS);
            aimed(rng, size, target)
        }
        70..=76 => unaimed(rng, size),
        77..=85 => nudged(rng, size),
        86..=90 => at_range_end(rng, size),
        _ => damaged_twice(rng, size),
    };
    let reorder = rng.one_in(12);
    with_other_order(rng, made, reorder)
}

/// Repeats until the case gets the verdict aimed at, which some shapes cannot.
pub fn aimed(rng: &mut Random, size: Size, target: u32) -> Made {
    let mut made = aimed_once(rng, size, target);
    for _ in 0..150 {
        if made.answer.number == target {
            break;
        }
        made = aimed_once(rng, size, target);
    }
    made
}

/// A change taken as it comes, so that some fall on the accepted side of the edge.
pub fn unaimed(rng: &mut Random, size: Size) -> Made {
    let (target, label, change) = rng.pick(CHANGES);
    changed_once(rng, size, target, format!("{label}-any"), change)
}

/// One change of a case that suits its verdict, whether it then gets that verdict or not.
pub fn changed_once(rng: &mut Random, size: Size, target: u32, kind: impl Into<String>, change: Change) -> Made {
    let wish = wish_for(rng, target);
    let mut case = packed(rng, size, wish);
    change(&mut case, rng);
    Made::of(kind, &case)
}

pub fn wish_for(rng: &mut Random, target: u32) -> Wish {
    let chance = rng.one_in(3);
    Wish {
        tall: matches!(target, 15..=17 | 19 | 20) || chance,
        one_code: target == 17 || (target == 6 && chance),
        // An edge needs two stacks on one used truck.
        one_truck: matches!(target, 17 | 23 | 25) || rng.one_in(if target == 24 { 2 } else { 4 }),
        two_docks: matches!(target, 16 | 17) || rng.one_in(3),
        many_docks: matches!(target, 25 | 27 | 28) || rng.one_in(3),
        tight: !rng.one_in(3),
        full: rng.one_in(9),
    }
}

fn aimed_once(rng: &mut Random, size: Size, target: u32) -> Made {
    let wish = wish_for(rng, target);
    match target {
        0 => accepted(rng, size, wish),
        4 => damaged(rng, size, damage::FORM, true),
        5 => damaged(rng, size, damage::RANGE, true),
        7 => damaged(rng, size, damage::FORM, false),
        8 => damaged(rng, size, damage::RANGE, false),
        _ => changed(rng, size, wish, target),
    }
}

pub fn accepted(rng: &mut Random, size: Size, wish: Wish) -> Made {
    let case = packed(rng, size, wish);
    let kind = match (wish.full, wish.tight) {
        (true, _) => "packed-full",
        (_, true) => "packed-tight",
        _ => "packed",
    };
    let made = Made::of(kind, &case);
    assert_eq!(made.answer.number, 0, "a packed case is accepted: {:?}", made.answer);
    made
}

/// One change, or several of the same kind so that the lowest place matters, or a later rule broken too.
fn changed(rng: &mut Random, size: Size, wish: Wish, target: u32) -> Made {
    let fitting: Vec<&(u32, &str, Change)> = CHANGES.iter().filter(|(number, ..)| *number == target).collect();
    let &(_, label, change) = rng.pick(&fitting);
    let mut case = packed(rng, size, wish);
    let mut kind = label.to_string();
    change(&mut case, rng);
    if rng.one_in(3) {
        for _ in 0..rng.between(1, 4) {
            let &(_, _, change) = rng.pick(&fitting);
            change(&mut case, rng);
        }
        kind += "-more";
    }
    if rng.one_in(5) {
        let later: Vec<&(u32, &str, Change)> = CHANGES.iter().filter(|(number, ..)| *number >= target).collect();
        let &(_, _, change) = rng.pick(&later);
        change(&mut case, rng);
        kind += "-later";
    }
    Made::of(kind, &case)
}

fn texts(case: &Case) -> (Text, Text) {
    let (items, trucks) = (case.instance.items.len(), case.instance.trucks.len());
    let instance = Text::new(&render::instance(&case.instance), items, trucks);
    let plan = Text::new(&render::plan(&case.plan), items, trucks);
    (instance, plan)
}

fn damaged(rng: &mut Random, size: Size, list: &[(&str, Damage)], instance: bool) -> Made {
    let wish = wish_for(rng, 0);
    let (mut first, mut second) = texts(&packed(rng, size, wish));
    let (label, damage) = rng.pick(list);
    damage(if instance { &mut first } else { &mut second }, rng);
    Made::new(label, first.bytes(), second.bytes())
}

/// Two damages, in one file or both, so that the first bad line and form before range matter.
pub fn damaged_twice(rng: &mut Random, size: Size) -> Made {
    let wish = wish_for(rng, 0);
    let (mut first, mut second) = texts(&packed(rng, size, wish));
    let all: Vec<(&str, Damage)> = damage::FORM.iter().chain(damage::RANGE).copied().collect();
    let same_file = (!rng.one_in(4)).then(|| rng.one_in(3));
    for file in [false, true] {
        let (_, damage) = rng.pick(&all);
        let instance = same_file.unwrap_or(file);
        damage(if instance { &mut first } else { &mut second }, rng);
    }
    Made::new("damaged-twice", first.bytes(), second.bytes())
}

/// A plan on the edge with one number of either file moved by one.
pub fn nudged(rng: &mut Random, size: Size) -> Made {
    let wish = Wish {
        tight: true,
        ..wish_for(rng, 0)
    };
    let (mut first, mut second) = texts(&packed(rng, size, wish));
    let times = if rng.one_in(4) { 2 } else { 1 };
    for _ in 0..times {
        damage::nudge(if rng.one_in(2) { &mut first } else { &mut second }, rng);
    }
    Made::new("nudged", first.bytes(), second.bytes())
}

/// Some numbers put at an end of their range, which leaves both files readable.
pub fn at_range_end(rng: &mut Random, size: Size) -> Made {
    let wish = wish_for(rng, 0);
    let (mut first, mut second) = texts(&packed(rng, size, wish));
    for _ in 0..rng.between(1, 3) {
        damage::at_end(if rng.one_in(2) { &mut first } else { &mut second }, rng);
    }
    Made::new("range-ends", first.bytes(), second.bytes())
}

/// Files at the most bytes that are read, and one beyond.
fn long_files(rng: &mut Random, size: Size) -> Made {
    let case = packed(rng, size, Wish::default());
    let mut instance = render::instance(&case.instance);
    let mut plan = render::plan(&case.plan);
    let length = MOST_BYTES + rng.below(2);
    match rng.below(4) {
        0 => stretch(rng, &mut instance, length),
        1 => stretch(rng, &mut plan, length),
        2 => {
            stretch(rng, &mut instance, MOST_BYTES);
            stretch(rng, &mut plan, MOST_BYTES + 1);
        }
        _ => {
            stretch(rng, &mut instance, length);
            stretch(rng, &mut plan, length);
        }
    }
    let kind = if length == MOST_BYTES { "longest" } else { "overlong" };
    Made::new(kind, instance, plan)
}

/// Lengthens a file: a long list, empty lines, lines too many or an unended line.
fn stretch(rng: &mut Random, file: &mut Vec<u8>, length: usize) {
    let middle = file.iter().rposition(|&byte| byte == b'=').unwrap_or(0) + 1;
    let gap = length - file.len();
    let (at, filler): (usize, &[u8]) = match rng.below(5) {
        0 => (middle, b"1,"),
        1 => (file.len(), b"\n"),
        2 => (file.len(), b"load=1\n"),
        3 => (file.len(), b"9"),
        _ => (0, b"\0"),
    };
    let extra: Vec<u8> = filler.iter().copied().cycle().take(gap).collect();
    file.splice(at..at, extra);
}

/// The order of the stacks changes no answer of a readable plan.
fn with_other_order(rng: &mut Random, made: Made, keep: bool) -> Made {
    let readable = made.answer.number == 0 || made.answer.number > 8;
    if !readable {
        return made;
    }
    let other = in_other_order(&made, format!("{}-reordered", made.kind), |stacks| rng.shuffle(stacks));
    if keep {
        other
    } else {
        made
    }
}

/// The same load with the stacks of its plan put in another order.
pub fn in_other_order(made: &Made, kind: impl Into<String>, order: impl FnOnce(&mut [StackLines])) -> Made {
    let plan = damage::reordered(&made.plan, order);
    let other = Made::new(kind, made.instance.clone(), plan);
    assert_eq!(
        other.answer, made.answer,
        "the order of the stacks changed the answer of {}",
        made.kind
    );
    other
}
