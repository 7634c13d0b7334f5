//! Changes of the edge that a stack has in common with those in front of it: just long enough, just too short, a corner, or two edges that
//! would be long enough only together.

use super::mutate::make_room;
use super::packed::Case;
use super::random::Random;
use crate::loading::{Footprint, LoadedStack, Loading};

/// A stack, by its number, goes aside to another y.
struct Move {
    number: u32,
    y: i64,
}

impl Move {
    fn new(stack: &LoadedStack, y: i64) -> Self {
        Move {
            number: stack.number,
            y,
        }
    }
}

fn aside(stack: &LoadedStack, y: i64) -> Footprint {
    Footprint {
        y,
        ye: y + stack.footprint.across(),
        ..stack.footprint
    }
}

/// Moves that are made together.
type Moves = Vec<Move>;

/// A stack gets an edge one millimetre shorter than it needs.
pub fn short(case: &mut Case, rng: &mut Random) -> bool {
    give_edge(case, rng, |needed| needed - 1)
}

/// A stack gets a corner and no edge.
pub fn corner(case: &mut Case, rng: &mut Random) -> bool {
    give_edge(case, rng, |_| 0)
}

/// A stack gets just the edge that it needs, or stands one millimetre further in.
pub fn enough(case: &mut Case, rng: &mut Random) -> bool {
    let more = rng.below(2) as i64;
    give_edge(case, rng, |needed| needed + more)
}

/// A stack is moved along the rear of one in front of it, at its low side or its high side. The length of their edge depends on what is
/// needed there.
fn give_edge(case: &mut Case, rng: &mut Random, length: impl Fn(i64) -> i64) -> bool {
    make_choice(case, rng, |_, stack, fronts| {
        let mut choices = Vec::new();
        for front in fronts {
            let edge = length(stack.footprint.needed_edge_with(&front.footprint));
            let low = front.footprint.y + edge - stack.footprint.across();
            let high = front.footprint.ye - edge;
            let mut sides = vec![low, high];
            sides.retain(|&y| is_best(&aside(stack, y), front, fronts));
            choices.extend(sides.into_iter().map(|y| vec![Move::new(stack, y)]));
        }
        choices
    })
}

/// No other in front has an edge there that would rather hold the stack.
fn is_best(moved: &Footprint, front: &LoadedStack, fronts: &[&LoadedStack]) -> bool {
    let spare = |other: &LoadedStack| moved.edge_with(&other.footprint) - moved.needed_edge_with(&other.footprint);
    fronts.iter().all(|other| spare(other) <= spare(front))
}

/// Two stacks in front of a third get an edge with it each, both too short. The second is one at the front wall, which nothing has to hold.
pub fn shared(case: &mut Case, rng: &mut Random) -> bool {
    make_choice(case, rng, |rng, stack, fronts| {
        let mut choices = Vec::new();
        for low in fronts {
            let at_wall = |high: &&&LoadedStack| high.footprint.x == 0 && high.number != low.number;
            choices.extend(fronts.iter().filter(at_wall).map(|high| share(rng, stack, low, high)));
        }
        choices
    })
}

/// The stack goes to the far side of the first one, and the second one to the far side of the stack.
fn share(rng: &mut Random, stack: &LoadedStack, low: &LoadedStack, high: &LoadedStack) -> Moves {
    // From half of what is needed on, so that both together are as long, where the stack is wide enough for both.
    let [at_low, at_high] = [low, high].map(|front| {
        let needed = stack.footprint.needed_edge_with(&front.footprint) as u32;
        i64::from(rng.between(needed / 2, needed - 1))
    });
    let y = low.footprint.ye - at_low;
    let beside_low = (y + stack.footprint.across() - at_high).max(low.footprint.ye);
    vec![Move::new(stack, y), Move::new(high, beside_low)]
}

/// Makes one of the choices that stacks have, but none that puts a stack upon another. `choices_of` gives those of a stack, and is told
/// which others end where it begins.
fn make_choice(
    case: &mut Case,
    rng: &mut Random,
    choices_of: impl Fn(&mut Random, &LoadedStack, &[&LoadedStack]) -> Vec<Moves>,
) -> bool {
    let loading = Loading::new(&case.instance, &case.plan);
    let mut choices: Vec<Moves> = Vec::new();
    for stack in &loading.stacks {
        let in_front = |other: &&LoadedStack| other.footprint.xe == stack.footprint.x;
        let fronts: Vec<&LoadedStack> = loading.on_same_truck(stack).filter(in_front).collect();
        choices.extend(choices_of(rng, stack, &fronts));
    }
    rng.shuffle(&mut choices);
    let Some(chosen) = choices.into_iter().find(|moves| all_fit(&loading, moves)) else {
        return false;
    };
    for Move { number, y } in chosen {
        let stacks = &case.plan.stacks;
        let index = stacks.iter().position(|stack| stack.number == number);
        let index = index.expect("the stack is one of the plan");
        make_room(case, index);
        case.plan.stacks[index].y = y as u32;
    }
    true
}

/// After the moves every moved stack is within the widest trailer and overlaps no other.
fn all_fit(loading: &Loading, moves: &[Move]) -> bool {
    let standing = |stack: &LoadedStack| {
        let change = moves.iter().find(|change| change.number == stack.number);
        change.map_or(stack.footprint, |change| aside(stack, change.y))
    };
    let moved = |stack: &&LoadedStack| moves.iter().any(|change| change.number == stack.number);
    loading.stacks.iter().filter(moved).all(|stack| {
        let footprint = standing(stack);
        let mut others = loading
            .on_same_truck(stack)
            .filter(|other| other.number != stack.number);
        footprint.y >= 0 && footprint.ye <= 20_000 && !others.any(|other| footprint.overlaps(&standing(other)))
    })
}
