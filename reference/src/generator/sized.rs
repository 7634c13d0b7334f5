//! Loads of a given size. The largest, of 256 stacks, has as many items and trucks as there may be.

use super::damage::Text;
use super::packed::{Size, Wish};
use super::random::Random;
use super::recipe::{accepted, drawn, LARGE};
use super::Made;

/// One whose first draw gives long identifiers, several codes and a cost at 32, 64, 128 and 256 stacks, so that these loads compare well.
const SEED: u64 = 992;

/// The largest size has 16 trucks for its 256 stacks, and a smaller one as many in proportion.
const STACKS_FOR_EACH_TRUCK: u32 = 16;

pub fn load(stacks: u32, one_truck: bool, draw: u64) -> Made {
    assert!(
        (1..=LARGE.stacks).contains(&stacks),
        "{stacks} stacks, where 1 to 256 are possible"
    );
    let size = Size {
        items: stacks,
        trucks: stacks.div_ceil(STACKS_FOR_EACH_TRUCK),
        stacks,
        ..LARGE
    };
    let mut rng = Random::new(SEED, draw);
    let (word, made) = if one_truck {
        ("one-truck", accepted(&mut rng, size, Wish::full_size(true)))
    } else {
        ("spread", spread(&mut rng, size))
    };
    Made {
        kind: format!("sized-{stacks}-{word}-{draw}"),
        ..made
    }
}

/// A full load of that size on at least as many used trucks as the instance has trucks.
pub fn spread(rng: &mut Random, size: Size) -> Made {
    drawn(|| {
        let made = accepted(rng, size, Wish::full_size(false));
        (made.answer.trucks >= size.trucks).then_some(made)
    })
}

pub fn unreadable_at_the_end(stacks: u32, draw: u64) -> Made {
    let made = load(stacks, false, draw);
    let mut plan = Text::new(&made.plan, 0, 0);
    let last = plan.lines.len() - 1;
    // There are as many items as stacks.
    plan.set_entry(last, 0, (stacks + 1).to_string().as_bytes());
    Made::new(format!("{}-unreadable", made.kind), made.instance, plan.bytes())
}
