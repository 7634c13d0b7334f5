//! The plan seen from the trucks: footprints of the stacks and the used trucks.

use crate::model::{Instance, Item, Plan, Stack, Truck};

pub struct Loading<'a> {
    pub instance: &'a Instance,
    /// In the order of the stack numbers, so that the first hit of a rule is the lowest place.
    pub stacks: Vec<LoadedStack<'a>>,
    /// In the order of truck, then copy.
    pub used: Vec<UsedTruck<'a>>,
}

pub struct LoadedStack<'a> {
    pub number: u32,
    pub orientation: u32,
    pub truck: &'a Truck,
    pub bottom: &'a Item,
    pub load: &'a [u32],
    /// Index among the used trucks.
    pub used: usize,
    pub footprint: Footprint,
    pub height: i64,
    pub weight: i64,
}

/// A common edge of so many millimetres holds every stack; a narrower stack, or one behind a narrower, is held by that whole width.
const ENOUGH_EDGE: i64 = 100;

/// Where a stack stands: from `x` to `xe` along the trailer, from `y` to `ye` across it.
#[derive(Debug, Clone, Copy, PartialEq, Eq)]
pub struct Footprint {
    pub x: i64,
    pub xe: i64,
    pub y: i64,
    pub ye: i64,
}

/// A truck and copy with at least one stack.
pub struct UsedTruck<'a> {
    pub number: u32,
    pub copy: u32,
    pub truck: &'a Truck,
    /// Indexes of its stacks, in the order of the stack numbers.
    pub stacks: Vec<usize>,
}

impl<'a> Loading<'a> {
    pub fn new(instance: &'a Instance, plan: &'a Plan) -> Self {
        let used_keys = used_keys(plan);
        let mut used: Vec<UsedTruck> = used_keys
            .iter()
            .map(|&(number, copy)| UsedTruck {
                number,
                copy,
                truck: &instance.trucks[number as usize - 1],
                stacks: Vec::new(),
            })
            .collect();
        let mut by_number: Vec<&Stack> = plan.stacks.iter().collect();
        by_number.sort_by_key(|stack| stack.number);
        let mut stacks = Vec::with_capacity(by_number.len());
        for (index, stack) in by_number.into_iter().enumerate() {
            let place = used_keys
                .binary_search(&(stack.truck, stack.copy))
                .expect("each stack's truck is used");
            used[place].stacks.push(index);
            stacks.push(loaded_stack(instance, stack, place));
        }
        Loading { instance, stacks, used }
    }

    /// The items of a stack with their numbers, bottom first.
    pub fn items<'s>(&'s self, stack: &'s LoadedStack) -> impl Iterator<Item = (u32, &'a Item)> + 's {
        let instance = self.instance;
        stack
            .load
            .iter()
            .map(move |&number| (number, item_of(instance, number)))
    }

    /// The stacks that share the used truck of this one, itself among them.
    pub fn on_same_truck<'s>(&'s self, stack: &LoadedStack) -> impl Iterator<Item = &'s LoadedStack<'a>> + 's {
        self.used[stack.used].stacks.iter().map(|&index| &self.stacks[index])
    }
}

fn used_keys(plan: &Plan) -> Vec<(u32, u32)> {
    let mut keys: Vec<(u32, u32)> = plan.stacks.iter().map(|stack| (stack.truck, stack.copy)).collect();
    keys.sort_unstable();
    keys.dedup();
    keys
}

fn item_of(instance: &Instance, number: u32) -> &Item {
    &instance.items[number as usize - 1]
}

fn loaded_stack<'a>(instance: &'a Instance, stack: &'a Stack, used: usize) -> LoadedStack<'a> {
    let bottom = item_of(instance, stack.load[0]);
    let mut height = 0;
    let mut weight = 0;
    for (place, &number) in stack.load.iter().enumerate() {
        let item = item_of(instance, number);
        weight += i64::from(item.weight);
        height += i64::from(item.height);
        // Nothing lies under the bottom item for it to nest into.
        if place > 0 {
            height -= i64::from(item.nesting);
        }
    }
    LoadedStack {
        number: stack.number,
        orientation: stack.orientation,
        truck: &instance.trucks[stack.truck as usize - 1],
        bottom,
        load: &stack.load,
        used,
        footprint: footprint(stack, bottom),
        height,
        weight,
    }
}

fn footprint(stack: &Stack, bottom: &Item) -> Footprint {
    let (along, across) = if stack.orientation == 1 {
        (bottom.length, bottom.width)
    } else {
        (bottom.width, bottom.length)
    };
    Footprint {
        x: i64::from(stack.x),
        xe: i64::from(stack.x) + i64::from(along),
        y: i64::from(stack.y),
        ye: i64::from(stack.y) + i64::from(across),
    }
}

impl Footprint {
    pub fn overlaps(&self, other: &Footprint) -> bool {
        self.x < other.xe && other.x < self.xe && self.y < other.ye && other.y < self.ye
    }

    /// Width across the trailer, as the stack stands.
    pub fn across(&self) -> i64 {
        self.ye - self.y
    }

    /// How long the common edge of two stacks is when one stands right behind the other: 0 at a corner, below 0 with a gap between them.
    pub fn edge_with(&self, other: &Footprint) -> i64 {
        self.ye.min(other.ye) - self.y.max(other.y)
    }

    /// How long it has to be, at least.
    pub fn needed_edge_with(&self, other: &Footprint) -> i64 {
        ENOUGH_EDGE.min(self.across()).min(other.across())
    }

    /// This footprint stands right behind the other, which alone holds it.
    pub fn braced_by(&self, other: &Footprint) -> bool {
        other.xe == self.x && self.edge_with(other) >= self.needed_edge_with(other)
    }
}
