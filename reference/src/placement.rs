//! Rules about where the stacks stand, 22 to 25.

use crate::loading::{LoadedStack, Loading};
use crate::stack_rules::plant_dock_orders;
use crate::verdict::{refuse, Verdict, ORDER, OUTSIDE, OVERLAP, UNBRACED};

pub fn check(loading: &Loading) -> Verdict {
    inside(loading)?;
    no_overlap(loading)?;
    braced(loading)?;
    in_loading_order(loading)
}

fn inside(loading: &Loading) -> Verdict {
    for stack in &loading.stacks {
        let exceeded = [
            stack.footprint.xe > i64::from(stack.truck.length),
            stack.footprint.ye > i64::from(stack.truck.width),
            stack.height > i64::from(stack.truck.height),
        ];
        if let Some(side) = exceeded.iter().position(|&beyond| beyond) {
            return refuse(OUTSIDE, [stack.number, side as u32 + 1, 0]);
        }
    }
    Ok(())
}

fn no_overlap(loading: &Loading) -> Verdict {
    for stack in &loading.stacks {
        for other in loading.on_same_truck(stack) {
            if other.number > stack.number && stack.footprint.overlaps(&other.footprint) {
                return refuse(OVERLAP, [stack.number, other.number, 0]);
            }
        }
    }
    Ok(())
}

/// Following the contacts always ends at x = 0, since x falls with each of them.
fn braced(loading: &Loading) -> Verdict {
    for stack in &loading.stacks {
        let at_front = stack.footprint.x == 0;
        let held = at_front
            || loading
                .on_same_truck(stack)
                .any(|other| stack.footprint.braced_by(&other.footprint));
        if !held {
            return refuse(UNBRACED, [stack.number, 0, 0]);
        }
    }
    Ok(())
}

/// The loading orders of a stack; a stack of two plant docks has a lowest and a highest.
struct Rank {
    supplier: u32,
    supplier_dock: u32,
    lowest_plant_dock: u32,
    highest_plant_dock: u32,
}

impl Rank {
    fn of(loading: &Loading, stack: &LoadedStack) -> Self {
        let bottom = stack.bottom;
        let supplier = stack.truck.supplier_order(bottom.supplier);
        let supplier_dock = stack.truck.dock_order(bottom.supplier, bottom.supplier_dock);
        Rank {
            supplier: supplier.expect("rule 12 has found the supplier"),
            supplier_dock: supplier_dock.expect("rule 14 has found the supplier dock"),
            lowest_plant_dock: plant_dock_orders(loading, stack).min().unwrap_or(0),
            highest_plant_dock: plant_dock_orders(loading, stack).max().unwrap_or(0),
        }
    }

    /// A stack of this rank may not stand behind one of the other rank.
    fn goes_before(&self, other: &Rank) -> bool {
        if self.supplier != other.supplier {
            return self.supplier < other.supplier;
        }
        if self.supplier_dock != other.supplier_dock {
            return self.supplier_dock < other.supplier_dock;
        }
        let at_most = self.highest_plant_dock <= other.lowest_plant_dock;
        let reverse = other.highest_plant_dock <= self.lowest_plant_dock;
        at_most && !reverse
    }
}

fn in_loading_order(loading: &Loading) -> Verdict {
    let ranks: Vec<Rank> = loading.stacks.iter().map(|stack| Rank::of(loading, stack)).collect();
    for (first, stack) in loading.stacks.iter().enumerate() {
        for &second in &loading.used[stack.used].stacks {
            let other = &loading.stacks[second];
            if stack.footprint.x > other.footprint.x && ranks[first].goes_before(&ranks[second]) {
                return refuse(ORDER, [stack.number, other.number, 0]);
            }
        }
    }
    Ok(())
}
