//! Transport and inventory cost of an accepted plan, in thousandths.

use crate::loading::{Loading, UsedTruck};

pub fn total(loading: &Loading) -> u64 {
    let instance = loading.instance;
    let transport: u64 = loading.used.iter().map(|used| truck_cost(used, instance.extra)).sum();
    let mut inventory = 0;
    for stack in &loading.stacks {
        for (_, item) in loading.items(stack) {
            // Rule 13 has seen to it that no item arrives after its latest day.
            let early = item.latest - stack.truck.arrival;
            inventory += u64::from(item.daily_cost) * u64::from(early);
        }
    }
    u64::from(instance.transport) * transport + 1000 * u64::from(instance.inventory) * inventory
}

fn truck_cost(used: &UsedTruck, extra: u32) -> u64 {
    let thousandths = if used.copy == 0 { 1000 } else { 1000 + extra };
    u64::from(used.truck.cost) * u64::from(thousandths)
}
