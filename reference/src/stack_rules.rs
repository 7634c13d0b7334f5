//! Rules about what a stack is made of, 15 to 21.

use crate::item_rules::each_item;
use crate::loading::{LoadedStack, Loading};
use crate::model::Item;
use crate::verdict::{refuse, Verdict, DENSE, DOCKS, MIXED, SECOND_PAIR, TOO_MANY, TOP_HEAVY, TURNED};

/// Square millimetres in a square metre.
const SQUARE_METRE: i64 = 1_000_000;

pub fn check(loading: &Loading) -> Verdict {
    each_item(loading, MIXED, |stack, item| matches_bottom(stack.bottom, item))?;
    let dock_counts = plant_docks(loading)?;
    one_pair_per_code(loading, &dock_counts)?;
    each_item(loading, TURNED, |stack, item| {
        item.forced_orientation == 0 || item.forced_orientation == stack.orientation
    })?;
    each_stack(loading, TOP_HEAVY, weight_above_limit)?;
    each_stack(loading, TOO_MANY, count_above_limit)?;
    each_stack(loading, DENSE, weight_if_dense)
}

fn matches_bottom(bottom: &Item, item: &Item) -> bool {
    item.supplier == bottom.supplier
        && item.plant == bottom.plant
        && item.code == bottom.code
        && item.max_stackability == bottom.max_stackability
        && item.supplier_dock == bottom.supplier_dock
}

/// Checks the plant docks of each stack and returns how many each has.
fn plant_docks(loading: &Loading) -> Result<Vec<usize>, crate::verdict::Refusal> {
    let mut counts = Vec::with_capacity(loading.stacks.len());
    let mut orders = Vec::new();
    for stack in &loading.stacks {
        orders.clear();
        orders.extend(plant_dock_orders(loading, stack));
        orders.sort_unstable();
        orders.dedup();
        let allowed = match orders.len() {
            1 => true,
            2 => stack.truck.two_docks == 1 && orders[1] - orders[0] == 1,
            _ => false,
        };
        if !allowed {
            refuse(DOCKS, [stack.number, orders.len() as u32, 0])?;
        }
        counts.push(orders.len());
    }
    Ok(counts)
}

/// Loading order of each item's plant dock.
pub fn plant_dock_orders<'s>(loading: &'s Loading, stack: &'s LoadedStack) -> impl Iterator<Item = u32> + 's {
    loading.items(stack).map(|(_, item)| {
        let order = stack.truck.plant_dock_order(item.plant_dock);
        order.expect("rule 14 has found every plant dock")
    })
}

/// On one used truck, at most one stack of a code may have two plant docks.
fn one_pair_per_code(loading: &Loading, dock_counts: &[usize]) -> Verdict {
    for (index, stack) in loading.stacks.iter().enumerate() {
        if dock_counts[index] < 2 {
            continue;
        }
        for &other in &loading.used[stack.used].stacks {
            let second = &loading.stacks[other];
            if other > index && dock_counts[other] == 2 && second.bottom.code == stack.bottom.code {
                return refuse(SECOND_PAIR, [stack.number, second.number, 0]);
            }
        }
    }
    Ok(())
}

/// Refuses at the lowest stack that breaks the rule, with the amount the rule reports.
fn each_stack(loading: &Loading, number: u32, broken: impl Fn(&LoadedStack) -> Option<i64>) -> Verdict {
    for stack in &loading.stacks {
        if let Some(amount) = broken(stack) {
            return refuse(number, [stack.number, amount as u32, 0]);
        }
    }
    Ok(())
}

fn weight_above_limit(stack: &LoadedStack) -> Option<i64> {
    let above = stack.weight - i64::from(stack.bottom.weight);
    (above > i64::from(stack.truck.limit_above)).then_some(above)
}

/// All items of the stack have the bottom item's maximal stackability by now.
fn count_above_limit(stack: &LoadedStack) -> Option<i64> {
    let count = stack.load.len() as i64;
    (count > i64::from(stack.bottom.max_stackability)).then_some(count)
}

fn weight_if_dense(stack: &LoadedStack) -> Option<i64> {
    let area = i64::from(stack.bottom.length) * i64::from(stack.bottom.width);
    let dense = stack.weight * SQUARE_METRE > i64::from(stack.truck.density_limit) * area;
    dense.then_some(stack.weight)
}
