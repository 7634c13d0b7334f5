//! Small changes of an accepted case, each aimed at one verdict.

use super::packed::Case;
use super::random::Random;
use super::{edges, limits};
use crate::model::{Item, Truck};

/// Changes the case; false when there was nothing to change.
pub type Change = fn(&mut Case, &mut Random) -> bool;

/// The verdict aimed at, a label and the change.
pub const CHANGES: &[(u32, &str, Change)] = &[
    (0, "edge-enough", edges::enough),
    (6, "code-side", code_side),
    (6, "code-taken", code_taken),
    (9, "load-dropped", load_dropped),
    (9, "load-repeated", load_repeated),
    (9, "load-replaced", load_replaced),
    (9, "stack-dropped", stack_dropped),
    (9, "item-added", item_added),
    (10, "plant-item", plant_item),
    (10, "plant-truck", plant_truck),
    (11, "product-item", product_item),
    (11, "product-list", product_list),
    (12, "supplier-item", supplier_item),
    (12, "supplier-list", supplier_list),
    (13, "day-item", day_item),
    (13, "day-truck", day_truck),
    (14, "dock-item", dock_item),
    (14, "dock-plant", dock_plant),
    (14, "dock-list", dock_list),
    (15, "mixed-code", mixed_code),
    (15, "mixed-most", mixed_most),
    (15, "mixed-dock", mixed_dock),
    (15, "mixed-supplier", mixed_supplier),
    (15, "mixed-swap", mixed_swap),
    (16, "docks-flag", docks_flag),
    (16, "docks-spread", docks_spread),
    (16, "docks-all", docks_all),
    (17, "pair-second", pair_second),
    (18, "turned-item", turned_item),
    (18, "turned-stack", turned_stack),
    (19, "above-limit", above_limit),
    (19, "above-weight", above_weight),
    (20, "many-limit", many_limit),
    (21, "dense-limit", dense_limit),
    (21, "dense-weight", dense_weight),
    (22, "outside-limit", outside_limit),
    (22, "outside-shift", outside_shift),
    (23, "overlap-nudge", overlap_nudge),
    (23, "overlap-same", overlap_same),
    (23, "overlap-grown", overlap_grown),
    (24, "loose-shift", loose_shift),
    (24, "loose-aside", loose_aside),
    (24, "loose-truck", loose_truck),
    (24, "edge-short", edges::short),
    (24, "edge-corner", edges::corner),
    (24, "edge-shared", edges::shared),
    (25, "order-suppliers", order_suppliers),
    (25, "order-docks", order_docks),
    (25, "order-plant-docks", order_plant_docks),
    (25, "order-swapped", order_swapped),
    (26, "load-limit", load_limit),
    (26, "load-weight", load_weight),
    (27, "middle-limit", middle_limit),
    (27, "middle-lever", middle_lever),
    (28, "rear-limit", rear_limit),
    (28, "rear-lever", rear_lever),
];

const HIGHEST_ID: u32 = 65_535;

fn stack_at(case: &Case, rng: &mut Random, least_items: usize) -> Option<usize> {
    let fitting: Vec<usize> = (0..case.plan.stacks.len())
        .filter(|&index| case.plan.stacks[index].load.len() >= least_items)
        .collect();
    (!fitting.is_empty()).then(|| rng.pick(&fitting))
}

fn item_mut(case: &mut Case, number: u32) -> &mut Item {
    &mut case.instance.items[number as usize - 1]
}

fn loaded_item<'c>(case: &'c mut Case, rng: &mut Random) -> Option<&'c mut Item> {
    let stack = stack_at(case, rng, 1)?;
    let number = rng.pick(&case.plan.stacks[stack].load);
    Some(item_mut(case, number))
}

fn used_truck(case: &Case, rng: &mut Random) -> Option<usize> {
    let stack = stack_at(case, rng, 1)?;
    Some(case.plan.stacks[stack].truck as usize - 1)
}

fn truck_of(case: &Case, stack: usize) -> &Truck {
    &case.instance.trucks[case.plan.stacks[stack].truck as usize - 1]
}

/// A neighbour of the number, or any other one.
fn other_id(rng: &mut Random, id: u32) -> u32 {
    match rng.below(3) {
        0 if id > 1 => id - 1,
        1 if id < HIGHEST_ID => id + 1,
        _ => rng.between(1, HIGHEST_ID),
    }
}

fn raise(value: &mut u32, most: u32) -> bool {
    let possible = *value < most;
    *value += u32::from(possible);
    possible
}

fn lower(value: &mut u32, least: u32) -> bool {
    let possible = *value > least;
    *value -= u32::from(possible);
    possible
}

fn code_side(case: &mut Case, rng: &mut Random) -> bool {
    let index = rng.below(case.instance.items.len());
    let item = &mut case.instance.items[index];
    match rng.below(4) {
        0 => raise(&mut item.length, 20_000),
        1 => lower(&mut item.width, 1),
        2 => raise(&mut item.width, item.length),
        _ => lower(&mut item.length, item.width),
    }
}

fn code_taken(case: &mut Case, rng: &mut Random) -> bool {
    let items = &mut case.instance.items;
    let (from, to) = (rng.below(items.len()), rng.below(items.len()));
    let code = items[from].code;
    let differs = items[to].code != code;
    items[to].code = code;
    differs
}

fn load_dropped(case: &mut Case, rng: &mut Random) -> bool {
    let Some(stack) = stack_at(case, rng, 2) else {
        return false;
    };
    let load = &mut case.plan.stacks[stack].load;
    load.remove(rng.below(load.len()));
    true
}

fn load_repeated(case: &mut Case, rng: &mut Random) -> bool {
    let total: usize = case.plan.stacks.iter().map(|stack| stack.load.len()).sum();
    let number = rng.between(1, case.instance.items.len() as u32);
    let Some(stack) = stack_at(case, rng, 1) else {
        return false;
    };
    let load = &mut case.plan.stacks[stack].load;
    let room = load.len() < 64 && total < 256;
    if room {
        load.insert(rng.below(load.len() + 1), number);
    }
    room
}

fn load_replaced(case: &mut Case, rng: &mut Random) -> bool {
    let number = rng.between(1, case.instance.items.len() as u32);
    let Some(stack) = stack_at(case, rng, 1) else {
        return false;
    };
    let load = &mut case.plan.stacks[stack].load;
    let place = rng.below(load.len());
    let differs = load[place] != number;
    load[place] = number;
    differs
}

fn stack_dropped(case: &mut Case, rng: &mut Random) -> bool {
    let Some(stack) = stack_at(case, rng, 1) else {
        return false;
    };
    case.plan.stacks.remove(stack);
    true
}

fn item_added(case: &mut Case, rng: &mut Random) -> bool {
    let items = &mut case.instance.items;
    let room = items.len() < 256;
    if room {
        let copy = items[rng.below(items.len())].clone();
        items.push(copy);
    }
    room
}

fn plant_item(case: &mut Case, rng: &mut Random) -> bool {
    let Some(item) = loaded_item(case, rng) else {
        return false;
    };
    item.plant = other_id(rng, item.plant);
    true
}

fn plant_truck(case: &mut Case, rng: &mut Random) -> bool {
    let Some(truck) = used_truck(case, rng) else {
        return false;
    };
    let plant = &mut case.instance.trucks[truck].plant;
    *plant = other_id(rng, *plant);
    true
}

fn product_item(case: &mut Case, rng: &mut Random) -> bool {
    let Some(item) = loaded_item(case, rng) else {
        return false;
    };
    item.product = other_id(rng, item.product);
    true
}

/// Drops an entry of a list, or changes it to a number that is not in it yet.
fn change_list(rng: &mut Random, list: &mut Vec<u32>) -> bool {
    let place = rng.below(list.len());
    if list.len() > 1 && rng.one_in(2) {
        list.remove(place);
        return true;
    }
    let id = other_id(rng, list[place]);
    let fresh = !list.contains(&id);
    if fresh {
        list[place] = id;
    }
    fresh
}

fn product_list(case: &mut Case, rng: &mut Random) -> bool {
    let Some(truck) = used_truck(case, rng) else {
        return false;
    };
    change_list(rng, &mut case.instance.trucks[truck].products)
}

fn supplier_item(case: &mut Case, rng: &mut Random) -> bool {
    let Some(item) = loaded_item(case, rng) else {
        return false;
    };
    item.supplier = other_id(rng, item.supplier);
    true
}

fn supplier_list(case: &mut Case, rng: &mut Random) -> bool {
    let Some(truck) = used_truck(case, rng) else {
        return false;
    };
    let truck = &mut case.instance.trucks[truck];
    let place = rng.below(truck.suppliers.len());
    if truck.suppliers.len() > 1 && rng.one_in(2) {
        truck.suppliers.remove(place);
        truck.docks.remove(place);
        return true;
    }
    let id = other_id(rng, truck.suppliers[place]);
    let fresh = !truck.suppliers.contains(&id);
    if fresh {
        truck.suppliers[place] = id;
    }
    fresh
}

/// Moves the window of an item so that its truck just misses it.
fn day_item(case: &mut Case, rng: &mut Random) -> bool {
    let Some(stack) = stack_at(case, rng, 1) else {
        return false;
    };
    let arrival = truck_of(case, stack).arrival;
    let number = rng.pick(&case.plan.stacks[stack].load);
    let item = item_mut(case, number);
    if rng.one_in(2) && arrival > 0 {
        item.latest = arrival - 1;
        item.earliest = item.earliest.min(item.latest);
        return true;
    }
    if arrival < 399 {
        item.earliest = arrival + 1;
        item.latest = item.latest.max(item.earliest);
    }
    arrival < 399
}

fn day_truck(case: &mut Case, rng: &mut Random) -> bool {
    let Some(truck) = used_truck(case, rng) else {
        return false;
    };
    let arrival = &mut case.instance.trucks[truck].arrival;
    match rng.below(2) {
        0 => raise(arrival, 399),
        _ => lower(arrival, 0),
    }
}

/// Another dock: one of any supplier of the truck, or a number from nowhere.
fn dock_item(case: &mut Case, rng: &mut Random) -> bool {
    let Some(stack) = stack_at(case, rng, 1) else {
        return false;
    };
    let truck = truck_of(case, stack);
    let supplier = rng.below(truck.docks.len());
    let elsewhere = rng.pick(&truck.docks[supplier]);
    let number = rng.pick(&case.plan.stacks[stack].load);
    let item = item_mut(case, number);
    let dock = if rng.one_in(2) {
        elsewhere
    } else {
        other_id(rng, item.supplier_dock)
    };
    item.supplier_dock = dock;
    true
}

fn dock_plant(case: &mut Case, rng: &mut Random) -> bool {
    let Some(item) = loaded_item(case, rng) else {
        return false;
    };
    item.plant_dock = other_id(rng, item.plant_dock);
    true
}

fn dock_list(case: &mut Case, rng: &mut Random) -> bool {
    let Some(truck) = used_truck(case, rng) else {
        return false;
    };
    let truck = &mut case.instance.trucks[truck];
    if rng.one_in(2) {
        change_list(rng, &mut truck.plant_docks)
    } else {
        let supplier = rng.below(truck.docks.len());
        change_list(rng, &mut truck.docks[supplier])
    }
}

/// An item of a stack of several, the bottom one now and then.
fn mixable(case: &Case, rng: &mut Random) -> Option<(usize, u32)> {
    let stack = stack_at(case, rng, 2)?;
    let load = &case.plan.stacks[stack].load;
    let lowest = usize::from(!rng.one_in(4));
    Some((stack, load[lowest + rng.below(load.len() - lowest)]))
}

fn mixed_code(case: &mut Case, rng: &mut Random) -> bool {
    let Some((_, number)) = mixable(case, rng) else {
        return false;
    };
    let item = item_mut(case, number);
    item.code = other_id(rng, item.code);
    true
}

fn mixed_most(case: &mut Case, rng: &mut Random) -> bool {
    let Some((_, number)) = mixable(case, rng) else {
        return false;
    };
    let most = &mut item_mut(case, number).max_stackability;
    match rng.below(2) {
        0 => raise(most, 64),
        _ => lower(most, 1),
    }
}

fn mixed_dock(case: &mut Case, rng: &mut Random) -> bool {
    let Some((stack, number)) = mixable(case, rng) else {
        return false;
    };
    let supplier = case.instance.items[number as usize - 1].supplier;
    let truck = truck_of(case, stack);
    let Some(order) = truck.supplier_order(supplier) else {
        return false;
    };
    let dock = rng.pick(&truck.docks[order as usize - 1]);
    let item = item_mut(case, number);
    let differs = item.supplier_dock != dock;
    item.supplier_dock = dock;
    differs
}

fn mixed_supplier(case: &mut Case, rng: &mut Random) -> bool {
    let Some((stack, number)) = mixable(case, rng) else {
        return false;
    };
    let truck = truck_of(case, stack);
    let place = rng.below(truck.suppliers.len());
    let (supplier, dock) = (truck.suppliers[place], rng.pick(&truck.docks[place]));
    let item = item_mut(case, number);
    let differs = item.supplier != supplier;
    item.supplier = supplier;
    item.supplier_dock = dock;
    differs
}

/// An item gets another supplier, which has a dock of the same number, so that it differs from the others of its stack by the supplier
/// alone. No part of `CHANGES`, whose random choice decides which cases a seed gives.
pub fn mixed_supplier_alone(case: &mut Case, rng: &mut Random) -> bool {
    let Some((stack, number)) = mixable(case, rng) else {
        return false;
    };
    let truck = case.plan.stacks[stack].truck as usize - 1;
    let dock = item_mut(case, number).supplier_dock;
    let truck = &mut case.instance.trucks[truck];
    let place = rng.below(truck.suppliers.len());
    let supplier = truck.suppliers[place];
    if !truck.docks[place].contains(&dock) {
        truck.docks[place][0] = dock;
    }
    let item = item_mut(case, number);
    let differs = item.supplier != supplier;
    item.supplier = supplier;
    differs
}

/// Two stacks exchange an item each.
fn mixed_swap(case: &mut Case, rng: &mut Random) -> bool {
    let (Some(first), Some(second)) = (stack_at(case, rng, 1), stack_at(case, rng, 1)) else {
        return false;
    };
    let place = rng.below(case.plan.stacks[first].load.len());
    let other = rng.below(case.plan.stacks[second].load.len());
    let moved = case.plan.stacks[first].load[place];
    case.plan.stacks[first].load[place] = case.plan.stacks[second].load[other];
    case.plan.stacks[second].load[other] = moved;
    first != second
}

fn docks_flag(case: &mut Case, rng: &mut Random) -> bool {
    let Some(truck) = used_truck(case, rng) else {
        return false;
    };
    lower(&mut case.instance.trucks[truck].two_docks, 0)
}

fn docks_spread(case: &mut Case, rng: &mut Random) -> bool {
    let Some((stack, number)) = mixable(case, rng) else {
        return false;
    };
    let dock = rng.pick(&truck_of(case, stack).plant_docks);
    let item = item_mut(case, number);
    let differs = item.plant_dock != dock;
    item.plant_dock = dock;
    differs
}

/// Every item of a stack gets a plant dock at random, often more than two in all.
fn docks_all(case: &mut Case, rng: &mut Random) -> bool {
    let Some(stack) = stack_at(case, rng, 2) else {
        return false;
    };
    let docks = truck_of(case, stack).plant_docks.clone();
    for number in case.plan.stacks[stack].load.clone() {
        item_mut(case, number).plant_dock = rng.pick(&docks);
    }
    docks.len() > 1
}

/// Gives a stack two plant docks that follow each other.
fn pair_second(case: &mut Case, rng: &mut Random) -> bool {
    let Some(stack) = stack_at(case, rng, 2) else {
        return false;
    };
    let docks = &truck_of(case, stack).plant_docks;
    if docks.len() < 2 {
        return false;
    }
    let place = rng.below(docks.len() - 1);
    let pair = [docks[place], docks[place + 1]];
    let flip = rng.below(2);
    for (position, number) in case.plan.stacks[stack].load.clone().into_iter().enumerate() {
        item_mut(case, number).plant_dock = pair[(position + flip) % 2];
    }
    true
}

fn turned_item(case: &mut Case, rng: &mut Random) -> bool {
    let Some(stack) = stack_at(case, rng, 1) else {
        return false;
    };
    let orientation = case.plan.stacks[stack].orientation;
    let number = rng.pick(&case.plan.stacks[stack].load);
    item_mut(case, number).forced_orientation = 3 - orientation;
    true
}

fn turned_stack(case: &mut Case, rng: &mut Random) -> bool {
    let Some(stack) = stack_at(case, rng, 1) else {
        return false;
    };
    let stack = &mut case.plan.stacks[stack];
    stack.orientation = 3 - stack.orientation;
    true
}

/// Sets a limit one below what is needed.
fn just_below(limit: &mut u32, need: i64, least: i64) -> bool {
    let possible = need > least;
    if possible {
        *limit = (need - 1) as u32;
    }
    possible
}

fn above_limit(case: &mut Case, rng: &mut Random) -> bool {
    let Some(truck) = used_truck(case, rng) else {
        return false;
    };
    let need = limits::floor_need(case, truck).above;
    just_below(&mut case.instance.trucks[truck].limit_above, need, 0)
}

fn above_weight(case: &mut Case, rng: &mut Random) -> bool {
    let Some((_, number)) = mixable(case, rng) else {
        return false;
    };
    raise(&mut item_mut(case, number).weight, 50_000)
}

fn many_limit(case: &mut Case, rng: &mut Random) -> bool {
    let Some(stack) = stack_at(case, rng, 2) else {
        return false;
    };
    let load = case.plan.stacks[stack].load.clone();
    let most = rng.pick(&[load.len() - 1, load.len() - 1, 1]) as u32;
    for &number in &load {
        item_mut(case, number).max_stackability = most;
    }
    true
}

fn dense_limit(case: &mut Case, rng: &mut Random) -> bool {
    let Some(truck) = used_truck(case, rng) else {
        return false;
    };
    let need = limits::floor_need(case, truck).density;
    just_below(&mut case.instance.trucks[truck].density_limit, need, 1)
}

fn dense_weight(case: &mut Case, rng: &mut Random) -> bool {
    let Some(stack) = stack_at(case, rng, 1) else {
        return false;
    };
    let bottom = case.plan.stacks[stack].load[0];
    raise(&mut item_mut(case, bottom).weight, 50_000)
}

fn outside_limit(case: &mut Case, rng: &mut Random) -> bool {
    let Some(truck) = used_truck(case, rng) else {
        return false;
    };
    let need = limits::floor_need(case, truck);
    let model = &mut case.instance.trucks[truck];
    match rng.below(4) {
        0 => just_below(&mut model.length, need.length, 1),
        1 => just_below(&mut model.width, need.width, 1),
        2 => just_below(&mut model.height, need.height, 1),
        _ => just_below(&mut model.length, need.length, 1) & just_below(&mut model.height, need.height, 1),
    }
}

fn outside_shift(case: &mut Case, rng: &mut Random) -> bool {
    let Some(stack) = stack_at(case, rng, 1) else {
        return false;
    };
    let bottom = case.plan.stacks[stack].load[0];
    let stack = &mut case.plan.stacks[stack];
    match rng.below(3) {
        0 => raise(&mut stack.x, 20_000),
        1 => raise(&mut stack.y, 20_000),
        _ => raise(&mut item_mut(case, bottom).height, 20_000),
    }
}

/// Room on every side, so that moving a stack does not put it outside.
pub fn make_room(case: &mut Case, stack: usize) {
    let truck = case.plan.stacks[stack].truck as usize - 1;
    case.instance.trucks[truck].length = 20_000;
    case.instance.trucks[truck].width = 20_000;
}

fn overlap_nudge(case: &mut Case, rng: &mut Random) -> bool {
    let Some(stack) = stack_at(case, rng, 1) else {
        return false;
    };
    make_room(case, stack);
    let stack = &mut case.plan.stacks[stack];
    match rng.below(4) {
        0 => lower(&mut stack.x, 0),
        1 => raise(&mut stack.x, 20_000),
        2 => lower(&mut stack.y, 0),
        _ => raise(&mut stack.y, 20_000),
    }
}

fn overlap_same(case: &mut Case, rng: &mut Random) -> bool {
    let (Some(first), Some(second)) = (stack_at(case, rng, 1), stack_at(case, rng, 1)) else {
        return false;
    };
    make_room(case, second);
    let place = &case.plan.stacks[first];
    let (x, y) = (place.x, place.y);
    case.plan.stacks[second].x = x;
    case.plan.stacks[second].y = y;
    first != second
}

/// All items of a code become a millimetre longer.
fn overlap_grown(case: &mut Case, rng: &mut Random) -> bool {
    let Some(stack) = stack_at(case, rng, 1) else {
        return false;
    };
    make_room(case, stack);
    let bottom = case.plan.stacks[stack].load[0];
    let code = item_mut(case, bottom).code;
    for item in case.instance.items.iter_mut().filter(|item| item.code == code) {
        item.length += 1;
    }
    true
}

fn loose_shift(case: &mut Case, rng: &mut Random) -> bool {
    let Some(stack) = stack_at(case, rng, 1) else {
        return false;
    };
    make_room(case, stack);
    raise(&mut case.plan.stacks[stack].x, 20_000)
}

/// Sideways: breaks contacts whose edge is just long enough and others only by chance.
fn loose_aside(case: &mut Case, rng: &mut Random) -> bool {
    let Some(stack) = stack_at(case, rng, 1) else {
        return false;
    };
    make_room(case, stack);
    let stack = &mut case.plan.stacks[stack];
    match rng.below(3) {
        0 => lower(&mut stack.y, 0),
        1 => raise(&mut stack.y, 20_000),
        _ => {
            stack.y = (stack.y + rng.between(2, 5000)).min(20_000);
            true
        }
    }
}

/// A whole used truck moves away from the front wall.
fn loose_truck(case: &mut Case, rng: &mut Random) -> bool {
    let Some(stack) = stack_at(case, rng, 1) else {
        return false;
    };
    make_room(case, stack);
    let key = (case.plan.stacks[stack].truck, case.plan.stacks[stack].copy);
    for stack in &mut case.plan.stacks {
        if (stack.truck, stack.copy) == key {
            stack.x = (stack.x + 1).min(20_000);
        }
    }
    true
}

/// Two different places of a list of that length.
fn two_places(rng: &mut Random, length: usize) -> Option<(usize, usize)> {
    let (first, second) = (rng.below(length), rng.below(length));
    (first != second).then_some((first, second))
}

fn order_suppliers(case: &mut Case, rng: &mut Random) -> bool {
    let Some(truck) = used_truck(case, rng) else {
        return false;
    };
    let truck = &mut case.instance.trucks[truck];
    let Some((first, second)) = two_places(rng, truck.suppliers.len()) else {
        return false;
    };
    truck.suppliers.swap(first, second);
    truck.docks.swap(first, second);
    true
}

fn order_docks(case: &mut Case, rng: &mut Random) -> bool {
    let Some(truck) = used_truck(case, rng) else {
        return false;
    };
    let docks = &mut case.instance.trucks[truck].docks;
    let supplier = rng.below(docks.len());
    let Some((first, second)) = two_places(rng, docks[supplier].len()) else {
        return false;
    };
    docks[supplier].swap(first, second);
    true
}

fn order_plant_docks(case: &mut Case, rng: &mut Random) -> bool {
    let Some(truck) = used_truck(case, rng) else {
        return false;
    };
    let docks = &mut case.instance.trucks[truck].plant_docks;
    if rng.one_in(2) {
        docks.reverse();
        return docks.len() > 1;
    }
    let Some((first, second)) = two_places(rng, docks.len()) else {
        return false;
    };
    docks.swap(first, second);
    true
}

/// Two stacks exchange their places.
fn order_swapped(case: &mut Case, rng: &mut Random) -> bool {
    let stacks = &mut case.plan.stacks;
    if stacks.is_empty() {
        return false;
    }
    let Some((first, second)) = two_places(rng, stacks.len()) else {
        return false;
    };
    let (x, y) = (stacks[first].x, stacks[first].y);
    (stacks[first].x, stacks[first].y) = (stacks[second].x, stacks[second].y);
    (stacks[second].x, stacks[second].y) = (x, y);
    true
}

fn load_limit(case: &mut Case, rng: &mut Random) -> bool {
    let Some(truck) = used_truck(case, rng) else {
        return false;
    };
    let need = limits::floor_need(case, truck).load;
    just_below(&mut case.instance.trucks[truck].load_limit, need, 1)
}

/// Heavier by one, with room in the density limit.
fn load_weight(case: &mut Case, rng: &mut Random) -> bool {
    let Some(stack) = stack_at(case, rng, 1) else {
        return false;
    };
    let truck = case.plan.stacks[stack].truck as usize - 1;
    case.instance.trucks[truck].density_limit = 100_000;
    let bottom = case.plan.stacks[stack].load[0];
    raise(&mut item_mut(case, bottom).weight, 50_000)
}

/// The axle needs of a used truck: those of some departure, or of the one where the axle bears most.
fn axle_need(case: &Case, rng: &mut Random, load: impl Fn(&limits::AxleNeed) -> i64) -> Option<limits::AxleNeed> {
    let truck = used_truck(case, rng)?;
    let needs = limits::axle_needs(case, truck);
    let most = needs.iter().copied().max_by_key(|need| load(need))?;
    Some(if rng.one_in(2) { most } else { rng.pick(&needs) })
}

fn middle_limit(case: &mut Case, rng: &mut Random) -> bool {
    let Some(need) = axle_need(case, rng, |need| need.middle) else {
        return false;
    };
    just_below(
        &mut case.instance.trucks[need.truck].trailer.middle_limit,
        need.middle,
        1,
    )
}

fn rear_limit(case: &mut Case, rng: &mut Random) -> bool {
    let Some(need) = axle_need(case, rng, |need| need.rear) else {
        return false;
    };
    just_below(&mut case.instance.trucks[need.truck].trailer.rear_limit, need.rear, 1)
}

/// One of the lengths and weights that bear on the middle axle moves by one.
fn middle_lever(case: &mut Case, rng: &mut Random) -> bool {
    let Some(truck) = used_truck(case, rng) else {
        return false;
    };
    let truck = &mut case.instance.trucks[truck];
    match rng.below(7) {
        0 => raise(&mut truck.tractor.weight, 50_000),
        1 => lower(&mut truck.tractor.to_middle, 1),
        2 => raise(&mut truck.tractor.to_centre, 20_000),
        3 => raise(&mut truck.tractor.to_harness, 20_000),
        4 => raise(&mut truck.trailer.weight, 50_000),
        5 => raise(&mut truck.trailer.centre_to_rear, 20_000),
        _ => raise(&mut truck.trailer.end_to_harness, 20_000),
    }
}

fn rear_lever(case: &mut Case, rng: &mut Random) -> bool {
    let Some(truck) = used_truck(case, rng) else {
        return false;
    };
    let trailer = &mut case.instance.trucks[truck].trailer;
    match rng.below(4) {
        0 => raise(&mut trailer.weight, 50_000),
        1 => lower(&mut trailer.centre_to_rear, 0),
        2 => lower(&mut trailer.end_to_harness, 0),
        _ => lower(&mut trailer.harness_to_rear, 1),
    }
}
