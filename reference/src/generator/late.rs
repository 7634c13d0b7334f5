//! Loads that a rule refuses as late as it can: after a small edit of an accepted one it is broken at its last place and at no other, and
//! the rules before it are kept.

use super::packed::Case;
use super::{limits, sized, Made};
use crate::loading::{Footprint, Loading};
use crate::model::{Plan, Stack};
use crate::reader::{read_instance, read_plan};
use crate::verdict::{Refusal, ORDER, OUTSIDE, OVERLAP, REAR};

/// Changes the case, and tells the last place of the rule.
type Edit = fn(&mut Case) -> Option<[u32; 3]>;

/// Not every accepted load can be changed so.
const MOST_DRAWS: u64 = 200;

pub fn load(stacks: u32, number: u32, draw: u64) -> Made {
    let (one_truck, edit): (bool, Edit) = match number {
        OUTSIDE => (false, too_high),
        OVERLAP => (true, overlapping),
        ORDER => (true, out_of_order),
        REAR => (false, rear_overloaded),
        _ => panic!("there is no such load for {number}"),
    };
    let mut fitting = (0..MOST_DRAWS).filter_map(|draw| refused(&sized::load(stacks, one_truck, draw), number, edit));
    fitting.nth(draw as usize).expect("enough loads can be changed so")
}

fn refused(accepted: &Made, number: u32, edit: Edit) -> Option<Made> {
    let mut case = read(accepted);
    let places = edit(&mut case)?;
    let made = Made::of(format!("{}-refused-{number}", accepted.kind), &case);
    (made.answer == Refusal { number, places }.answer()).then_some(made)
}

fn read(made: &Made) -> Case {
    let instance = read_instance(&made.instance).expect("an accepted load has a readable instance");
    let plan = read_plan(&made.plan, instance.items.len(), instance.trucks.len());
    Case {
        plan: plan.expect("and a readable plan"),
        instance,
    }
}

/// The item of the last stack becomes higher than the truck.
fn too_high(case: &mut Case) -> Option<[u32; 3]> {
    let last = case.plan.stacks.iter().max_by_key(|stack| stack.number)?;
    let height = case.instance.trucks[last.truck as usize - 1].height;
    case.instance.items[bottom(last)].height = height + 1;
    Some([last.number, 3, 0])
}

/// A stack moves forward by one, into a single other one.
fn overlapping(case: &mut Case) -> Option<[u32; 3]> {
    let loading = Loading::new(&case.instance, &case.plan);
    let numbers = loading.stacks.iter().find_map(|stack| {
        let moved = Footprint {
            x: stack.footprint.x - 1,
            xe: stack.footprint.xe - 1,
            ..stack.footprint
        };
        let others = loading
            .on_same_truck(stack)
            .filter(|other| other.number != stack.number);
        let mut met = others.filter(|other| moved.overlaps(&other.footprint));
        let other = met.next()?;
        (moved.x >= 0 && met.next().is_none()).then_some([other.number, stack.number])
    })?;
    let stacks = &mut case.plan.stacks;
    let [other, moved] = numbers.map(|number| stacks.iter().position(|stack| stack.number == number));
    let (other, moved) = (other?, moved?);
    stacks[moved].x -= 1;
    let [lower, highest] = take_last_numbers(&mut case.plan, [other, moved]);
    Some([lower, highest, 0])
}

/// Two stacks that follow each other in loading order, the later one behind, exchange supplier and docks.
fn out_of_order(case: &mut Case) -> Option<[u32; 3]> {
    let key = |stack: &Stack| {
        let truck = &case.instance.trucks[stack.truck as usize - 1];
        let item = &case.instance.items[bottom(stack)];
        let supplier = truck.supplier_order(item.supplier);
        let dock = truck.dock_order(item.supplier, item.supplier_dock);
        ((supplier, dock, truck.plant_dock_order(item.plant_dock)), stack.x)
    };
    let stacks = &case.plan.stacks;
    let mut order: Vec<usize> = (0..stacks.len()).collect();
    order.sort_by_key(|&index| key(&stacks[index]));
    let neighbours = order.windows(2).find(|pair| {
        let [(rank, x), (next_rank, next_x)] = [pair[0], pair[1]].map(|index| key(&stacks[index]));
        rank < next_rank && x < next_x
    })?;
    let (front, behind) = (neighbours[0], neighbours[1]);
    let [of_front, of_behind] = [front, behind].map(|index| bottom(&stacks[index]));
    let items = &mut case.instance.items;
    let (earlier, later) = (items[of_front].clone(), items[of_behind].clone());
    for (index, other) in [(of_front, later), (of_behind, earlier)] {
        items[index].supplier = other.supplier;
        items[index].supplier_dock = other.supplier_dock;
        items[index].plant_dock = other.plant_dock;
    }
    let [lower, highest] = take_last_numbers(&mut case.plan, [front, behind]);
    Some([highest, lower, 0])
}

/// The rear limit of the last used truck becomes one less than its last departure needs.
fn rear_overloaded(case: &mut Case) -> Option<[u32; 3]> {
    let loading = Loading::new(&case.instance, &case.plan);
    let last = loading.used.last()?;
    let places = [last.number, last.copy, last.truck.suppliers.len() as u32];
    let truck = last.number as usize - 1;
    let need = limits::axle_needs(case, truck).last()?.rear;
    case.instance.trucks[truck].trailer.rear_limit = u32::try_from(need - 1).ok()?;
    Some(places)
}

/// Index of the bottom item.
fn bottom(stack: &Stack) -> usize {
    stack.load[0] as usize - 1
}

/// Gives the two stacks the two highest numbers, the second stack the highest, in exchange for their own.
fn take_last_numbers(plan: &mut Plan, pair: [usize; 2]) -> [u32; 2] {
    let mut numbers: Vec<u32> = plan.stacks.iter().map(|stack| stack.number).collect();
    numbers.sort_unstable();
    let [.., lower, highest] = numbers[..] else {
        panic!("there are two stacks");
    };
    for (index, number) in [(pair[1], highest), (pair[0], lower)] {
        let given = plan.stacks[index].number;
        let holder = plan.stacks.iter_mut().find(|stack| stack.number == number);
        holder.expect("some stack has the number").number = given;
        plan.stacks[index].number = number;
    }
    [lower, highest]
}
