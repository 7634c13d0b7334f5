//! Rules about items: code clash (6) and the item rules 9 to 14.

use crate::loading::{LoadedStack, Loading};
use crate::model::{Instance, Item, Truck};
use crate::verdict::{refuse, Verdict, CODE_CLASH, DAY, DOCK, NOT_ONCE, PLANT, PRODUCT, SUPPLIER};
use std::collections::HashMap;

/// Items of one code share length and width.
pub fn codes_agree(instance: &Instance) -> Verdict {
    let mut first_of_code: HashMap<u32, usize> = HashMap::new();
    for (index, item) in instance.items.iter().enumerate() {
        let first = *first_of_code.entry(item.code).or_insert(index);
        let model = &instance.items[first];
        if (item.length, item.width) != (model.length, model.width) {
            return refuse(CODE_CLASH, [index as u32 + 1, first as u32 + 1, 0]);
        }
    }
    Ok(())
}

pub fn check(loading: &Loading) -> Verdict {
    each_once(loading)?;
    each_item(loading, PLANT, |stack, item| item.plant == stack.truck.plant)?;
    each_item(loading, PRODUCT, |stack, item| {
        stack.truck.products.contains(&item.product)
    })?;
    each_item(loading, SUPPLIER, |stack, item| {
        stack.truck.suppliers.contains(&item.supplier)
    })?;
    each_item(loading, DAY, |stack, item| {
        (item.earliest..=item.latest).contains(&stack.truck.arrival)
    })?;
    each_item(loading, DOCK, |stack, item| docks_listed(stack.truck, item))
}

fn docks_listed(truck: &Truck, item: &Item) -> bool {
    truck.dock_order(item.supplier, item.supplier_dock).is_some() && truck.plant_dock_order(item.plant_dock).is_some()
}

fn each_once(loading: &Loading) -> Verdict {
    let mut times = vec![0; loading.instance.items.len()];
    for stack in &loading.stacks {
        for &number in stack.load {
            times[number as usize - 1] += 1;
        }
    }
    match times.iter().position(|&count| count != 1) {
        Some(index) => refuse(NOT_ONCE, [index as u32 + 1, times[index], 0]),
        None => Ok(()),
    }
}

/// Refuses at the lowest stack, and in it at the lowest item, that does not fit.
pub fn each_item(loading: &Loading, number: u32, fits: impl Fn(&LoadedStack, &Item) -> bool) -> Verdict {
    for stack in &loading.stacks {
        let unfit = loading.items(stack).filter(|(_, item)| !fits(stack, item));
        if let Some(lowest) = unfit.map(|(item_number, _)| item_number).min() {
            return refuse(number, [stack.number, lowest, 0]);
        }
    }
    Ok(())
}
