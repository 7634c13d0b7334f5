//! The working table: where each number of the two files stands.

use crate::model::{Instance, Plan, Truck};

/// Words the table names; a lent table may be longer.
pub const NAMED_WORDS: usize = 8_976;

pub(crate) const ITEMS: usize = 16;
pub(crate) const ITEM_WORDS: usize = 16;
pub(crate) const TRUCKS: usize = 4_112;
pub(crate) const TRUCK_WORDS: usize = 160;
pub(crate) const STACKS: usize = 6_672;
pub(crate) const STACK_WORDS: usize = 8;
pub(crate) const LOADS: usize = 8_720;

pub(crate) const PRODUCT_COUNT: usize = 20;
pub(crate) const PRODUCTS: usize = 21;
pub(crate) const SUPPLIER_COUNT: usize = 53;
pub(crate) const SUPPLIERS: usize = 54;
pub(crate) const DOCK_COUNTS: usize = 62;
pub(crate) const DOCKS: usize = 70;
pub(crate) const DOCKS_PER_SUPPLIER: usize = 8;
pub(crate) const PLANT_DOCK_COUNT: usize = 134;
pub(crate) const PLANT_DOCKS: usize = 135;

/// Fills a table whose named words are zero.
pub fn fill(table: &mut [u32], instance: &Instance, plan: &Plan) {
    table[0] = instance.transport;
    table[1] = instance.inventory;
    table[2] = instance.extra;
    table[3] = instance.items.len() as u32;
    table[4] = instance.trucks.len() as u32;
    table[5] = plan.stacks.len() as u32;
    for (index, item) in instance.items.iter().enumerate() {
        put(table, ITEMS + index * ITEM_WORDS, &item.fields());
    }
    for (index, truck) in instance.trucks.iter().enumerate() {
        let start = TRUCKS + index * TRUCK_WORDS;
        fill_truck(&mut table[start..start + TRUCK_WORDS], truck);
    }
    fill_stacks(table, plan);
}

fn put(words: &mut [u32], at: usize, values: &[u32]) {
    words[at..at + values.len()].copy_from_slice(values);
}

fn fill_truck(words: &mut [u32], truck: &Truck) {
    put(words, 0, &truck.fields());
    words[PRODUCT_COUNT] = truck.products.len() as u32;
    put(words, PRODUCTS, &truck.products);
    words[SUPPLIER_COUNT] = truck.suppliers.len() as u32;
    put(words, SUPPLIERS, &truck.suppliers);
    for (supplier, docks) in truck.docks.iter().enumerate() {
        words[DOCK_COUNTS + supplier] = docks.len() as u32;
        put(words, DOCKS + supplier * DOCKS_PER_SUPPLIER, docks);
    }
    words[PLANT_DOCK_COUNT] = truck.plant_docks.len() as u32;
    put(words, PLANT_DOCKS, &truck.plant_docks);
}

fn fill_stacks(table: &mut [u32], plan: &Plan) {
    let mut first_load = 0;
    for (index, stack) in plan.stacks.iter().enumerate() {
        let start = STACKS + index * STACK_WORDS;
        put(table, start, &stack.fields());
        table[start + 6] = first_load as u32;
        table[start + 7] = stack.load.len() as u32;
        put(table, LOADS + first_load, &stack.load);
        first_load += stack.load.len();
    }
}
