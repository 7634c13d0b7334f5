//! Reads the two files into the model. The first bad line ends the reading.

use crate::model::{Instance, Item, Plan, Stack, Tractor, Trailer, Truck};
use crate::text::{BadLine, Fault, LineReader};
use std::collections::HashSet;

const LONGEST: u32 = 20_000;
const HEAVIEST: u32 = 50_000;
const LAST_DAY: u32 = 399;
const LAST_IDENTIFIER: u32 = 65_535;
const MOST_LOADED: usize = 256;

fn within(value: u64, low: u32, high: u32) -> Option<u32> {
    let value = u32::try_from(value).ok()?;
    (low..=high).contains(&value).then_some(value)
}

fn identifier(value: u64) -> Option<u32> {
    within(value, 1, LAST_IDENTIFIER)
}

fn distance(value: u64) -> Option<u32> {
    within(value, 0, LONGEST)
}

fn single_within(lines: &mut LineReader, key: &str, low: u32, high: u32) -> Result<u32, BadLine> {
    let value = lines.single(key)?;
    within(value, low, high).ok_or(lines.bad(Fault::Range))
}

pub fn read_instance(file: &[u8]) -> Result<Instance, BadLine> {
    let mut lines = LineReader::new(file);
    let transport = single_within(&mut lines, "transport=", 0, 1000)?;
    let inventory = single_within(&mut lines, "inventory=", 0, 1000)?;
    let extra = single_within(&mut lines, "extra=", 0, 1000)?;
    let item_count = single_within(&mut lines, "items=", 1, 256)?;
    let truck_count = single_within(&mut lines, "trucks=", 1, 16)?;
    let items = (0..item_count)
        .map(|_| read_item(&mut lines))
        .collect::<Result<Vec<_>, _>>()?;
    let trucks = (0..truck_count)
        .map(|_| read_truck(&mut lines))
        .collect::<Result<Vec<_>, _>>()?;
    lines.finish()?;
    Ok(Instance {
        transport,
        inventory,
        extra,
        items,
        trucks,
    })
}

fn read_item(lines: &mut LineReader) -> Result<Item, BadLine> {
    let item = item_from(lines.entries("item=", 16..=16)?);
    item.ok_or(lines.bad(Fault::Range))
}

fn item_from(fields: &[u64]) -> Option<Item> {
    let length = within(fields[0], 1, LONGEST)?;
    let height = within(fields[2], 1, LONGEST)?;
    let earliest = within(fields[9], 0, LAST_DAY)?;
    Some(Item {
        length,
        width: within(fields[1], 1, length)?,
        height,
        nesting: within(fields[3], 0, height - 1)?,
        weight: within(fields[4], 1, HEAVIEST)?,
        code: identifier(fields[5])?,
        max_stackability: within(fields[6], 1, 64)?,
        product: identifier(fields[7])?,
        forced_orientation: within(fields[8], 0, 2)?,
        earliest,
        latest: within(fields[10], earliest, LAST_DAY)?,
        plant: identifier(fields[11])?,
        plant_dock: identifier(fields[12])?,
        supplier: identifier(fields[13])?,
        supplier_dock: identifier(fields[14])?,
        daily_cost: within(fields[15], 0, 100_000)?,
    })
}

fn read_truck(lines: &mut LineReader) -> Result<Truck, BadLine> {
    let fields = truck_from(lines.entries("truck=", 20..=20)?);
    let mut truck = fields.ok_or(lines.bad(Fault::Range))?;
    truck.products = read_list(lines, "products=", 32)?;
    truck.suppliers = read_list(lines, "suppliers=", 8)?;
    for _ in 0..truck.suppliers.len() {
        truck.docks.push(read_list(lines, "docks=", 8)?);
    }
    truck.plant_docks = read_list(lines, "plantdocks=", 8)?;
    Ok(truck)
}

/// The truck of a `truck=` line, its lists still empty.
fn truck_from(fields: &[u64]) -> Option<Truck> {
    Some(Truck {
        length: within(fields[0], 1, LONGEST)?,
        width: within(fields[1], 1, LONGEST)?,
        height: within(fields[2], 1, LONGEST)?,
        load_limit: within(fields[3], 1, HEAVIEST)?,
        plant: identifier(fields[4])?,
        arrival: within(fields[5], 0, LAST_DAY)?,
        limit_above: within(fields[6], 0, HEAVIEST)?,
        two_docks: within(fields[7], 0, 1)?,
        density_limit: within(fields[8], 1, 100_000)?,
        cost: within(fields[9], 0, 1_000_000)?,
        tractor: tractor_from(&fields[10..14])?,
        trailer: trailer_from(&fields[14..20])?,
        products: Vec::new(),
        suppliers: Vec::new(),
        docks: Vec::new(),
        plant_docks: Vec::new(),
    })
}

fn tractor_from(fields: &[u64]) -> Option<Tractor> {
    Some(Tractor {
        weight: within(fields[0], 0, HEAVIEST)?,
        to_middle: within(fields[1], 1, LONGEST)?,
        to_centre: distance(fields[2])?,
        to_harness: distance(fields[3])?,
    })
}

fn trailer_from(fields: &[u64]) -> Option<Trailer> {
    Some(Trailer {
        weight: within(fields[0], 0, HEAVIEST)?,
        harness_to_rear: within(fields[1], 1, LONGEST)?,
        centre_to_rear: distance(fields[2])?,
        end_to_harness: distance(fields[3])?,
        rear_limit: within(fields[4], 1, HEAVIEST)?,
        middle_limit: within(fields[5], 1, HEAVIEST)?,
    })
}

fn read_list(lines: &mut LineReader, key: &str, most: usize) -> Result<Vec<u32>, BadLine> {
    let list = distinct_identifiers(lines.entries(key, 1..=most)?);
    list.ok_or(lines.bad(Fault::Range))
}

fn distinct_identifiers(entries: &[u64]) -> Option<Vec<u32>> {
    let mut list = Vec::with_capacity(entries.len());
    for &entry in entries {
        let entry = identifier(entry)?;
        if list.contains(&entry) {
            return None;
        }
        list.push(entry);
    }
    Some(list)
}

/// Reads a plan against an instance of that many items and trucks.
pub fn read_plan(file: &[u8], items: usize, trucks: usize) -> Result<Plan, BadLine> {
    let mut lines = LineReader::new(file);
    let stack_count = single_within(&mut lines, "stacks=", 0, 256)?;
    let mut stacks = Vec::with_capacity(stack_count as usize);
    let mut numbers = HashSet::new();
    let mut loaded = 0;
    for _ in 0..stack_count {
        let mut stack = read_stack(&mut lines, trucks)?;
        if !numbers.insert(stack.number) {
            return Err(lines.bad(Fault::Range));
        }
        stack.load = read_load(&mut lines, items)?;
        loaded += stack.load.len();
        if loaded > MOST_LOADED {
            return Err(lines.bad(Fault::Range));
        }
        stacks.push(stack);
    }
    lines.finish()?;
    Ok(Plan { stacks })
}

fn read_stack(lines: &mut LineReader, trucks: usize) -> Result<Stack, BadLine> {
    let stack = stack_from(lines.entries("stack=", 6..=6)?, trucks);
    stack.ok_or(lines.bad(Fault::Range))
}

/// The stack of a `stack=` line, its load still empty.
fn stack_from(fields: &[u64], trucks: usize) -> Option<Stack> {
    Some(Stack {
        number: within(fields[0], 1, 65_535)?,
        truck: within(fields[1], 1, trucks as u32)?,
        copy: within(fields[2], 0, 99)?,
        x: distance(fields[3])?,
        y: distance(fields[4])?,
        orientation: within(fields[5], 1, 2)?,
        load: Vec::new(),
    })
}

fn read_load(lines: &mut LineReader, items: usize) -> Result<Vec<u32>, BadLine> {
    let entries = lines.entries("load=", 1..=64)?;
    let load: Option<Vec<u32>> = entries.iter().map(|&item| within(item, 1, items as u32)).collect();
    load.ok_or(lines.bad(Fault::Range))
}
