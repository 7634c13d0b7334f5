//! A filled table with several words changed together, so that counts and entries still go with each other: lists, rows and loads that are
//! one longer, one shorter or empty.

use super::ChangedTable;
use crate::table::{
    DOCKS, DOCKS_PER_SUPPLIER, DOCK_COUNTS, ITEMS, ITEM_WORDS, LOADS, NAMED_WORDS, PLANT_DOCKS, PLANT_DOCK_COUNT,
    PRODUCTS, PRODUCT_COUNT, STACKS, STACK_WORDS, SUPPLIERS, SUPPLIER_COUNT, TRUCKS, TRUCK_WORDS,
};
use std::ops::Range;

const ITEM_COUNT: usize = 3;
const TRUCK_COUNT: usize = 4;
const STACK_COUNT: usize = 5;
const FIRST_LOAD: usize = 6;
const LOAD_COUNT: usize = 7;

struct Edits<'a> {
    table: &'a [u32],
    made: Vec<ChangedTable>,
}

pub fn edited(table: &[u32]) -> Vec<ChangedTable> {
    let mut edits = Edits {
        table,
        made: Vec::new(),
    };
    let trucks = edits.count(TRUCK_COUNT);
    for truck in [0, trucks - 1] {
        edits.add_lists(TRUCKS + truck * TRUCK_WORDS);
        edits.add_suppliers(TRUCKS + truck * TRUCK_WORDS);
    }
    edits.add_rows("item", ITEM_COUNT, ITEMS..TRUCKS, ITEM_WORDS);
    edits.add_rows("truck", TRUCK_COUNT, TRUCKS..STACKS, TRUCK_WORDS);
    edits.add_without_stacks();
    if edits.count(STACK_COUNT) > 0 {
        edits.add_last_stack();
    }
    edits.made
}

impl Edits<'_> {
    fn count(&self, at: usize) -> usize {
        self.table[at] as usize
    }

    fn add(&mut self, kind: String, edit: impl FnOnce(&mut [u32])) {
        let mut words = self.table.to_vec();
        edit(&mut words);
        self.made.push(ChangedTable {
            kind: format!("together, {kind}"),
            words,
        });
    }

    /// All lists of a truck but that of the suppliers, which goes with the docks.
    fn add_lists(&mut self, truck: usize) {
        let last_supplier = self.count(truck + SUPPLIER_COUNT) - 1;
        self.add_list(
            "products",
            truck + PRODUCT_COUNT,
            truck + PRODUCTS..truck + SUPPLIER_COUNT,
        );
        for supplier in [0, last_supplier] {
            let docks = truck + DOCKS + supplier * DOCKS_PER_SUPPLIER;
            self.add_list(
                "docks",
                truck + DOCK_COUNTS + supplier,
                docks..docks + DOCKS_PER_SUPPLIER,
            );
        }
        let plant_docks = truck + PLANT_DOCKS;
        self.add_list("plant docks", truck + PLANT_DOCK_COUNT, plant_docks..plant_docks + 8);
    }

    fn add_list(&mut self, kind: &str, count: usize, room: Range<usize>) {
        let used = self.count(count);
        let entries = &self.table[room.clone()][..used];
        let (first, other) = (entries[0], unused(entries));
        self.add(format!("no {kind} at {count}"), |words| {
            words[count] = 0;
            words[room.clone()].fill(0);
        });
        self.add(format!("one of the {kind} at {count} less"), |words| {
            words[count] -= 1;
            words[room.start + used - 1] = 0;
        });
        if used == room.len() {
            return;
        }
        for (what, entry) in [("another", other), ("a repeat", first)] {
            self.add(format!("{what} among the {kind} at {count}"), |words| {
                words[count] += 1;
                words[room.start + used] = entry;
            });
        }
    }

    /// The last supplier with its docks, and one more.
    fn add_suppliers(&mut self, truck: usize) {
        let used = self.count(truck + SUPPLIER_COUNT);
        let other = unused(&self.table[truck + SUPPLIERS..][..used]);
        let docks = |supplier| truck + DOCKS + supplier * DOCKS_PER_SUPPLIER;
        self.add(format!("a supplier less at {truck}"), |words| {
            words[truck + SUPPLIER_COUNT] -= 1;
            words[truck + SUPPLIERS + used - 1] = 0;
            words[truck + DOCK_COUNTS + used - 1] = 0;
            words[docks(used - 1)..docks(used)].fill(0);
        });
        if used == DOCK_COUNTS - SUPPLIERS {
            return;
        }
        for (what, dock_count) in [("a supplier more", 1), ("a supplier without docks", 0)] {
            self.add(format!("{what} at {truck}"), |words| {
                words[truck + SUPPLIER_COUNT] += 1;
                words[truck + SUPPLIERS + used] = other;
                words[truck + DOCK_COUNTS + used] = dock_count;
                words[docks(used)] = dock_count;
            });
        }
    }

    /// The last row gone, and there twice.
    fn add_rows(&mut self, kind: &str, count: usize, part: Range<usize>, width: usize) {
        let end = part.start + self.count(count) * width;
        self.add(format!("the last {kind} gone"), |words| {
            words[count] -= 1;
            words[end - width..end].fill(0);
        });
        if end < part.end {
            self.add(format!("the last {kind} twice"), |words| {
                words[count] += 1;
                words.copy_within(end - width..end, end);
            });
        }
    }

    /// An empty plan is readable; one without items or trucks is not.
    fn add_without_stacks(&mut self) {
        for (kind, count, part) in [
            ("stacks", STACK_COUNT, STACKS..LOADS),
            ("items", ITEM_COUNT, ITEMS..TRUCKS),
            ("trucks", TRUCK_COUNT, TRUCKS..STACKS),
        ] {
            self.add(format!("no stacks, no {kind}"), |words| {
                words[STACK_COUNT] = 0;
                words[STACKS..NAMED_WORDS].fill(0);
                words[count] = 0;
                words[part].fill(0);
            });
        }
    }

    fn add_last_stack(&mut self) {
        let end = STACKS + self.count(STACK_COUNT) * STACK_WORDS;
        let last = end - STACK_WORDS;
        let first_load = LOADS + self.count(last + FIRST_LOAD);
        let load_end = first_load + self.count(last + LOAD_COUNT);
        self.add("the last stack gone".to_string(), |words| {
            words[STACK_COUNT] -= 1;
            words[last..end].fill(0);
            words[first_load..load_end].fill(0);
        });
        self.add("the last stack empty".to_string(), |words| {
            words[last + LOAD_COUNT] = 0;
            words[first_load..load_end].fill(0);
        });
        if load_end < NAMED_WORDS {
            self.add("an entry more in the last load".to_string(), |words| {
                words[last + LOAD_COUNT] += 1;
                words[load_end] = 1;
            });
            self.add_stacks(end, load_end);
        }
    }

    /// A stack more, with a number of its own and with that of the stack before it.
    fn add_stacks(&mut self, end: usize, load_end: usize) {
        if end == LOADS {
            return;
        }
        let numbers: Vec<u32> = self.table[STACKS..end]
            .chunks(STACK_WORDS)
            .map(|stack| stack[0])
            .collect();
        for (what, number) in [
            ("a stack more", unused(&numbers)),
            ("a number twice", numbers[numbers.len() - 1]),
        ] {
            self.add(what.to_string(), |words| {
                words[STACK_COUNT] += 1;
                words[end..end + STACK_WORDS].copy_from_slice(&[number, 1, 0, 0, 0, 1, (load_end - LOADS) as u32, 1]);
                words[load_end] = 1;
            });
        }
    }
}

/// The least identifier that is not in the list.
fn unused(list: &[u32]) -> u32 {
    let unused = (1..=65_535).find(|identifier| !list.contains(identifier));
    unused.expect("a list is shorter than that")
}
