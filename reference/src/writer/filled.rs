//! Whether a readable pair of files fills a table. It is told from the words alone, so nothing is written before it is known.

use crate::table::{
    DOCKS, DOCKS_PER_SUPPLIER, DOCK_COUNTS, ITEMS, ITEM_WORDS, LOADS, NAMED_WORDS, PLANT_DOCKS, PLANT_DOCK_COUNT,
    PRODUCTS, PRODUCT_COUNT, STACKS, STACK_WORDS, SUPPLIERS, SUPPLIER_COUNT, TRUCKS, TRUCK_WORDS,
};
use std::slice::ChunksExact;

/// Least and most of a number.
type Range = (u32, u32);

const COEFFICIENT: Range = (0, 1_000);
const EXTENT: Range = (1, 20_000);
const DISTANCE: Range = (0, 20_000);
const WEIGHT: Range = (0, 50_000);
const WEIGHT_NOT_ZERO: Range = (1, 50_000);
const IDENTIFIER: Range = (1, 65_535);
const DAY: Range = (0, 399);
const LOAD_COUNT: Range = (1, 64);

/// The three coefficients of the cost; then how many items, trucks and stacks there are.
const HEAD: [Range; 6] = [COEFFICIENT, COEFFICIENT, COEFFICIENT, (1, 256), (1, 16), (0, 256)];

/// Bounds that do not depend on another field.
const ITEM: [Range; ITEM_WORDS] = [
    EXTENT,
    EXTENT,
    EXTENT,
    DISTANCE,
    WEIGHT_NOT_ZERO,
    IDENTIFIER,
    (1, 64),
    IDENTIFIER,
    (0, 2),
    DAY,
    DAY,
    IDENTIFIER,
    IDENTIFIER,
    IDENTIFIER,
    IDENTIFIER,
    (0, 100_000),
];
const LENGTH: usize = 0;
const WIDTH: usize = 1;
const HEIGHT: usize = 2;
const NESTING: usize = 3;
const CODE: usize = 5;
const EARLIEST: usize = 9;
const LATEST: usize = 10;

/// The truck itself, its tractor and its trailer.
const TRUCK: [Range; PRODUCT_COUNT] = [
    EXTENT,
    EXTENT,
    EXTENT,
    WEIGHT_NOT_ZERO,
    IDENTIFIER,
    DAY,
    WEIGHT,
    (0, 1),
    (1, 100_000),
    (0, 1_000_000),
    WEIGHT,
    EXTENT,
    DISTANCE,
    DISTANCE,
    WEIGHT,
    EXTENT,
    DISTANCE,
    DISTANCE,
    WEIGHT_NOT_ZERO,
    WEIGHT_NOT_ZERO,
];
const PLANT_DOCKS_END: usize = PLANT_DOCKS + 8;

/// Number, truck, copy, x, y and orientation; the trucks that there are bound the second.
const STACK: [Range; 6] = [IDENTIFIER, (1, 16), (0, 99), DISTANCE, DISTANCE, (1, 2)];
const NUMBER: usize = 0;
const TRUCK_OF_STACK: usize = 1;
const FIRST_LOAD: usize = 6;
pub const LOADED: usize = 7;

/// The rows in use of a table that a readable pair of files fills.
pub struct Filled<'a> {
    pub head: &'a [u32],
    items: &'a [u32],
    trucks: &'a [u32],
    stacks: &'a [u32],
    pub loads: &'a [u32],
}

impl<'a> Filled<'a> {
    /// None for any other table.
    pub fn new(table: &'a [u32]) -> Option<Self> {
        let rows = Filled::cut(table.get(..NAMED_WORDS)?)?;
        (rows.instance_is_readable() && rows.plan_is_readable()).then_some(rows)
    }

    /// The rows as the counts tell them, with nothing but zeros beside them.
    fn cut(words: &'a [u32]) -> Option<Self> {
        let head = used(&words[..ITEMS], HEAD.len())?;
        if !within(head, &HEAD) {
            return None;
        }
        let count = |place: usize| head[place] as usize;
        let stacks = used(&words[STACKS..LOADS], count(5) * STACK_WORDS)?;
        Some(Filled {
            head,
            items: used(&words[ITEMS..TRUCKS], count(3) * ITEM_WORDS)?,
            trucks: used(&words[TRUCKS..STACKS], count(4) * TRUCK_WORDS)?,
            stacks,
            loads: used(&words[LOADS..], loads_in_turn(stacks)?)?,
        })
    }

    pub fn items(&self) -> ChunksExact<'a, u32> {
        self.items.chunks_exact(ITEM_WORDS)
    }

    pub fn trucks(&self) -> ChunksExact<'a, u32> {
        self.trucks.chunks_exact(TRUCK_WORDS)
    }

    pub fn stacks(&self) -> ChunksExact<'a, u32> {
        self.stacks.chunks_exact(STACK_WORDS)
    }

    fn instance_is_readable(&self) -> bool {
        self.items().all(item_is_readable) && codes_agree(self.items()) && self.trucks().all(truck_is_readable)
    }

    fn plan_is_readable(&self) -> bool {
        let items = self.items().len() as u32;
        let trucks = self.trucks().len() as u32;
        self.stacks()
            .all(|stack| within(stack, &STACK) && stack[TRUCK_OF_STACK] <= trucks)
            && numbers_differ(self.stacks())
            && self.loads.iter().all(|&item| is_within(item, (1, items)))
    }
}

fn is_within(word: u32, (least, most): Range) -> bool {
    least <= word && word <= most
}

/// Words beyond the ranges are not looked at.
fn within(words: &[u32], ranges: &[Range]) -> bool {
    words.iter().zip(ranges).all(|(&word, &range)| is_within(word, range))
}

/// The words in use; none where there are not that many, or where one behind them is not zero.
fn used(words: &[u32], count: usize) -> Option<&[u32]> {
    let (front, behind) = words.split_at_checked(count)?;
    is_zero(behind).then_some(front)
}

/// Without an early end, so that many words are looked at in one step.
fn is_zero(words: &[u32]) -> bool {
    words.iter().fold(0, |all, &word| all | word) == 0
}

/// How many load entries there are; none where a stack's do not begin where those of the stack before it end.
fn loads_in_turn(stacks: &[u32]) -> Option<usize> {
    let mut total = 0;
    for stack in stacks.chunks_exact(STACK_WORDS) {
        if stack[FIRST_LOAD] != total || !is_within(stack[LOADED], LOAD_COUNT) {
            return None;
        }
        total += stack[LOADED];
    }
    Some(total as usize)
}

fn item_is_readable(item: &[u32]) -> bool {
    within(item, &ITEM) && item[WIDTH] <= item[LENGTH] && item[NESTING] < item[HEIGHT] && item[EARLIEST] <= item[LATEST]
}

/// Items of one code share length and width. Sorted, those of a code are neighbours.
fn codes_agree(items: ChunksExact<u32>) -> bool {
    let mut sorted = [[0; 3]; 256];
    let sorted = &mut sorted[..items.len()];
    for (entry, item) in sorted.iter_mut().zip(items) {
        *entry = [item[CODE], item[LENGTH], item[WIDTH]];
    }
    sorted.sort_unstable();
    sorted
        .windows(2)
        .all(|pair| pair[0][0] != pair[1][0] || pair[0] == pair[1])
}

fn truck_is_readable(truck: &[u32]) -> bool {
    within(truck, &TRUCK)
        && list_is_readable(truck[PRODUCT_COUNT], &truck[PRODUCTS..SUPPLIER_COUNT])
        && list_is_readable(truck[SUPPLIER_COUNT], &truck[SUPPLIERS..DOCK_COUNTS])
        && docks_are_readable(truck)
        && list_is_readable(truck[PLANT_DOCK_COUNT], &truck[PLANT_DOCKS..PLANT_DOCKS_END])
        && is_zero(&truck[PLANT_DOCKS_END..])
}

/// A list for each supplier, and zeros where there is no supplier.
fn docks_are_readable(truck: &[u32]) -> bool {
    let suppliers = truck[SUPPLIER_COUNT] as usize;
    let (counts, none) = truck[DOCK_COUNTS..DOCKS].split_at(suppliers);
    let (docks, behind) = truck[DOCKS..PLANT_DOCK_COUNT].split_at(suppliers * DOCKS_PER_SUPPLIER);
    let mut lists = counts.iter().zip(docks.chunks_exact(DOCKS_PER_SUPPLIER));
    lists.all(|(&count, list)| list_is_readable(count, list)) && is_zero(none) && is_zero(behind)
}

/// At least one entry, all of them different identifiers.
fn list_is_readable(count: u32, room: &[u32]) -> bool {
    let Some(entries) = used(room, count as usize) else {
        return false;
    };
    !entries.is_empty()
        && entries.iter().all(|&entry| is_within(entry, IDENTIFIER))
        && (1..entries.len()).all(|place| !entries[..place].contains(&entries[place]))
}

/// Whether no stack number comes twice; each is an identifier, so a bit for each of these is enough.
fn numbers_differ(mut stacks: ChunksExact<u32>) -> bool {
    let mut seen = [0u64; 1_024];
    stacks.all(|stack| {
        let (word, bit) = (stack[NUMBER] / 64, 1 << (stack[NUMBER] % 64));
        let before = seen[word as usize];
        seen[word as usize] = before | bit;
        before & bit == 0
    })
}
