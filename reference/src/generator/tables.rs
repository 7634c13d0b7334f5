//! A filled table with one word changed, or two exchanged: places of every kind, and the same changes at each.

use crate::table::{
    DOCKS, DOCKS_PER_SUPPLIER, DOCK_COUNTS, ITEMS, ITEM_WORDS, LOADS, NAMED_WORDS, PLANT_DOCKS, PLANT_DOCK_COUNT,
    PRODUCTS, PRODUCT_COUNT, STACKS, STACK_WORDS, SUPPLIERS, SUPPLIER_COUNT, TRUCKS, TRUCK_WORDS,
};
use std::ops::Range;

/// A table, and a word on what was changed in it.
#[derive(Debug, Clone, PartialEq, Eq)]
pub struct ChangedTable {
    pub kind: String,
    pub words: Vec<u32>,
}

#[derive(Debug, Clone, Copy)]
enum Change {
    Up,
    Down,
    Zero,
    Largest,
    ExchangedWithNext,
    ExchangedWithLike,
}

const CHANGES: [Change; 6] = [
    Change::Up,
    Change::Down,
    Change::Zero,
    Change::Largest,
    Change::ExchangedWithNext,
    Change::ExchangedWithLike,
];

/// A word to change, and another one of its kind: itself where there is none.
struct Place {
    kind: &'static str,
    at: usize,
    like: usize,
}

/// All changes that make a difference.
pub fn changed(table: &[u32]) -> impl Iterator<Item = ChangedTable> + '_ {
    let changes = |place: Place| CHANGES.map(|change| (place.kind, place.at, place.like, change));
    let all = places(table).into_iter().flat_map(changes);
    all.filter_map(move |(kind, at, like, change)| {
        let words = change.made(table, at, like)?;
        (words != table).then(|| ChangedTable {
            kind: format!("{kind}, word {at}: {change:?}"),
            words,
        })
    })
}

impl Change {
    /// The changed table; none where no word is next.
    fn made(self, table: &[u32], at: usize, like: usize) -> Option<Vec<u32>> {
        let mut words = table.to_vec();
        match self {
            Change::Up => words[at] = words[at].wrapping_add(1),
            Change::Down => words[at] = words[at].wrapping_sub(1),
            Change::Zero => words[at] = 0,
            Change::Largest => words[at] = u32::MAX,
            Change::ExchangedWithNext if at + 1 == words.len() => return None,
            Change::ExchangedWithNext => words.swap(at, at + 1),
            Change::ExchangedWithLike => words.swap(at, like),
        }
        Some(words)
    }
}

/// The first, a middle and the last one in use, the first one behind, and the last one that there is room for.
fn chosen(count: usize, room: usize) -> Vec<usize> {
    let mut rows = vec![0, count / 2, count.saturating_sub(1), count, room - 1];
    rows.retain(|&row| row < room);
    rows.sort_unstable();
    rows.dedup();
    rows
}

/// A row in use that is not this one, if there are two.
fn another(row: usize, count: usize) -> usize {
    if row == 0 {
        count.saturating_sub(1)
    } else {
        0
    }
}

fn places(table: &[u32]) -> Vec<Place> {
    let count = |at: usize| table[at] as usize;
    let loaded = table[LOADS..NAMED_WORDS].iter().filter(|&&entry| entry != 0).count();
    let mut places = head();
    places.extend(rows("item", ITEMS..TRUCKS, ITEM_WORDS, count(3)));
    places.extend(trucks(table, count(4)));
    places.extend(rows("stack", STACKS..LOADS, STACK_WORDS, count(5)));
    places.extend(rows("load entry", LOADS..NAMED_WORDS, 1, loaded));
    places.extend(rows("word beyond", NAMED_WORDS..table.len(), 1, 0));
    places
}

/// Every word of the head. Coefficients are alike, and counts are.
fn head() -> Vec<Place> {
    let place = |at: usize| Place {
        kind: "head",
        at,
        like: at / 3 * 3 + (at + 1) % 3,
    };
    (0..ITEMS - 1).map(place).chain([alone("head", ITEMS - 1)]).collect()
}

fn alone(kind: &'static str, at: usize) -> Place {
    Place { kind, at, like: at }
}

/// Every word of the chosen rows. Those at the same place of two rows are alike.
fn rows(kind: &'static str, part: Range<usize>, width: usize, count: usize) -> Vec<Place> {
    if part.is_empty() {
        return Vec::new();
    }
    let rows = chosen(count, part.len() / width);
    let word = |row: usize, place: usize| part.start + row * width + place;
    let places = rows.iter().flat_map(|&row| (0..width).map(move |place| (row, place)));
    places
        .map(|(row, place)| Place {
            kind,
            at: word(row, place),
            like: word(another(row, count), place),
        })
        .collect()
}

fn trucks(table: &[u32], count: usize) -> Vec<Place> {
    let mut places = Vec::new();
    for row in chosen(count, (STACKS - TRUCKS) / TRUCK_WORDS) {
        let truck = &table[TRUCKS + row * TRUCK_WORDS..][..TRUCK_WORDS];
        let other = another(row, count);
        places.extend(truck_places(truck).into_iter().map(|(kind, at, like)| Place {
            kind,
            at: TRUCKS + row * TRUCK_WORDS + at,
            like: TRUCKS + like.map_or(other * TRUCK_WORDS + at, |like| row * TRUCK_WORDS + like),
        }));
    }
    places
}

/// A word of a truck, and one of its kind in the same truck; otherwise the other truck's is meant.
type TruckPlace = (&'static str, usize, Option<usize>);

fn truck_places(truck: &[u32]) -> Vec<TruckPlace> {
    const SPARE: usize = PLANT_DOCKS + 8;
    let mut places: Vec<TruckPlace> = (0..PRODUCT_COUNT).map(|field| ("truck field", field, None)).collect();
    places.extend(list("product", truck, PRODUCT_COUNT, PRODUCTS..SUPPLIER_COUNT));
    places.extend(list("supplier", truck, SUPPLIER_COUNT, SUPPLIERS..DOCK_COUNTS));
    for supplier in chosen(truck[SUPPLIER_COUNT] as usize, DOCKS - DOCK_COUNTS) {
        let docks = DOCKS + supplier * DOCKS_PER_SUPPLIER;
        places.extend(list(
            "dock",
            truck,
            DOCK_COUNTS + supplier,
            docks..docks + DOCKS_PER_SUPPLIER,
        ));
    }
    places.extend(list("plant dock", truck, PLANT_DOCK_COUNT, PLANT_DOCKS..SPARE));
    places.extend(
        chosen(1, TRUCK_WORDS - SPARE)
            .iter()
            .map(|spare| ("spare word", SPARE + spare, None)),
    );
    places
}

/// The count of a list, and entries in and behind it.
fn list(kind: &'static str, truck: &[u32], count: usize, entries: Range<usize>) -> Vec<TruckPlace> {
    let used = truck[count] as usize;
    let entry = |row: usize| (kind, entries.start + row, Some(entries.start + another(row, used)));
    let chosen = chosen(used, entries.len());
    [("count", count, None)]
        .into_iter()
        .chain(chosen.into_iter().map(entry))
        .collect()
}
