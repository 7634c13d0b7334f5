//! Every field at both ends of its range and one beyond each.

use super::damage::entries;
use super::reading::{kind_of, Cases, Kind, Load, ITEMS, KINDS, TRUCKS};

/// A field by its place in the line, with both ends of its range.
struct Field {
    name: String,
    place: usize,
    low: u64,
    high: u64,
}

type Range = (u64, u64);

const IDENTIFIER: Range = (1, 65_535);
const SIDE: Range = (1, 20_000);
const DISTANCE: Range = (0, 20_000);
const WEIGHT: Range = (0, 50_000);
const WEIGHT_LIMIT: Range = (1, 50_000);
const DAY: Range = (0, 399);

/// Places of the `item=` fields whose ranges bind each other.
const IL: usize = 0;
const IW: usize = 1;
const IH: usize = 2;
const NESTING: usize = 3;
const IDE: usize = 9;
const IDL: usize = 10;

pub fn add(cases: &mut Cases) {
    for kind in &KINDS {
        for field in fields(kind) {
            add_ends(cases, kind, &field);
        }
    }
    add_bound_fields(cases);
}

fn add_ends(cases: &mut Cases, kind: &Kind, field: &Field) {
    let below = field.low.checked_sub(1).map(|number| ("below", number));
    let others = [("low", field.low), ("high", field.high), ("above", field.high + 1)];
    for (end, number) in below.into_iter().chain(others) {
        let label = format!("{}-{}-{end}", kind.word(), field.name);
        cases.add_line(label, kind, |text, at| {
            text.set_entry(at, field.place, number.to_string().as_bytes());
        });
    }
}

fn fields(kind: &Kind) -> Vec<Field> {
    match kind.key {
        "transport=" | "inventory=" | "extra=" => in_order(&[("value", (0, 1000))]),
        "items=" | "stacks=" => in_order(&[("value", (u64::from(kind.key == "items="), 256))]),
        "trucks=" => in_order(&[("value", (1, 16))]),
        "item=" => item_fields(kind),
        "truck=" => truck_fields(),
        "stack=" => stack_fields(),
        "load=" => first_and_last(kind, (1, ITEMS as u64)),
        _ => first_and_last(kind, IDENTIFIER),
    }
}

fn in_order(ranges: &[(&str, Range)]) -> Vec<Field> {
    let field = |(place, &(name, (low, high))): (usize, &(&str, Range))| Field {
        name: name.to_string(),
        place,
        low,
        high,
    };
    ranges.iter().enumerate().map(field).collect()
}

/// The entries of a list have one range; its first and its last entry stand for them.
fn first_and_last(kind: &Kind, (low, high): Range) -> Vec<Field> {
    let mut load = Load::unchanged();
    let (text, at) = load.line_of(kind);
    let last = entries(&text.lines[at]).len() - 1;
    let field = |(name, place): (&str, usize)| Field {
        name: name.to_string(),
        place,
        low,
        high,
    };
    [("first", 0), ("last", last)].map(field).into()
}

/// Numbers of the item that is changed, by their places.
fn item_numbers(kind: &Kind) -> impl Fn(usize) -> u64 {
    let mut load = Load::unchanged();
    let (text, at) = load.line_of(kind);
    let numbers: Vec<u64> = (0..kind.most).filter_map(|place| text.number(at, place)).collect();
    move |place| numbers[place]
}

fn item_fields(kind: &Kind) -> Vec<Field> {
    let item = item_numbers(kind);
    in_order(&[
        ("IL", SIDE),
        ("IW", (1, item(IL))),
        ("IH", SIDE),
        ("nesting", (0, item(IH) - 1)),
        ("IM", WEIGHT_LIMIT),
        ("code", IDENTIFIER),
        ("stackability", (1, 64)),
        ("product", IDENTIFIER),
        ("orientation", (0, 2)),
        ("IDE", DAY),
        ("IDL", (item(IDE), 399)),
        ("plant", IDENTIFIER),
        ("plant-dock", IDENTIFIER),
        ("supplier", IDENTIFIER),
        ("supplier-dock", IDENTIFIER),
        ("IC", (0, 100_000)),
    ])
}

fn truck_fields() -> Vec<Field> {
    in_order(&[
        ("TL", SIDE),
        ("TW", SIDE),
        ("TH", SIDE),
        ("TMm", WEIGHT_LIMIT),
        ("plant", IDENTIFIER),
        ("TDA", DAY),
        ("TMM", WEIGHT),
        ("TF", (0, 1)),
        ("TEM", (1, 100_000)),
        ("TC", (0, 1_000_000)),
        ("CM", WEIGHT),
        ("CJfm", SIDE),
        ("CJfc", DISTANCE),
        ("CJfh", DISTANCE),
        ("EM", WEIGHT),
        ("EJhr", SIDE),
        ("EJcr", DISTANCE),
        ("EJeh", DISTANCE),
        ("EMmr", WEIGHT_LIMIT),
        ("EMmm", WEIGHT_LIMIT),
    ])
}

fn stack_fields() -> Vec<Field> {
    in_order(&[
        ("number", IDENTIFIER),
        ("truck", (1, TRUCKS as u64)),
        ("copy", (0, 99)),
        ("x", DISTANCE),
        ("y", DISTANCE),
        ("orientation", (1, 2)),
    ])
}

/// A field that bounds another, moved up to that bound and one past it, and both together at their ends.
fn add_bound_fields(cases: &mut Cases) {
    let kind = kind_of("item=");
    let item = item_numbers(kind);
    let changes: [(&str, &[(usize, u64)]); 14] = [
        ("IL-at-IW", &[(IL, item(IW))]),
        ("IL-under-IW", &[(IL, item(IW) - 1)]),
        ("IL-IW-lowest", &[(IL, 1), (IW, 1)]),
        ("IL-IW-highest", &[(IL, 20_000), (IW, 20_000)]),
        ("IH-over-nesting", &[(IH, item(NESTING) + 1)]),
        ("IH-at-nesting", &[(IH, item(NESTING))]),
        ("IH-nesting-lowest", &[(IH, 1), (NESTING, 0)]),
        ("IH-nesting-highest", &[(IH, 20_000), (NESTING, 19_999)]),
        ("IH-none-under-nesting", &[(IH, 1), (NESTING, 1)]),
        ("IH-zero-nesting-zero", &[(IH, 0), (NESTING, 0)]),
        ("IDE-at-IDL", &[(IDE, item(IDL))]),
        ("IDE-over-IDL", &[(IDE, item(IDL) + 1)]),
        ("IDE-IDL-lowest", &[(IDE, 0), (IDL, 0)]),
        ("IDE-IDL-highest", &[(IDE, 399), (IDL, 399)]),
    ];
    for (word, numbers) in changes {
        cases.add_line(format!("item-{word}"), kind, |text, at| {
            for &(place, number) in numbers {
                text.set_entry(at, place, number.to_string().as_bytes());
            }
        });
    }
}
