//! Files written back from tables: the same bytes as were read, every way of refusing, and nothing changed but the files.

mod common;

use common::buffers::{before, holds, is_refused, written};
use common::{edit, naive, INSTANCE, PLAN};
use reference::generator::{checking, random, reading, sized, Made};
use reference::table::NAMED_WORDS;
use reference::verdict::{SHORT_BUFFER, UNFILLED_TABLE};
use reference::writer::{write, Written};
use reference::{check, MOST_BYTES};

/// What words beyond the named ones hold.
const BEYOND: u32 = 4_000_000_000;

/// The table after a check, with so many words beyond the named ones; none where the files cannot be read.
fn filled(instance: &[u8], plan: &[u8], beyond: usize) -> Option<Vec<u32>> {
    let mut table = vec![BEYOND; NAMED_WORDS + beyond];
    let number = check(instance, plan, &mut table).number;
    (number == 0 || number > 8).then_some(table)
}

fn one_load() -> Vec<u32> {
    filled(INSTANCE.as_bytes(), PLAN.as_bytes(), 0).unwrap()
}

/// Whether the files can be read; then they have to be written back.
fn comes_back(made: &Made, beyond: usize) -> bool {
    let Some(table) = filled(&made.instance, &made.plan, beyond) else {
        return false;
    };
    let (answer, instance, plan) = written(&table, beyond);
    let expected = Written {
        number: 0,
        instance_length: made.instance.len(),
        plan_length: made.plan.len(),
    };
    assert_eq!(answer, expected, "{}", made.kind);
    assert!(holds(&instance, &made.instance), "{}", made.kind);
    assert!(holds(&plan, &made.plan), "{}", made.kind);
    true
}

/// How many of the cases can be read.
fn written_back(cases: impl IntoIterator<Item = Made>) -> usize {
    let lengths = [0, 1, 500].into_iter().cycle();
    let readable = cases
        .into_iter()
        .zip(lengths)
        .filter(|(made, more)| comes_back(made, *more));
    readable.count()
}

// A test of the stored cases holds them to these two lists.
#[test]
fn every_readable_stored_case_comes_back() {
    let count = written_back(reading().into_iter().chain(checking()));
    assert!(count >= 600, "{count}");
}

#[test]
fn random_cases_come_back() {
    let count = written_back(random(600, 30, false));
    assert!(count >= 400, "{count}");
}

#[test]
fn full_sizes_come_back() {
    let sizes = [8, 256]
        .into_iter()
        .flat_map(|stacks| [(stacks, true), (stacks, false)]);
    assert_eq!(
        written_back(sizes.map(|(stacks, one_truck)| sized(stacks, one_truck, 0))),
        4
    );
}

/// Every number has as many digits as it may, and every list is full.
#[test]
fn the_longest_files_have_room() {
    let mut instance = "transport=1000\ninventory=1000\nextra=1000\nitems=256\ntrucks=16\n".to_string();
    let item = "item=20000,20000,20000,19999,50000,65535,64,65535,2,399,399,65535,65535,65535,65535,100000\n";
    instance += &item.repeat(256);
    let identifiers = |count: u32| {
        let numbers: Vec<String> = (0..count).map(|place| (65_535 - place).to_string()).collect();
        numbers.join(",") + "\n"
    };
    let truck = "truck=20000,20000,20000,50000,65535,399,50000,1,100000,1000000,50000,20000,20000,20000,50000,20000,20000,20000,50000,50000\n";
    let (products, others) = (identifiers(32), identifiers(8));
    let docks = format!("docks={others}").repeat(8);
    instance += &format!("{truck}products={products}suppliers={others}{docks}plantdocks={others}").repeat(16);
    let mut plan = "stacks=256\n".to_string();
    for number in 65_280..65_536 {
        plan += &format!("stack={number},16,99,20000,20000,2\nload=256\n");
    }
    assert_eq!((instance.len(), plan.len()), (37_325, 10_507));
    let table = filled(instance.as_bytes(), plan.as_bytes(), 0).unwrap();
    let (answer, first, second) = written(&table, 0);
    assert_eq!(
        answer,
        Written {
            number: 0,
            instance_length: 37_325,
            plan_length: 10_507
        }
    );
    assert!(holds(&first, instance.as_bytes()) && holds(&second, plan.as_bytes()));
}

#[test]
fn a_short_buffer_is_told_before_a_bad_table() {
    let (good, short, empty) = (one_load(), vec![1; NAMED_WORDS - 1], vec![]);
    for table in [&good, &short, &empty] {
        for (first, second) in [
            (0, 0),
            (0, MOST_BYTES),
            (MOST_BYTES - 1, MOST_BYTES + 9),
            (MOST_BYTES, MOST_BYTES - 1),
        ] {
            let (mut instance, mut plan) = (before(first), before(second));
            let answer = write(table, &mut instance, &mut plan);
            let refused = Written {
                number: SHORT_BUFFER,
                instance_length: 0,
                plan_length: 0,
            };
            assert_eq!(answer, refused, "{first} and {second} bytes");
            assert!(
                instance == before(first) && plan == before(second),
                "{first} and {second} bytes"
            );
        }
    }
}

#[test]
fn the_numbers_are_those_of_the_request() {
    assert_eq!((SHORT_BUFFER, UNFILLED_TABLE), (29, 30));
}

#[test]
fn a_short_table_is_refused() {
    let table = one_load();
    for words in [0, 1, 6, 8720, NAMED_WORDS - 1] {
        assert!(is_refused(&table[..words], 30), "{words} words");
    }
    assert!(!is_refused(&table, 30));
}

#[test]
fn what_an_unreadable_pair_leaves_is_refused() {
    let clash = edit(INSTANCE, "item=1200,800,1000,100", "item=1200,799,1000,100");
    for (number, instance, plan) in [
        (5, "transport=1001\n", PLAN),
        (6, clash.as_str(), PLAN),
        (7, INSTANCE, ""),
    ] {
        let mut table = vec![BEYOND; NAMED_WORDS + 1];
        assert_eq!(check(instance.as_bytes(), plan.as_bytes(), &mut table).number, number);
        assert!(is_refused(&table, 30), "after {number}");
    }
}

/// Three items of two codes; two trucks, the first with two suppliers; two stacks, of one and of three items.
fn two_trucks() -> Vec<u32> {
    let instance = "transport=0
inventory=1000
extra=7
items=3
trucks=2
item=1200,800,1000,999,500,1,3,1,0,2,5,1,1,1,1,4
item=1200,1200,1000,100,400,2,64,1,2,0,399,1,1,1,1,100000
item=1200,800,1,0,50000,1,1,65535,1,7,7,2,3,4,5,0
truck=13000,2400,2700,24000,1,3,1000,0,1500,100,7000,3800,1000,3000,7000,7500,2500,1500,24000,12000
products=3,2,1
suppliers=9,8
docks=5
docks=7,6,5,4,3,2,1,8
plantdocks=1,2
truck=20000,20000,20000,50000,65535,399,50000,1,100000,1000000,0,1,0,0,0,1,0,0,1,1
products=65535
suppliers=1
docks=1
plantdocks=8,7,6,5,4,3,2,1
";
    let plan = "stacks=2\nstack=65535,2,99,20000,0,2\nload=3\nstack=1,1,0,0,20000,1\nload=1,2,1\n";
    filled(instance.as_bytes(), plan.as_bytes(), 2).unwrap()
}

const ITEM_1: usize = 16;
const ITEM_2: usize = 32;
const ITEM_3: usize = 48;
const TRUCK_1: usize = 4112;
const TRUCK_2: usize = 4272;
const TRUCK_3: usize = 4432;
const STACK_1: usize = 6672;
const STACK_2: usize = 6680;
const STACK_3: usize = 6688;
const LOADS: usize = 8720;

/// Words that are given other values.
type Edits<'a> = &'a [(usize, u32)];

fn edited(edits: Edits) -> Vec<u32> {
    let mut table = two_trucks();
    for &(at, word) in edits {
        assert!(table[at] != word, "word {at} is {word} already");
        table[at] = word;
    }
    table
}

fn all_refused(cases: &[Edits]) {
    for edits in cases {
        assert!(is_refused(&edited(edits), 30), "{edits:?}");
    }
}

/// Each is accepted, and the files show it.
fn all_written(cases: &[Edits]) {
    for edits in cases {
        let table = edited(edits);
        let (answer, instance, plan) = written(&table, 3);
        assert_eq!(answer.number, 0, "{edits:?}");
        assert!(holds(&instance, &naive::instance(&table)), "{edits:?}");
        assert!(holds(&plan, &naive::plan(&table)), "{edits:?}");
        assert!(naive::is_filled(&table), "{edits:?}");
    }
}

#[test]
fn a_corrected_table_gives_the_corrected_files() {
    let mut table = one_load();
    table[0] = 17;
    table[ITEM_2 + 15] = 100_000;
    table[TRUCK_1 + 20] = 2;
    table[TRUCK_1 + 22] = 65_535;
    table[STACK_1 + 3] = 20_000;
    table[STACK_1 + 7] = 3;
    table[LOADS + 2] = 2;
    let instance = edit(INSTANCE, "transport=2\n", "transport=17\n");
    let instance = edit(
        &instance,
        "1000,100,400,1,3,1,0,2,5,1,1,1,1,4\n",
        "1000,100,400,1,3,1,0,2,5,1,1,1,1,100000\n",
    );
    let instance = edit(&instance, "products=1\n", "products=1,65535\n");
    let plan = "stacks=1\nstack=1,1,0,20000,0,1\nload=1,2,2\n";
    let (answer, first, second) = written(&table, 0);
    assert_eq!(
        (answer.instance_length, answer.plan_length),
        (instance.len(), plan.len())
    );
    assert!(holds(&first, instance.as_bytes()) && holds(&second, plan.as_bytes()));
}

#[test]
fn numbers_within_their_ranges_are_written() {
    all_written(&[
        &[(0, 1_000), (1, 0), (2, 1_000)],
        &[
            (ITEM_2, 20_000),
            (ITEM_2 + 1, 20_000),
            (ITEM_2 + 2, 20_000),
            (ITEM_2 + 3, 19_999),
        ],
        &[
            (ITEM_2, 1),
            (ITEM_2 + 1, 1),
            (ITEM_2 + 2, 1),
            (ITEM_2 + 3, 0),
            (ITEM_2 + 4, 1),
        ],
        &[
            (ITEM_1 + 4, 50_000),
            (ITEM_1 + 6, 64),
            (ITEM_1 + 7, 65_535),
            (ITEM_1 + 8, 2),
            (ITEM_1 + 15, 0),
        ],
        &[(ITEM_3 + 9, 399), (ITEM_3 + 10, 399)],
        &[(ITEM_3 + 9, 0), (ITEM_3 + 10, 0)],
        &[
            (TRUCK_1, 1),
            (TRUCK_1 + 1, 1),
            (TRUCK_1 + 2, 20_000),
            (TRUCK_1 + 3, 1),
            (TRUCK_1 + 6, 0),
        ],
        &[
            (TRUCK_1 + 9, 0),
            (TRUCK_1 + 10, 50_000),
            (TRUCK_1 + 11, 1),
            (TRUCK_1 + 12, 20_000),
            (TRUCK_1 + 13, 0),
        ],
        &[
            (TRUCK_1 + 14, 0),
            (TRUCK_1 + 15, 20_000),
            (TRUCK_1 + 16, 0),
            (TRUCK_1 + 17, 20_000),
            (TRUCK_1 + 18, 1),
        ],
        &[
            (STACK_1 + 1, 1),
            (STACK_1 + 2, 0),
            (STACK_1 + 5, 1),
            (STACK_2, 65_534),
            (LOADS, 1),
        ],
    ]);
}

#[test]
fn coefficients_counts_and_spare_words_of_the_head() {
    all_refused(&[
        &[(0, 1_001)],
        &[(1, 1_001)],
        &[(2, 1_001)],
        &[(2, u32::MAX)],
        &[(3, 0)],
        &[(3, 257)],
        &[(3, u32::MAX)],
        &[(4, 0)],
        &[(4, 17)],
        &[(4, u32::MAX)],
        &[(5, 257)],
        &[(5, u32::MAX)],
        &[(6, 1)],
        &[(7, 1)],
        &[(10, u32::MAX)],
        &[(15, 1)],
    ]);
}

#[test]
fn counts_and_rows_at_odds() {
    all_refused(&[
        &[(3, 2)],
        &[(3, 4)],
        &[(4, 1)],
        &[(4, 3)],
        &[(5, 1)],
        &[(5, 3)],
        &[(5, 0)],
        &[(64, 1)],
        &[(TRUCK_1 - 1, 1)],
        &[(TRUCK_3, 1)],
        &[(TRUCK_3 + 20, 1)],
        &[(STACK_1 - 1, 1)],
        &[(STACK_3, 1)],
        &[(STACK_3 + 6, 4)],
        &[(LOADS - 1, 1)],
    ]);
}

#[test]
fn a_plan_without_stacks() {
    let no_stacks: Vec<(usize, u32)> = [(5, 0)]
        .into_iter()
        .chain((STACK_1..STACK_1 + 16).chain(LOADS..LOADS + 4).map(|at| (at, 0)))
        .filter(|&(at, word)| two_trucks()[at] != word)
        .collect();
    all_written(&[&no_stacks]);
    for left_out in 0..no_stacks.len() {
        let mut edits = no_stacks.clone();
        edits.remove(left_out);
        assert!(is_refused(&edited(&edits), 30), "{edits:?}");
    }
}

#[test]
fn no_items_or_no_trucks() {
    let mut table = two_trucks();
    table[5] = 0;
    table[STACK_1..NAMED_WORDS].fill(0);
    assert!(!is_refused(&table, 30));
    for (count, rows) in [(3, ITEM_1..TRUCK_1), (4, TRUCK_1..STACK_1)] {
        let mut none = table.clone();
        none[count] = 0;
        none[rows].fill(0);
        assert!(is_refused(&none, 30), "word {count} is 0");
    }
}

#[test]
fn items_out_of_range() {
    let most = [
        20_000, 1_200, 20_000, 999, 50_000, 65_535, 64, 65_535, 2, 399, 399, 65_535, 65_535, 65_535, 65_535, 100_000,
    ];
    for (field, most) in most.into_iter().enumerate() {
        all_refused(&[&[(ITEM_2 + field, most + 1)], &[(ITEM_1 + field, u32::MAX)]]);
    }
    for field in [0, 1, 2, 4, 5, 6, 7, 11, 12, 13, 14] {
        all_refused(&[&[(ITEM_2 + field, 0)]]);
    }
    all_refused(&[
        // Wider than long.
        &[(ITEM_2, 1_199)],
        // Nesting as high as the item.
        &[(ITEM_1 + 3, 1_000)],
        &[(ITEM_3 + 3, 1)],
        // The latest day before the earliest.
        &[(ITEM_3 + 10, 6)],
        &[(ITEM_3 + 9, 8)],
        &[(ITEM_3 + 9, 400), (ITEM_3 + 10, 400)],
    ]);
}

#[test]
fn a_code_clash() {
    all_refused(&[
        &[(ITEM_1, 1_201)],
        &[(ITEM_3, 1_201)],
        &[(ITEM_1 + 1, 799)],
        &[(ITEM_3 + 1, 801)],
        &[(ITEM_2 + 5, 1)],
        &[(ITEM_1 + 5, 2)],
    ]);
    all_written(&[
        &[(ITEM_1, 1_201), (ITEM_3, 1_201)],
        &[(ITEM_1, 1_201), (ITEM_1 + 5, 3)],
        &[(ITEM_2 + 1, 800), (ITEM_2 + 5, 1)],
    ]);
}

#[test]
fn trucks_out_of_range() {
    let most = [
        20_000, 20_000, 20_000, 50_000, 65_535, 399, 50_000, 1, 100_000, 1_000_000, 50_000, 20_000, 20_000, 20_000,
        50_000, 20_000, 20_000, 20_000, 50_000, 50_000,
    ];
    for (field, most) in most.into_iter().enumerate() {
        for truck in [TRUCK_1, TRUCK_2] {
            all_refused(&[&[(truck + field, most + 1)], &[(truck + field, u32::MAX)]]);
        }
        // The first truck's flag is 0 already.
        if field != 7 {
            let least_is_one = matches!(field, 0..=4 | 8 | 11 | 15 | 18 | 19);
            assert_eq!(
                is_refused(&edited(&[(TRUCK_1 + field, 0)]), 30),
                least_is_one,
                "field {field}"
            );
        }
    }
}

#[test]
fn lists_of_a_truck() {
    all_refused(&[
        // A count and its entries at odds.
        &[(TRUCK_1 + 20, 0)],
        &[(TRUCK_1 + 20, 2)],
        &[(TRUCK_1 + 20, 4)],
        &[(TRUCK_1 + 20, 33)],
        &[(TRUCK_1 + 20, u32::MAX)],
        &[(TRUCK_1 + 53, 0)],
        &[(TRUCK_1 + 53, 1)],
        &[(TRUCK_1 + 53, 3)],
        &[(TRUCK_1 + 53, 9)],
        &[(TRUCK_1 + 53, u32::MAX)],
        &[(TRUCK_1 + 62, 0)],
        &[(TRUCK_1 + 62, 2)],
        &[(TRUCK_1 + 63, 7)],
        &[(TRUCK_1 + 63, 9)],
        &[(TRUCK_1 + 134, 0)],
        &[(TRUCK_1 + 134, 1)],
        &[(TRUCK_1 + 134, 3)],
        &[(TRUCK_2 + 134, 9)],
        // Empty lists.
        &[(TRUCK_2 + 20, 0), (TRUCK_2 + 21, 0)],
        &[
            (TRUCK_2 + 53, 0),
            (TRUCK_2 + 54, 0),
            (TRUCK_2 + 62, 0),
            (TRUCK_2 + 70, 0),
        ],
        &[(TRUCK_2 + 62, 0), (TRUCK_2 + 70, 0)],
        &[(TRUCK_1 + 134, 0), (TRUCK_1 + 135, 0), (TRUCK_1 + 136, 0)],
        // Entries that are no identifiers.
        &[(TRUCK_1 + 21, 0)],
        &[(TRUCK_2 + 21, 65_536)],
        &[(TRUCK_1 + 54, 65_536)],
        &[(TRUCK_1 + 70, 0)],
        &[(TRUCK_1 + 78, 65_536)],
        &[(TRUCK_1 + 136, 0)],
        // Repeats.
        &[(TRUCK_1 + 21, 2)],
        &[(TRUCK_1 + 23, 3)],
        &[(TRUCK_1 + 54, 8)],
        &[(TRUCK_1 + 85, 7)],
        &[(TRUCK_1 + 136, 1)],
        &[(TRUCK_2 + 142, 8)],
        // Entries behind a count.
        &[(TRUCK_1 + 24, 4)],
        &[(TRUCK_1 + 52, 4)],
        &[(TRUCK_1 + 56, 7)],
        &[(TRUCK_1 + 61, 7)],
        &[(TRUCK_1 + 71, 6)],
        &[(TRUCK_1 + 77, 6)],
        &[(TRUCK_1 + 137, 3)],
        &[(TRUCK_1 + 142, 3)],
        // Docks of a supplier that is not there.
        &[(TRUCK_1 + 64, 1)],
        &[(TRUCK_1 + 64, 1), (TRUCK_1 + 86, 1)],
        &[(TRUCK_1 + 86, 1)],
        &[(TRUCK_1 + 133, 1)],
        // A supplier without docks.
        &[(TRUCK_1 + 53, 3), (TRUCK_1 + 56, 7)],
        // Spare words.
        &[(TRUCK_1 + 143, 1)],
        &[(TRUCK_2 + 150, u32::MAX)],
        &[(TRUCK_2 + 159, 1)],
    ]);
    all_written(&[
        &[(TRUCK_1 + 20, 4), (TRUCK_1 + 24, 4)],
        &[(TRUCK_1 + 20, 2), (TRUCK_1 + 23, 0)],
        &[
            (TRUCK_1 + 53, 3),
            (TRUCK_1 + 56, 7),
            (TRUCK_1 + 64, 1),
            (TRUCK_1 + 86, 1),
        ],
        &[(TRUCK_1 + 62, 2), (TRUCK_1 + 71, 65_535)],
        &[(TRUCK_1 + 134, 1), (TRUCK_1 + 136, 0)],
        // Two suppliers may have a dock of the same name, and so may two trucks.
        &[(TRUCK_1 + 70, 7)],
        &[(TRUCK_1 + 21, 65_535)],
    ]);
}

#[test]
fn stacks_out_of_range() {
    all_refused(&[
        &[(STACK_1, 0)],
        &[(STACK_1, 65_536)],
        &[(STACK_1, u32::MAX)],
        // A number that comes twice.
        &[(STACK_1, 1)],
        &[(STACK_2, 65_535)],
        &[(STACK_1 + 1, 0)],
        // There are two trucks.
        &[(STACK_1 + 1, 3)],
        &[(STACK_1 + 1, 17)],
        &[(STACK_1 + 2, 100)],
        &[(STACK_1 + 3, 20_001)],
        &[(STACK_1 + 4, 20_001)],
        &[(STACK_1 + 5, 0)],
        &[(STACK_1 + 5, 3)],
    ]);
}

#[test]
fn loads_of_the_stacks() {
    all_refused(&[
        // The first load index is not the running total.
        &[(STACK_1 + 6, 1)],
        &[(STACK_1 + 6, u32::MAX)],
        &[(STACK_2 + 6, 0)],
        &[(STACK_2 + 6, 2)],
        // Counts and entries at odds.
        &[(STACK_1 + 7, 0)],
        &[(STACK_1 + 7, 0), (STACK_2 + 6, 0)],
        &[(STACK_1 + 7, 0), (STACK_2 + 6, 0), (STACK_2 + 7, 4)],
        &[(STACK_1 + 7, 2)],
        &[(STACK_1 + 7, 2), (STACK_2 + 6, 2)],
        &[(STACK_2 + 7, 2)],
        &[(STACK_2 + 7, 4)],
        &[(STACK_2 + 7, 65)],
        &[(STACK_2 + 7, u32::MAX)],
        // An item that is not there.
        &[(LOADS, 0)],
        &[(LOADS, 4)],
        &[(LOADS + 3, u32::MAX)],
        // Entries behind the total.
        &[(LOADS + 4, 1)],
        &[(NAMED_WORDS - 1, 1)],
    ]);
    all_written(&[
        &[(STACK_1 + 7, 2), (STACK_2 + 6, 2), (STACK_2 + 7, 2)],
        &[(STACK_2 + 7, 4), (LOADS + 4, 3)],
        &[(LOADS, 1), (LOADS + 1, 3)],
    ]);
}

/// Stacks of these many items each, of item 1.
fn loaded_with(counts: &[u32]) -> Vec<u32> {
    let mut table = one_load();
    table[5] = counts.len() as u32;
    let mut total = 0;
    for (place, &count) in counts.iter().enumerate() {
        let stack = [place as u32 + 1, 1, 0, 0, 0, 1, total, count];
        table[STACK_1 + 8 * place..][..8].copy_from_slice(&stack);
        total += count;
    }
    let entries = NAMED_WORDS.min(LOADS + total as usize);
    table[LOADS..entries].fill(1);
    table
}

#[test]
fn at_most_64_entries_to_a_stack_and_256_in_all() {
    for (counts, refused) in [
        (vec![64; 4], false),
        (vec![64], false),
        (vec![65], true),
        (vec![64, 64, 64, 65], true),
        (vec![64, 64, 64, 63, 1], false),
        (vec![64, 64, 64, 64, 1], true),
        (vec![64, 64, 64, 63, 2], true),
        (vec![1; 256], false),
    ] {
        assert_eq!(is_refused(&loaded_with(&counts), 30), refused, "{counts:?}");
    }
    let mut one_too_many = loaded_with(&[1; 256]);
    one_too_many[5] = 257;
    assert!(is_refused(&one_too_many, 30));
}

#[test]
fn words_beyond_the_named_ones_do_not_matter() {
    let table = two_trucks();
    all_written(&[&[(NAMED_WORDS, 0)], &[(NAMED_WORDS + 1, 1)]]);
    assert_eq!(written(&table, 4), written(&table[..NAMED_WORDS], 4));
}
