//! The words of the working table, table lengths and overlong files.

mod common;

use common::{edit, refused, INSTANCE, PLAN};
use reference::check;
use reference::table::NAMED_WORDS;

const FILLER: u32 = 0xABCD;

fn table_after(instance: &str, plan: &str) -> (u32, Vec<u32>) {
    let mut table = vec![FILLER; NAMED_WORDS + 5];
    let answer = check(instance.as_bytes(), plan.as_bytes(), &mut table);
    assert!(table[NAMED_WORDS..].iter().all(|&word| word == FILLER));
    table.truncate(NAMED_WORDS);
    (answer.number, table)
}

#[test]
fn words_of_the_printed_load() {
    let (number, table) = table_after(INSTANCE, PLAN);
    assert_eq!(number, 0);
    assert_eq!(table[..6], [2, 3, 200, 2, 1, 1]);
    assert_eq!(
        table[16..32],
        [1200, 800, 1000, 0, 500, 1, 3, 1, 0, 2, 5, 1, 1, 1, 1, 4]
    );
    assert_eq!(
        table[32..48],
        [1200, 800, 1000, 100, 400, 1, 3, 1, 0, 2, 5, 1, 1, 1, 1, 4]
    );
    assert_eq!(table[4112..4122], [13000, 2400, 2700, 24000, 1, 3, 1000, 0, 1500, 100]);
    assert_eq!(
        table[4122..4132],
        [7000, 3800, 1000, 3000, 7000, 7500, 2500, 1500, 24000, 12000]
    );
    assert_eq!(table[6672..6680], [1, 1, 0, 0, 0, 1, 0, 2]);
    assert_eq!(table[8720..8722], [1, 2]);
    let lists = [
        (4132, 1),
        (4133, 1),
        (4165, 1),
        (4166, 1),
        (4174, 1),
        (4182, 1),
        (4246, 1),
        (4247, 1),
    ];
    for (at, word) in lists {
        assert_eq!(table[at], word, "word {at}");
    }
    let named = [0..6, 16..48, 4112..4132, 6672..6680, 8720..8722];
    for (at, &word) in table.iter().enumerate() {
        let filled = named.iter().any(|range| range.contains(&at)) || lists.iter().any(|&(list, _)| list == at);
        assert!(filled || word == 0, "word {at}");
    }
}

#[test]
fn words_of_a_second_truck_and_of_several_stacks() {
    let second = "truck=1,2,3,4,5,6,7,1,9,10,11,12,13,14,15,16,17,18,19,20
products=21,22,23
suppliers=31,32
docks=41,42
docks=43
plantdocks=51,52,53
";
    let instance = edit(INSTANCE, "trucks=1", "trucks=2") + second;
    let plan = "stacks=2\nstack=9,1,0,0,0,1\nload=2\nstack=4,2,7,5,6,2\nload=1,2,1\n";
    let (number, table) = table_after(&instance, plan);
    assert_eq!(number, 9);
    let truck = &table[4272..4432];
    assert_eq!(truck[..8], [1, 2, 3, 4, 5, 6, 7, 1]);
    assert_eq!(truck[18..25], [19, 20, 3, 21, 22, 23, 0]);
    assert_eq!(truck[53..57], [2, 31, 32, 0]);
    assert_eq!(truck[62..65], [2, 1, 0]);
    assert_eq!(truck[70..80], [41, 42, 0, 0, 0, 0, 0, 0, 43, 0]);
    assert_eq!(truck[134..139], [3, 51, 52, 53, 0]);
    assert_eq!(table[6672..6688], [9, 1, 0, 0, 0, 1, 0, 1, 4, 2, 7, 5, 6, 2, 1, 3]);
    assert_eq!(table[8720..8725], [2, 1, 2, 1, 0]);
}

#[test]
fn a_short_table_is_left_as_it_is() {
    for words in [0, 1, NAMED_WORDS - 1] {
        let mut table = vec![FILLER; words];
        let answer = check(INSTANCE.as_bytes(), PLAN.as_bytes(), &mut table);
        assert_eq!(answer, refused(1, 0, 0, 0));
        assert!(table.iter().all(|&word| word == FILLER));
    }
}

#[test]
fn unreadable_pairs_leave_zeros() {
    let clash = edit(INSTANCE, "item=1200,800,1000,100", "item=1200,799,1000,100");
    let overlong = "9".repeat(65_536);
    let pairs = [
        (2, overlong.as_str(), PLAN),
        (3, INSTANCE, overlong.as_str()),
        (4, "", PLAN),
        (5, "transport=1001\n", PLAN),
        (6, clash.as_str(), PLAN),
        (7, INSTANCE, ""),
        (8, INSTANCE, "stacks=257\n"),
    ];
    for (expected, instance, plan) in pairs {
        let (number, table) = table_after(instance, plan);
        assert_eq!(number, expected);
        assert!(table.iter().all(|&word| word == 0), "verdict {expected}");
    }
}

#[test]
fn the_longest_file_is_read() {
    let longest = "9".repeat(65_535);
    let overlong = "9".repeat(65_536);
    let mut table = vec![0; NAMED_WORDS];
    let mut answer = |instance: &str, plan: &str| check(instance.as_bytes(), plan.as_bytes(), &mut table);
    assert_eq!(answer(&longest, &overlong), refused(3, 0, 0, 0));
    assert_eq!(answer(&overlong, &overlong), refused(2, 0, 0, 0));
    assert_eq!(answer(&longest, &longest), refused(4, 1, 0, 0));
    assert_eq!(answer(INSTANCE, &longest), refused(7, 1, 0, 0));
}
