//! The sentence of every verdict, to the letter.

mod common;

use common::{accepted, refused};
use reference::sentence::sentence;

/// The three places of a refusal, then its sentence, which begins with the number.
const REFUSALS: &str = "\
0 0 0 | 1 short table: under 8,976 words
0 0 0 | 2 overlong: instance above 65,535 bytes
0 0 0 | 3 overlong: plan above 65,535 bytes
12 0 0 | 4 instance form: line 12
13 0 0 | 5 instance range: line 13
7 2 0 | 6 code clash: item 7 differs in length or width from item 2 of its code
1 0 0 | 7 plan form: line 1
513 0 0 | 8 plan range: line 513
2 0 0 | 9 not once: item 2 is loaded 0 times
65535 256 0 | 10 plant: stack 65535, item 256 is unfit for the truck
5 1 0 | 11 product: stack 5, item 1 is unfit for the truck
5 1 0 | 12 supplier: stack 5, item 1 is unfit for the truck
5 1 0 | 13 day: stack 5, item 1 is unfit for the truck
5 1 0 | 14 dock: stack 5, item 1 has a supplier dock or plant dock that is not listed
5 3 0 | 15 mixed: stack 5, item 3 does not match the bottom item
5 3 0 | 16 docks: stack 5 has 3 plant docks
2 5 0 | 17 second pair: stacks 2 and 5 have two docks each, one code, one used truck
5 1 0 | 18 turned: stack 5, item 1 is against its forced orientation
5 400 0 | 19 top heavy: stack 5 has weight 400 above its bottom item
5 64 0 | 20 too many: stack 5 has 64 items
1 900 0 | 21 dense: stack 1 has weight 900, too much for its footprint
1 1 0 | 22 outside: stack 1, by its length
1 2 0 | 22 outside: stack 1, by its width
1 3 0 | 22 outside: stack 1, by its height
2 5 0 | 23 overlap: stacks 2 and 5
1 0 0 | 24 unbraced: stack 1, held by no edge of 100 mm, or of its whole width, or of the whole width of a stack in front of it
5 2 0 | 25 order: stack 5 must not stand behind stack 2
16 99 0 | 26 overload: truck 16, copy 99
1 0 8 | 27 middle axle: truck 1, copy 0, at departure 8
1 0 2 | 28 rear axle: truck 1, copy 0, at departure 2
";

fn numbers(words: &str) -> Vec<u32> {
    words.split(' ').map_while(|word| word.parse().ok()).collect()
}

#[test]
fn an_accepted_plan_is_told_with_its_cost() {
    let example_load = "0 accepted: cost 248000 thousandths, used trucks 1";
    assert_eq!(sentence(&accepted(248_000, 1)), example_load);
    let above_32_bits = "0 accepted: cost 4294967296 thousandths, used trucks 256";
    assert_eq!(sentence(&accepted(4_294_967_296, 256)), above_32_bits);
}

#[test]
fn every_refusal_has_its_sentence() {
    let mut told = Vec::new();
    for line in REFUSALS.lines() {
        let (places, expected) = line.split_once(" | ").unwrap();
        let (places, number) = (numbers(places), numbers(expected)[0]);
        assert_eq!(sentence(&refused(number, places[0], places[1], places[2])), expected);
        told.push(number);
    }
    told.dedup();
    assert_eq!(told, (1..=28).collect::<Vec<u32>>());
}
