//! Rules where two readings lie close together, on small hand-made loads.

mod common;

use common::{accepted, refused};
use reference::Answer;

/// Items: length, width, weight, code, supplier, supplier dock, plant dock. One truck of 5000 by 5000.
fn instance(items: &[[u32; 7]], two_docks: u32, axles: &str) -> String {
    let mut text = format!("transport=1\ninventory=0\nextra=0\nitems={}\ntrucks=1\n", items.len());
    for [length, width, weight, code, supplier, supplier_dock, plant_dock] in items {
        text += &format!(
            "item={length},{width},10,0,{weight},{code},9,1,0,0,9,1,{plant_dock},{supplier},{supplier_dock},0\n"
        );
    }
    text += &format!("truck=5000,5000,100,50000,1,5,50000,{two_docks},100000,1,{axles}\n");
    text + "products=1\nsuppliers=7,3\ndocks=8,2\ndocks=8\nplantdocks=9,4,6\n"
}

const LIGHT: &str = "0,1,0,0,0,20000,0,0,50000,50000";

fn answer(items: &[[u32; 7]], two_docks: u32, axles: &str, plan: &str) -> Answer {
    common::answer(&instance(items, two_docks, axles), plan)
}

const A: [u32; 7] = [10, 10, 1, 1, 7, 8, 9];

fn with(base: [u32; 7], changes: &[(usize, u32)]) -> [u32; 7] {
    let mut item = base;
    for &(field, value) in changes {
        item[field] = value;
    }
    item
}

fn two_stacks(first: &str, second: &str) -> String {
    format!("stacks=2\nstack={first}\nload=1\nstack={second}\nload=2\n")
}

/// Stacks of one item each, numbered from 1 in this order: length, width, copy, x, y, orientation.
fn placed(stacks: &[[u32; 6]]) -> Answer {
    let numbered = || (1..).zip(stacks);
    let items: Vec<[u32; 7]> = numbered()
        .map(|(number, stack)| with(A, &[(0, stack[0]), (1, stack[1]), (3, number)]))
        .collect();
    let mut plan = format!("stacks={}\n", stacks.len());
    for (number, [_, _, copy, x, y, orientation]) in numbered() {
        plan += &format!("stack={number},1,{copy},{x},{y},{orientation}\nload={number}\n");
    }
    answer(&items, 0, LIGHT, &plan)
}

/// A stack of that width right behind another, with so long an edge in common: at the low side of the one in front, then at its high
/// side. Both have to be answered alike.
fn behind(front: i32, width: i32, edge: i32) -> Answer {
    let sides = [2000 + edge - width, 2000 + front - edge];
    let [low, high] = sides.map(|y| {
        let in_front = [1000, front as u32, 0, 0, 2000, 1];
        placed(&[in_front, [1000, width as u32, 0, 1000, y as u32, 1]])
    });
    assert_eq!(low, high, "{width} behind {front}, edge {edge}");
    low
}

const BRACED: Answer = accepted(1000, 1);
/// The second stack is the one behind.
const UNBRACED: Answer = refused(24, 2, 0, 0);

#[test]
fn an_edge_of_100_braces() {
    assert_eq!(behind(1000, 1000, 100), BRACED);
    assert_eq!(behind(1000, 1000, 99), UNBRACED);
    assert_eq!(behind(500, 1000, 100), BRACED);
    assert_eq!(behind(500, 1000, 99), UNBRACED);
    assert_eq!(behind(1000, 1000, 101), BRACED);
    assert_eq!(behind(1000, 1000, 1000), BRACED);
}

#[test]
fn a_corner_does_not_brace_nor_does_a_gap() {
    // Loading crews reject stacks held by a corner.
    assert_eq!(behind(1000, 1000, 0), UNBRACED);
    assert_eq!(behind(1000, 1000, -1), UNBRACED);
    assert_eq!(behind(1, 1, 1), BRACED);
    assert_eq!(behind(1, 1, 0), UNBRACED);
    assert_eq!(behind(1, 1, -1), UNBRACED);
    // Along the trailer too.
    let after = |x: u32| placed(&[[500, 500, 0, 0, 0, 1], [500, 500, 0, x, 0, 1]]);
    assert_eq!(after(500), BRACED);
    assert_eq!(after(501), UNBRACED);
}

#[test]
fn a_narrow_stack_is_braced_by_its_whole_width() {
    assert_eq!(behind(1000, 80, 80), BRACED);
    assert_eq!(behind(1000, 80, 79), UNBRACED);
    assert_eq!(behind(1000, 99, 99), BRACED);
    assert_eq!(behind(1000, 99, 98), UNBRACED);
    assert_eq!(behind(1000, 100, 100), BRACED);
    assert_eq!(behind(1000, 100, 99), UNBRACED);
    assert_eq!(behind(1000, 101, 100), BRACED);
    assert_eq!(behind(1000, 101, 99), UNBRACED);
}

#[test]
fn a_narrow_stack_braces_with_its_whole_width() {
    assert_eq!(behind(80, 1000, 80), BRACED);
    assert_eq!(behind(80, 1000, 79), UNBRACED);
    assert_eq!(behind(99, 1000, 99), BRACED);
    assert_eq!(behind(99, 1000, 98), UNBRACED);
    assert_eq!(behind(100, 1000, 100), BRACED);
    assert_eq!(behind(100, 1000, 99), UNBRACED);
    assert_eq!(behind(101, 1000, 100), BRACED);
    assert_eq!(behind(101, 1000, 99), UNBRACED);
}

#[test]
fn of_two_narrow_stacks_the_narrower_decides() {
    for (front, width) in [(80, 90), (90, 80), (80, 80)] {
        assert_eq!(behind(front, width, 80), BRACED);
        assert_eq!(behind(front, width, 79), UNBRACED);
    }
}

#[test]
fn edges_are_not_added_up() {
    // A stack 120 wide behind two stacks that meet at 500.
    let between = |y: u32| {
        let fronts = [[500, 500, 0, 0, 0, 1], [500, 500, 0, 0, 500, 1]];
        placed(&[fronts[0], fronts[1], [500, 120, 0, 500, y, 1]])
    };
    // 60 and 60.
    assert_eq!(between(440), refused(24, 3, 0, 0));
    // 99 and 21, 21 and 99.
    assert_eq!(between(401), refused(24, 3, 0, 0));
    assert_eq!(between(479), refused(24, 3, 0, 0));
    // 100 and 20, 20 and 100.
    assert_eq!(between(400), BRACED);
    assert_eq!(between(480), BRACED);
}

#[test]
fn a_turned_stack_is_as_wide_as_its_length() {
    let behind_wide = |[length, width]: [u32; 2], y: u32, orientation: u32| {
        placed(&[[1000, 1000, 0, 0, 0, 1], [length, width, 0, 1000, y, orientation]])
    };
    assert_eq!(behind_wide([1000, 80], 900, 2), BRACED);
    assert_eq!(behind_wide([1000, 80], 901, 2), UNBRACED);
    assert_eq!(behind_wide([1000, 80], 920, 1), BRACED);
    assert_eq!(behind_wide([1000, 80], 921, 1), UNBRACED);
    // Turned it needs 90, which 89 is short of; else it needs 80.
    assert_eq!(behind_wide([90, 80], 910, 2), BRACED);
    assert_eq!(behind_wide([90, 80], 911, 2), UNBRACED);
    assert_eq!(behind_wide([90, 80], 920, 1), BRACED);
    assert_eq!(behind_wide([90, 80], 921, 1), UNBRACED);
    // The same in front.
    let behind_narrow =
        |orientation: u32, x: u32, y: u32| placed(&[[90, 80, 0, 0, 0, orientation], [1000, 1000, 0, x, y, 1]]);
    assert_eq!(behind_narrow(2, 80, 0), BRACED);
    assert_eq!(behind_narrow(2, 80, 1), UNBRACED);
    assert_eq!(behind_narrow(1, 90, 0), BRACED);
    assert_eq!(behind_narrow(1, 90, 1), UNBRACED);
}

#[test]
fn every_stack_of_a_chain_needs_its_own_edge() {
    // The third has its whole width behind the second, which itself has a corner, an edge of 99 or one of 100.
    let chain = |y: u32| {
        let front = [500, 500, 0, 0, 0, 1];
        placed(&[front, [500, 500, 0, 500, y, 1], [500, 500, 0, 1000, y, 1]])
    };
    assert_eq!(chain(500), UNBRACED);
    assert_eq!(chain(401), UNBRACED);
    assert_eq!(chain(400), BRACED);
}

#[test]
fn a_stack_of_another_copy_does_not_brace() {
    let second = |copy: u32| placed(&[[500, 500, 0, 0, 0, 1], [500, 500, copy, 500, 0, 1]]);
    assert_eq!(second(1), UNBRACED);
    assert_eq!(second(0), BRACED);
}

#[test]
fn a_wide_stack_braces_a_narrow_one() {
    let items = [[40, 10, 1, 1, 7, 8, 9], with(A, &[(3, 2)])];
    let plan = two_stacks("1,1,0,0,0,2", "2,1,0,10,15,1");
    assert_eq!(answer(&items, 0, LIGHT, &plan), accepted(1000, 1));
}

#[test]
fn overlap_also_at_equal_x() {
    let items = [A, A];
    let plan = two_stacks("5,1,0,0,9,1", "2,1,0,0,0,1");
    assert_eq!(answer(&items, 0, LIGHT, &plan), refused(23, 2, 5, 0));
    let apart = two_stacks("5,1,0,0,10,1", "2,1,0,0,0,1");
    assert_eq!(answer(&items, 0, LIGHT, &apart), accepted(1000, 1));
}

#[test]
fn loading_order_of_suppliers_and_docks() {
    let behind = two_stacks("5,1,0,10,0,1", "2,1,0,0,0,1");
    // Supplier 7 comes before supplier 3, though its number is higher.
    assert_eq!(
        answer(&[A, with(A, &[(4, 3)])], 0, LIGHT, &behind),
        refused(25, 5, 2, 0)
    );
    assert_eq!(answer(&[with(A, &[(4, 3)]), A], 0, LIGHT, &behind), accepted(1000, 1));
    // Supplier dock 8 comes before 2.
    assert_eq!(
        answer(&[A, with(A, &[(5, 2)])], 0, LIGHT, &behind),
        refused(25, 5, 2, 0)
    );
    // Plant dock 9 comes before 4; equal docks are free.
    assert_eq!(
        answer(&[A, with(A, &[(6, 4)])], 0, LIGHT, &behind),
        refused(25, 5, 2, 0)
    );
    assert_eq!(answer(&[with(A, &[(6, 4)]), A], 0, LIGHT, &behind), accepted(1000, 1));
    assert_eq!(answer(&[A, A], 0, LIGHT, &behind), accepted(1000, 1));
}

#[test]
fn loading_order_of_two_dock_stacks() {
    let second_dock = with(A, &[(6, 4)]);
    let items = [A, second_dock, second_dock];
    let plan = |x: u32, x3: u32| format!("stacks=2\nstack=5,1,0,{x},0,1\nload=1,2\nstack=2,1,0,{x3},0,1\nload=3\n");
    // Docks 1 and 2 before dock 2 alone.
    assert_eq!(answer(&items, 1, LIGHT, &plan(10, 0)), refused(25, 5, 2, 0));
    assert_eq!(answer(&items, 1, LIGHT, &plan(0, 10)), accepted(1000, 1));
    assert_eq!(answer(&items, 0, LIGHT, &plan(0, 10)), refused(16, 5, 2, 0));
    // Of two stacks with the same two docks neither comes first; codes differ, so both may stand.
    let other = [with(A, &[(3, 2)]), with(second_dock, &[(3, 2)])];
    let items = [A, second_dock, other[0], other[1]];
    let plan = "stacks=2\nstack=5,1,0,10,0,1\nload=1,2\nstack=2,1,0,0,0,1\nload=3,4\n";
    assert_eq!(answer(&items, 1, LIGHT, plan), accepted(1000, 1));
    let items = [A, second_dock, A, second_dock];
    assert_eq!(answer(&items, 1, LIGHT, plan), refused(17, 2, 5, 0));
}

#[test]
fn docks_must_be_consecutive_in_loading_order() {
    let items = [A, with(A, &[(6, 6)])];
    let plan = "stacks=1\nstack=5,1,0,0,0,1\nload=1,2\n";
    assert_eq!(answer(&items, 1, LIGHT, plan), refused(16, 5, 2, 0));
    let items = [A, with(A, &[(6, 6)]), with(A, &[(6, 4)])];
    let plan = "stacks=1\nstack=5,1,0,0,0,1\nload=1,2,3\n";
    assert_eq!(answer(&items, 1, LIGHT, plan), refused(16, 5, 3, 0));
}

#[test]
fn a_supplier_dock_is_listed_for_its_own_supplier() {
    let plan = "stacks=1\nstack=5,1,0,0,0,1\nload=1\n";
    assert_eq!(
        answer(&[with(A, &[(4, 3), (5, 2)])], 0, LIGHT, plan),
        refused(14, 5, 1, 0)
    );
    assert_eq!(answer(&[with(A, &[(5, 2)])], 0, LIGHT, plan), accepted(1000, 1));
}

/// Stacks behind the rear axle lift the middle axle, so the first departure is the heavy one there.
#[test]
fn every_loaded_departure_counts() {
    let items = [with(A, &[(2, 4)]), with(A, &[(2, 4), (4, 3)])];
    let plan = two_stacks("1,1,0,0,0,1", "2,1,0,10,0,1");
    // The rear axle stands at x = 5: the first stack's middle is on it, the second's 10 behind.
    let axles = |rear: u32, middle: u32| format!("0,1,0,1,6,5,5,0,{rear},{middle}");
    assert_eq!(answer(&items, 0, &axles(16, 6), &plan), accepted(1000, 1));
    assert_eq!(answer(&items, 0, &axles(16, 5), &plan), refused(27, 1, 0, 1));
    assert_eq!(answer(&items, 0, &axles(15, 6), &plan), refused(28, 1, 0, 2));
    // With the later supplier alone, the first departure is empty and does not count.
    let items = [with(A, &[(2, 4), (4, 3)]), with(A, &[(2, 4), (4, 3)])];
    let plan = "stacks=1\nstack=1,1,0,0,0,1\nload=1,2\n";
    assert_eq!(answer(&items, 0, "0,1,0,1,13,2,2,0,50000,1", plan), accepted(1000, 1));
    assert_eq!(
        answer(&items, 0, "0,1,0,1,14,2,2,0,50000,1", plan),
        refused(27, 1, 0, 2)
    );
}
