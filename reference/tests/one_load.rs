//! Document 01's load and its ten edits.

mod common;

use common::{accepted, answer, edit, refused, INSTANCE, PLAN};
use reference::loading::Loading;
use reference::reader::{read_instance, read_plan};
use reference::weights::departures;

fn instance_edit(old: &str, new: &str) -> reference::Answer {
    answer(&edit(INSTANCE, old, new), PLAN)
}

fn plan_edit(old: &str, new: &str) -> reference::Answer {
    answer(INSTANCE, &edit(PLAN, old, new))
}

#[test]
fn the_printed_load_is_accepted() {
    assert_eq!(answer(INSTANCE, PLAN), accepted(248_000, 1));
}

#[test]
fn the_ten_edits() {
    assert_eq!(plan_edit("1,1,0,0,0,1", "1,1,1,0,0,1"), accepted(288_000, 1));
    assert_eq!(instance_edit("24000,12000", "24000,4480"), accepted(248_000, 1));
    assert_eq!(instance_edit("24000,12000", "24000,4479"), refused(27, 1, 0, 1));
    assert_eq!(instance_edit("24000,12000", "4559,12000"), accepted(248_000, 1));
    assert_eq!(instance_edit("24000,12000", "4558,12000"), refused(28, 1, 0, 1));
    assert_eq!(instance_edit("0,1500,100", "0,938,100"), accepted(248_000, 1));
    assert_eq!(instance_edit("0,1500,100", "0,937,100"), refused(21, 1, 900, 0));
    assert_eq!(instance_edit("2400,2700", "2400,1899"), refused(22, 1, 3, 0));
    assert_eq!(plan_edit("1,1,0,0,0,1", "1,1,0,1,0,1"), refused(24, 1, 0, 0));
    assert_eq!(plan_edit("load=1,2", "load=1"), refused(9, 2, 0, 0));
}

#[test]
fn the_moment_of_the_printed_load() {
    let instance = read_instance(INSTANCE.as_bytes()).unwrap();
    let plan = read_plan(PLAN.as_bytes(), 2, 1).unwrap();
    let loading = Loading::new(&instance, &plan);
    let departures = departures(&loading, &loading.used[0]);
    assert_eq!(departures.len(), 1);
    assert_eq!(departures[0].moment, 50_120_000);
    assert_eq!(departures[0].weight, 900);
}

#[test]
fn the_bottom_item_does_not_nest() {
    assert_eq!(instance_edit("2400,2700", "2400,1900"), accepted(248_000, 1));
    let turned_over = edit(PLAN, "load=1,2", "load=2,1");
    assert_eq!(
        answer(&edit(INSTANCE, "2400,2700", "2400,1900"), &turned_over),
        refused(22, 1, 3, 0)
    );
}
