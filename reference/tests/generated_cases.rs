//! The random cases: same seed, same files; many stacks have an edge in common with one in front that is just long enough or too short.

mod common;

use common::generator::written_as_made;
use reference::generator::{random, Made};
use reference::loading::Loading;
use reference::reader::{read_instance, read_plan};
use std::collections::BTreeMap;

#[test]
fn small_cases_are_always_the_same() {
    written_as_made("small", &["300", "5", "--small"], random(300, 5, true));
}

#[test]
fn cases_of_mixed_sizes_are_always_the_same() {
    written_as_made("mixed", &["300", "6"], random(300, 6, false));
}

/// For each stack behind another, the edge that holds it best and how long that one has to be.
fn best_edges(made: &Made) -> Vec<(i64, i64)> {
    let Ok(instance) = read_instance(&made.instance) else {
        return Vec::new();
    };
    let Ok(plan) = read_plan(&made.plan, instance.items.len(), instance.trucks.len()) else {
        return Vec::new();
    };
    let loading = Loading::new(&instance, &plan);
    let best_of = |stack| {
        let others = loading.on_same_truck(stack).map(|other| &other.footprint);
        let in_front = others.filter(|other| other.xe == stack.footprint.x);
        let edges = in_front.map(|other| {
            (
                stack.footprint.edge_with(other),
                stack.footprint.needed_edge_with(other),
            )
        });
        edges.max_by_key(|(edge, needed)| edge - needed)
    };
    loading.stacks.iter().filter_map(best_of).collect()
}

#[test]
fn many_edges_are_just_long_enough_and_just_too_short() {
    let mut counts: BTreeMap<(&str, bool), usize> = BTreeMap::new();
    for (edge, needed) in random(4_000, 24, false).flat_map(|made| best_edges(&made)) {
        let kind = match edge {
            0 => "corner",
            _ if edge == needed => "enough",
            _ if edge == needed - 1 => "one short",
            _ if edge == needed + 1 => "one more",
            _ => continue,
        };
        // Whether the narrower stack decides.
        *counts.entry((kind, needed < 100)).or_default() += 1;
    }
    // No edge is longer than the narrower stack is wide.
    for kind in ["corner", "enough", "one short"] {
        assert!(counts[&(kind, true)] >= 15, "{counts:?}");
    }
    for kind in ["corner", "enough", "one short", "one more"] {
        assert!(counts[&(kind, false)] >= 10, "{counts:?}");
    }
}
