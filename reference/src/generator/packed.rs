//! Builds an instance together with a plan that keeps every rule.

use super::limits;
use super::random::Random;
use crate::loading::Footprint;
use crate::model::{Instance, Item, Plan, Stack, Tractor, Trailer, Truck};

#[derive(Clone)]
pub struct Case {
    pub instance: Instance,
    pub plan: Plan,
}

/// How large a case may get.
#[derive(Clone, Copy)]
pub struct Size {
    pub items: u32,
    pub trucks: u32,
    pub stacks: u32,
    pub products: u32,
    /// Most suppliers of a truck, docks of a supplier and plant docks.
    pub docks: u32,
}

/// What a case should hold so that a rule has something to bite on.
#[derive(Clone, Copy, Default)]
pub struct Wish {
    pub tall: bool,
    pub one_code: bool,
    pub one_truck: bool,
    pub two_docks: bool,
    pub many_docks: bool,
    /// Every limit is just what the plan needs.
    pub tight: bool,
    /// As many items and trucks as the size allows, and without `tall` as many stacks.
    pub full: bool,
}

impl Wish {
    /// As many stacks as the size allows, one item each, with much to compare and no limit to spare.
    pub fn full_size(one_truck: bool) -> Self {
        Wish {
            one_truck,
            many_docks: true,
            tight: true,
            full: true,
            ..Wish::default()
        }
    }
}

struct Kind {
    code: u32,
    length: u32,
    width: u32,
}

/// A stack before its items are made; suppliers and docks are indexes into the truck's lists.
struct Draft {
    used: usize,
    supplier: usize,
    supplier_dock: usize,
    /// Equal when the stack has one plant dock.
    plant_docks: [usize; 2],
    kind: usize,
    orientation: u32,
    count: u32,
    x: u32,
    y: u32,
}

/// Stacks of a smaller key must not stand behind those of a larger one.
type OrderKey = (usize, usize, usize);

impl Draft {
    fn has_two_docks(&self) -> bool {
        self.plant_docks[0] != self.plant_docks[1]
    }

    fn key(&self) -> OrderKey {
        (
            self.supplier,
            self.supplier_dock,
            self.plant_docks[0] + self.plant_docks[1],
        )
    }
}

/// A case that is accepted.
pub fn packed(rng: &mut Random, size: Size, wish: Wish) -> Case {
    for _ in 0..200 {
        if let Some(case) = try_packed(rng, size, wish) {
            return case;
        }
    }
    panic!("no packed case found");
}

fn try_packed(rng: &mut Random, size: Size, wish: Wish) -> Option<Case> {
    let top = rng.pick(&[9, 60, 65_535]);
    let truck_count = draw_up_to(rng, wish, 1, size.trucks);
    let trucks: Vec<Truck> = (0..truck_count).map(|_| bare_truck(rng, size, wish, top)).collect();
    let used = draw_used(rng, trucks.len(), wish);
    let budget = draw_up_to(rng, wish, 1, size.items);
    let budget = if wish.tall {
        budget.max(size.items.min(6))
    } else {
        budget
    };
    let limit = budget.min(size.stacks);
    let longest = longest_side(rng, limit, used.len());
    let kinds = draw_kinds(rng, wish, longest, top);
    let mut drafts = draw_drafts(rng, wish, budget, limit, &trucks, &used, &kinds);
    pack_all(rng, &mut drafts, used.len(), &kinds)?;
    rng.shuffle(&mut drafts);
    let (items, stacks) = make_stacks(rng, &trucks, &used, &kinds, &drafts);
    let instance = Instance {
        transport: rng.between(0, 9).max(rng.pick(&[0, 0, 1000])),
        inventory: rng.between(0, 9).max(rng.pick(&[0, 0, 1000])),
        extra: rng.between(0, 1000),
        items,
        trucks,
    };
    let mut case = Case {
        instance,
        plan: Plan { stacks },
    };
    limits::fit(rng, &mut case, wish.tight);
    Some(case)
}

/// The most when the case is to be full.
fn draw_up_to(rng: &mut Random, wish: Wish, least: u32, most: u32) -> u32 {
    if wish.full {
        most
    } else {
        rng.between(least, most)
    }
}

fn bare_truck(rng: &mut Random, size: Size, wish: Wish, top: u32) -> Truck {
    let least = if wish.many_docks { size.docks.min(2) } else { 1 };
    let least_plant_docks = if wish.two_docks { size.docks.min(2) } else { least };
    let products = draw_up_to(rng, wish, 1, size.products);
    let suppliers = draw_up_to(rng, wish, least, size.docks);
    let plant_docks = rng.between(least_plant_docks, size.docks);
    let docks = (0..suppliers)
        .map(|_| {
            let count = rng.between(least, size.docks);
            rng.distinct(count as usize, top)
        })
        .collect();
    Truck {
        length: rng.between(1, 20_000),
        width: rng.between(1, 20_000),
        height: rng.between(1, 20_000),
        load_limit: rng.between(1, 50_000),
        plant: rng.between(1, top),
        arrival: rng.pick(&[0, 1, 200, 398, 399]),
        limit_above: rng.between(0, 50_000),
        two_docks: if wish.two_docks { 1 } else { rng.between(0, 1) },
        density_limit: rng.between(1, 100_000),
        cost: rng.pick(&[0, 7, 500, 1_000_000]),
        tractor: bare_tractor(),
        trailer: bare_trailer(),
        products: rng.distinct(products as usize, top),
        suppliers: rng.distinct(suppliers as usize, top),
        docks,
        plant_docks: rng.distinct(plant_docks as usize, top),
    }
}

/// Weighs nothing; the axles are fitted once the plan is known.
fn bare_tractor() -> Tractor {
    Tractor {
        weight: 0,
        to_middle: 1,
        to_centre: 0,
        to_harness: 0,
    }
}

fn bare_trailer() -> Trailer {
    Trailer {
        weight: 0,
        harness_to_rear: 20_000,
        centre_to_rear: 0,
        end_to_harness: 0,
        rear_limit: 1,
        middle_limit: 1,
    }
}

/// Truck index and copy of each used truck.
fn draw_used(rng: &mut Random, trucks: usize, wish: Wish) -> Vec<(usize, u32)> {
    let count = if wish.one_truck {
        1
    } else {
        rng.between(1, 2 * trucks as u32)
    };
    let mut used: Vec<(usize, u32)> = Vec::new();
    for _ in 0..count {
        let copy = rng.pick(&[0, 0, 0, 1, 2, 50, 98, 99]);
        let key = (rng.below(trucks), copy);
        if !used.contains(&key) {
            used.push(key);
        }
    }
    used
}

/// Keeps the stacks of a truck within 20 metres even when they stand one behind the other.
fn longest_side(rng: &mut Random, stacks: u32, used: usize) -> u32 {
    let scale = rng.pick(&[12, 40, 150, 1300, 3000, 20_000]);
    let room = 18_000 / stacks.div_ceil(used as u32).max(1);
    scale.min(if stacks == 1 { 20_000 } else { room })
}

fn draw_kinds(rng: &mut Random, wish: Wish, longest: u32, top: u32) -> Vec<Kind> {
    let count = if wish.one_code { 1 } else { rng.between(1, 6) as usize };
    let codes = rng.distinct(count, top);
    let mut kinds: Vec<Kind> = Vec::new();
    for code in codes {
        let copied = !kinds.is_empty() && rng.one_in(3);
        let (length, width) = if copied {
            let model = &kinds[rng.below(kinds.len())];
            (model.length, model.width)
        } else {
            draw_sides(rng, longest)
        };
        kinds.push(Kind { code, length, width });
    }
    kinds
}

/// Sides for which the whole width of a stack is the edge that it needs, or nearly is.
const NARROW: [u32; 10] = [60, 79, 80, 81, 90, 98, 99, 100, 101, 102];
const WIDEST_NARROW: u32 = 102;

/// Length and width.
fn draw_sides(rng: &mut Random, longest: u32) -> (u32, u32) {
    // Where no side is longer, all are narrow anyway.
    if longest > WIDEST_NARROW && rng.one_in(3) {
        return draw_narrow_sides(rng, longest);
    }
    let length = rng.between((longest / 6).max(11), longest);
    let shortest = 10.max(length / 8);
    let square = rng.one_in(4);
    (length, if square { length } else { rng.between(shortest, length) })
}

/// A narrow width; the length, which a turned stack has across the trailer, is narrow now and then.
fn draw_narrow_sides(rng: &mut Random, longest: u32) -> (u32, u32) {
    let side = rng.pick(&NARROW);
    let other = if rng.one_in(2) {
        rng.pick(&NARROW)
    } else {
        rng.between(WIDEST_NARROW, longest)
    };
    (side.max(other), side.min(other))
}

fn draw_drafts(
    rng: &mut Random,
    wish: Wish,
    budget: u32,
    limit: u32,
    trucks: &[Truck],
    used: &[(usize, u32)],
    kinds: &[Kind],
) -> Vec<Draft> {
    let mut drafts: Vec<Draft> = Vec::new();
    let mut left = budget;
    while left > 0 && (drafts.len() as u32) < limit {
        let kind = rng.below(kinds.len());
        let most = draw_count(rng, wish).min(left);
        // Every item weighs at least a kilogram, so a small footprint bears few of them.
        let count = most.min(kinds[kind].length * kinds[kind].width / 10).max(1);
        let place = rng.below(used.len());
        let truck = &trucks[used[place].0];
        let paired = |other: &Draft| other.used == place && other.kind == kind && other.has_two_docks();
        let pair_allowed = count > 1 && truck.two_docks == 1 && !drafts.iter().any(paired);
        drafts.push(draw_draft(rng, truck, place, kind, count, pair_allowed));
        left -= count;
    }
    drafts
}

fn draw_draft(rng: &mut Random, truck: &Truck, used: usize, kind: usize, count: u32, pair_allowed: bool) -> Draft {
    let supplier = rng.below(truck.suppliers.len());
    Draft {
        used,
        supplier,
        plant_docks: draw_plant_docks(rng, truck.plant_docks.len(), pair_allowed),
        supplier_dock: rng.below(truck.docks[supplier].len()),
        kind,
        orientation: rng.between(1, 2),
        count,
        x: 0,
        y: 0,
    }
}

fn draw_count(rng: &mut Random, wish: Wish) -> u32 {
    if wish.full && !wish.tall {
        return 1;
    }
    let least = if wish.tall { 2 } else { 1 };
    match rng.below(12) {
        0 => rng.between(least, 64),
        1..=3 => rng.between(least, 5),
        _ => rng.between(least, 3),
    }
}

fn draw_plant_docks(rng: &mut Random, docks: usize, pair_allowed: bool) -> [usize; 2] {
    if pair_allowed && docks > 1 && !rng.one_in(3) {
        let low = rng.below(docks - 1);
        [low, low + 1]
    } else {
        let only = rng.below(docks);
        [only, only]
    }
}

fn pack_all(rng: &mut Random, drafts: &mut [Draft], used: usize, kinds: &[Kind]) -> Option<()> {
    let widest = kinds.iter().map(|kind| kind.length).max()?;
    for index in 0..used {
        let bound = (widest * rng.between(1, 4)).min(20_000);
        pack(rng, drafts, index, kinds, bound)?;
    }
    Some(())
}

/// Places the stacks of one used truck in loading order; none if they outgrow 20 metres.
fn pack(rng: &mut Random, drafts: &mut [Draft], used: usize, kinds: &[Kind], bound: u32) -> Option<()> {
    let mut order: Vec<usize> = (0..drafts.len()).filter(|&index| drafts[index].used == used).collect();
    order.sort_by_key(|&index| drafts[index].key());
    let mut placed: Vec<(OrderKey, Footprint)> = Vec::new();
    for index in order {
        let draft = &mut drafts[index];
        let kind = &kinds[draft.kind];
        let along = if draft.orientation == 1 {
            kind.length
        } else {
            kind.width
        };
        let across = kind.length + kind.width - along;
        let key = draft.key();
        let before = placed.iter().filter(|(other, _)| *other < key);
        let foremost = before.map(|(_, footprint)| footprint.x).max().unwrap_or(0);
        let sides = (i64::from(along), i64::from(across));
        let footprint = find_place(rng, &placed, foremost, sides, i64::from(bound));
        if footprint.xe > 20_000 {
            return None;
        }
        draft.x = footprint.x as u32;
        draft.y = footprint.y as u32;
        placed.push((key, footprint));
    }
    Some(())
}

/// Tries spots next to stacks already placed; behind the rearmost stack there is always one.
fn find_place(
    rng: &mut Random,
    placed: &[(OrderKey, Footprint)],
    foremost: i64,
    (along, across): (i64, i64),
    bound: i64,
) -> Footprint {
    let at = |x: i64, y: i64| Footprint {
        x,
        xe: x + along,
        y,
        ye: y + across,
    };
    let footprints = placed.iter().map(|(_, footprint)| footprint);
    let fronts: Vec<&Footprint> = footprints.filter(|other| other.xe >= foremost).collect();
    let patient = rng.one_in(2);
    let mut best: Option<Footprint> = None;
    for _ in 0..24 {
        let Some(candidate) = draw_spot(rng, &fronts, foremost, at) else {
            continue;
        };
        let inside = candidate.y >= 0 && candidate.ye <= bound;
        if !inside || placed.iter().any(|(_, other)| candidate.overlaps(other)) {
            continue;
        }
        if best.is_none_or(|found| candidate.x < found.x) {
            best = Some(candidate);
        }
        if !patient {
            break;
        }
    }
    let rearmost = fronts.into_iter().max_by_key(|other| other.xe);
    // The narrower of the two has its whole width at the other.
    let fallback = rearmost.map_or(at(0, 0), |other| at(other.xe, other.y.min(bound - across)));
    best.unwrap_or(fallback)
}

/// A spot at the front wall or right behind one of these stacks, which holds it. They end where it may begin.
fn draw_spot(
    rng: &mut Random,
    fronts: &[&Footprint],
    foremost: i64,
    at: impl Fn(i64, i64) -> Footprint,
) -> Option<Footprint> {
    if fronts.is_empty() {
        return Some(at(0, if rng.one_in(4) { i64::from(rng.between(0, 9)) } else { 0 }));
    }
    let other = rng.pick(fronts);
    let across = at(0, 0).across();
    if foremost == 0 && rng.one_in(3) {
        return Some(at(0, rng.pick(&[other.ye, other.y - across, 0])));
    }
    let spot = at(other.xe, draw_aside(rng, &at(other.xe, 0), other));
    spot.braced_by(other).then_some(spot)
}

/// Where across the trailer a stack stands right behind another, with a liking for an edge that is just long enough, at either side.
fn draw_aside(rng: &mut Random, stack: &Footprint, other: &Footprint) -> i64 {
    let (needed, whole) = (stack.needed_edge_with(other), stack.across().min(other.across()));
    let between = needed + rng.below((whole - needed) as usize + 1) as i64;
    let edge = rng.pick(&[needed, needed, needed + 1, between, whole]);
    let (low, high) = (other.y + edge - stack.across(), other.ye - edge);
    let touching = other.y - stack.across() + rng.below((other.across() + stack.across()) as usize + 1) as i64;
    rng.pick(&[low, low, low, high, high, high, touching, 0])
}

fn make_stacks(
    rng: &mut Random,
    trucks: &[Truck],
    used: &[(usize, u32)],
    kinds: &[Kind],
    drafts: &[Draft],
) -> (Vec<Item>, Vec<Stack>) {
    let total: usize = drafts.iter().map(|draft| draft.count as usize).sum();
    let mut item_numbers: Vec<u32> = (1..=total as u32).collect();
    rng.shuffle(&mut item_numbers);
    let stack_numbers = stack_numbers(rng, drafts.len());
    let mut numbered = Vec::with_capacity(total);
    let mut stacks = Vec::with_capacity(drafts.len());
    for (draft, &number) in drafts.iter().zip(&stack_numbers) {
        let (truck, copy) = used[draft.used];
        let load = item_numbers.split_off(item_numbers.len() - draft.count as usize);
        let share = drafts.iter().filter(|other| other.used == draft.used).count() as u32;
        let items = make_items(rng, &trucks[truck], &kinds[draft.kind], draft, share);
        numbered.extend(load.iter().copied().zip(items));
        stacks.push(Stack {
            number,
            truck: truck as u32 + 1,
            copy,
            x: draft.x,
            y: draft.y,
            orientation: draft.orientation,
            load,
        });
    }
    numbered.sort_by_key(|&(item_number, _)| item_number);
    (numbered.into_iter().map(|(_, item)| item).collect(), stacks)
}

/// Distinct and not in file order.
fn stack_numbers(rng: &mut Random, count: usize) -> Vec<u32> {
    let mut numbers: Vec<u32> = if rng.one_in(2) {
        (1..=count as u32).collect()
    } else {
        rng.distinct(count, 65_535)
    };
    if rng.one_in(10) && !numbers.contains(&65_535) {
        numbers[0] = 65_535;
    }
    rng.shuffle(&mut numbers);
    numbers
}

/// The items of one stack, bottom first. `share` is how many stacks are on the used truck.
fn make_items(rng: &mut Random, truck: &Truck, kind: &Kind, draft: &Draft, share: u32) -> Vec<Item> {
    // Keeps the density within 100,000 and the load within 50,000.
    let heaviest = (kind.length * kind.width / 10 / draft.count).min(50_000 / share / draft.count);
    let highest = (20_000 / draft.count).min(rng.pick(&[9, 900, 20_000]));
    let max_stackability = if rng.one_in(2) {
        draft.count
    } else {
        rng.between(draft.count, 64)
    };
    (0..draft.count)
        .map(|place| {
            let height = rng.between(1, highest);
            let plant_dock = match place {
                0 => draft.plant_docks[0],
                1 => draft.plant_docks[1],
                _ => rng.pick(&draft.plant_docks),
            };
            Item {
                length: kind.length,
                width: kind.width,
                height,
                nesting: if rng.one_in(2) { 0 } else { rng.between(0, height - 1) },
                weight: rng.between(1, heaviest),
                code: kind.code,
                max_stackability,
                product: rng.pick(&truck.products),
                forced_orientation: if rng.one_in(3) { draft.orientation } else { 0 },
                earliest: truck.arrival - rng.between(0, truck.arrival.min(2)),
                latest: truck.arrival + rng.between(0, (399 - truck.arrival).min(2)),
                plant: truck.plant,
                plant_dock: truck.plant_docks[plant_dock],
                supplier: truck.suppliers[draft.supplier],
                supplier_dock: truck.docks[draft.supplier][draft.supplier_dock],
                daily_cost: rng.pick(&[0, 1, 30, 100_000]),
            }
        })
        .collect()
}
