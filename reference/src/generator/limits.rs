//! The smallest limits a plan keeps, and trucks fitted to them.

use super::packed::Case;
use super::random::Random;
use crate::loading::{LoadedStack, Loading};
use crate::model::Truck;
use crate::weights::{self, Departure};

const HEAVIEST: i64 = 50_000;

/// Smallest limits that a truck's stacks keep, over all its copies.
#[derive(Clone, Copy, Default)]
pub struct FloorNeed {
    pub length: i64,
    pub width: i64,
    pub height: i64,
    pub load: i64,
    pub above: i64,
    pub density: i64,
}

/// Smallest axle limits that one departure keeps.
#[derive(Clone, Copy)]
pub struct AxleNeed {
    pub truck: usize,
    pub middle: i64,
    pub rear: i64,
}

fn divide_up(value: i64, by: i64) -> i64 {
    (value + by - 1).div_euclid(by)
}

pub fn floor_need(case: &Case, truck: usize) -> FloorNeed {
    let loading = Loading::new(&case.instance, &case.plan);
    let mut need = FloorNeed::default();
    for used in loading.used.iter().filter(|used| used.number as usize == truck + 1) {
        need.load = need.load.max(weights::load_weight(&loading, used));
        for &index in &used.stacks {
            let stack = &loading.stacks[index];
            let area = i64::from(stack.bottom.length) * i64::from(stack.bottom.width);
            need.length = need.length.max(stack.footprint.xe);
            need.width = need.width.max(stack.footprint.ye);
            need.height = need.height.max(stack.height);
            need.above = need.above.max(stack.weight - i64::from(stack.bottom.weight));
            need.density = need.density.max(divide_up(stack.weight * 1_000_000, area));
        }
    }
    need
}

/// None when a changed case has a stack whose supplier the truck does not visit.
fn departures_of(case: &Case, truck: usize) -> Vec<Departure> {
    let loading = Loading::new(&case.instance, &case.plan);
    let visited = |stack: &LoadedStack| stack.truck.suppliers.contains(&stack.bottom.supplier);
    if !loading.stacks.iter().all(visited) {
        return Vec::new();
    }
    let used = loading.used.iter().filter(|used| used.number as usize == truck + 1);
    used.flat_map(|used| weights::departures(&loading, used)).collect()
}

pub fn axle_needs(case: &Case, truck: usize) -> Vec<AxleNeed> {
    let model = &case.instance.trucks[truck];
    let need = |departure: &Departure| AxleNeed {
        truck,
        middle: divide_up(weights::middle_lever(model, departure), weights::middle_factor(model)),
        rear: divide_up(weights::rear_lever(model, departure), weights::rear_factor(model)),
    };
    departures_of(case, truck).iter().map(need).collect()
}

/// Sets every limit of every truck to what the plan needs, or above it unless `tight`.
pub fn fit(rng: &mut Random, case: &mut Case, tight: bool) {
    for truck in 0..case.instance.trucks.len() {
        if case.plan.stacks.iter().any(|stack| stack.truck as usize == truck + 1) {
            fit_floor(rng, case, truck, tight);
            fit_axles(rng, case, truck, tight);
        }
    }
}

fn limit(rng: &mut Random, tight: bool, need: i64, low: u32, high: u32) -> u32 {
    let need = need.max(i64::from(low)) as u32;
    match rng.below(4) {
        _ if tight => need,
        0 | 1 => need,
        2 => (need + 1).min(high),
        _ => rng.between(need, high),
    }
}

fn fit_floor(rng: &mut Random, case: &mut Case, truck: usize, tight: bool) {
    let need = floor_need(case, truck);
    let model = &mut case.instance.trucks[truck];
    model.length = limit(rng, tight, need.length, 1, 20_000);
    model.width = limit(rng, tight, need.width, 1, 20_000);
    model.height = limit(rng, tight, need.height, 1, 20_000);
    model.load_limit = limit(rng, tight, need.load, 1, 50_000);
    model.limit_above = limit(rng, tight, need.above, 0, 50_000);
    model.density_limit = limit(rng, tight, need.density, 1, 100_000);
}

fn fit_axles(rng: &mut Random, case: &mut Case, truck: usize, tight: bool) {
    let rear_end = floor_need(case, truck).length as u32;
    for _ in 0..12 {
        match rng.below(6) {
            0 => draw_ordinary_axles(rng, &mut case.instance.trucks[truck]),
            1 => draw_any_axles(rng, &mut case.instance.trucks[truck]),
            2 | 3 => draw_short_axles(rng, &mut case.instance.trucks[truck], rear_end),
            _ => draw_exact_axles(rng, case, truck, rear_end),
        }
        if set_axle_limits(rng, case, truck, tight) {
            return;
        }
    }
    // A weightless trailer with a far rear axle bears any load that is within the load limit.
    let model = &mut case.instance.trucks[truck];
    model.tractor.weight = 0;
    model.tractor.to_harness = 0;
    model.trailer.weight = 0;
    model.trailer.harness_to_rear = 20_000;
    model.trailer.end_to_harness = 0;
    assert!(set_axle_limits(rng, case, truck, tight), "axle limits must exist");
}

fn set_axle_limits(rng: &mut Random, case: &mut Case, truck: usize, tight: bool) -> bool {
    let needs = axle_needs(case, truck);
    let middle = needs.iter().map(|need| need.middle).max().unwrap_or(0);
    let rear = needs.iter().map(|need| need.rear).max().unwrap_or(0);
    if middle > HEAVIEST || rear > HEAVIEST {
        return false;
    }
    let trailer = &mut case.instance.trucks[truck].trailer;
    trailer.middle_limit = limit(rng, tight, middle, 1, 50_000);
    trailer.rear_limit = limit(rng, tight, rear, 1, 50_000);
    true
}

fn draw_ordinary_axles(rng: &mut Random, truck: &mut Truck) {
    truck.tractor.weight = rng.between(5000, 9000);
    truck.tractor.to_middle = rng.between(3000, 4500);
    truck.tractor.to_centre = rng.between(500, 2000);
    truck.tractor.to_harness = rng.between(2000, truck.tractor.to_middle);
    truck.trailer.weight = rng.between(3000, 9000);
    truck.trailer.harness_to_rear = rng.between(3000, 9000);
    truck.trailer.centre_to_rear = rng.between(1000, truck.trailer.harness_to_rear);
    truck.trailer.end_to_harness = rng.between(500, 2500);
}

fn draw_any_axles(rng: &mut Random, truck: &mut Truck) {
    truck.tractor.weight = rng.between(0, 50_000);
    truck.tractor.to_middle = rng.between(1, 20_000);
    truck.tractor.to_centre = rng.between(0, 20_000);
    truck.tractor.to_harness = rng.between(0, 20_000);
    truck.trailer.weight = rng.between(0, 50_000);
    truck.trailer.harness_to_rear = rng.between(1, 20_000);
    truck.trailer.centre_to_rear = rng.between(0, 20_000);
    truck.trailer.end_to_harness = rng.between(0, 20_000);
}

/// The rear axle stands before the rear end, so some stacks have negative levers.
fn draw_short_axles(rng: &mut Random, truck: &mut Truck, rear_end: u32) {
    truck.tractor.weight = rng.between(0, 100);
    truck.tractor.to_middle = rng.between(1, 100);
    truck.tractor.to_centre = rng.between(0, 100);
    truck.tractor.to_harness = rng.between(0, 200);
    truck.trailer.harness_to_rear = rng.between(1, rear_end / 2 + 1);
    truck.trailer.weight = rng.between(0, 2000);
    truck.trailer.centre_to_rear = rng.between(0, truck.trailer.harness_to_rear);
    // With the harness far back, stacks lift the rear axle instead.
    let harness = if rng.one_in(3) { rear_end } else { rear_end / 3 };
    truck.trailer.end_to_harness = rng.between(harness / 2, harness);
}

/// Weights of trailer and tractor are chosen so that both axle sums equal a whole limit.
fn draw_exact_axles(rng: &mut Random, case: &mut Case, truck: usize, rear_end: u32) {
    let model = &mut case.instance.trucks[truck];
    let to_rear = rng.between(1, 2 * rear_end).min(10_000);
    model.trailer.harness_to_rear = to_rear;
    model.trailer.centre_to_rear = to_rear - 1;
    model.trailer.end_to_harness = rng.between(0, rear_end).min(20_000);
    model.trailer.weight = 0;
    model.tractor.weight = 0;
    model.tractor.to_centre = 1;
    model.tractor.to_harness = 2 * to_rear;
    let departures = departures_of(case, truck);
    let model = &mut case.instance.trucks[truck];
    let rear = departures
        .iter()
        .map(|departure| weights::rear_lever(model, departure))
        .max();
    // The trailer adds twice its weight to the rear sum, which must become a multiple of twice the distance.
    let rear = rear.unwrap_or(0).div_euclid(2);
    model.trailer.weight = (-rear).rem_euclid(i64::from(to_rear)) as u32;
    let moment = departures_of(case, truck)
        .iter()
        .map(|departure| departure.moment)
        .max();
    let moment = moment.unwrap_or(0);
    let model = &mut case.instance.trucks[truck];
    let least = (moment / HEAVIEST + 1).clamp(1, 20_000) as u32;
    model.tractor.to_middle = rng.between(least, (4 * least).min(20_000));
    model.tractor.weight = (-moment).rem_euclid(i64::from(model.tractor.to_middle)) as u32;
}
