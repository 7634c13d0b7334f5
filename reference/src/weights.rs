//! Rules about weights: the load limit (26) and the axle loads (27, 28).

use crate::loading::{Loading, UsedTruck};
use crate::model::Truck;
use crate::verdict::{refuse, Verdict, MIDDLE, OVERLOAD, REAR};

pub fn check(loading: &Loading) -> Verdict {
    load_limits(loading)?;
    let departures: Vec<Vec<Departure>> = loading.used.iter().map(|used| departures(loading, used)).collect();
    axle_limits(loading, &departures, MIDDLE, middle_overloaded)?;
    axle_limits(loading, &departures, REAR, rear_overloaded)
}

/// Weight of all stacks on a used truck.
pub fn load_weight(loading: &Loading, used: &UsedTruck) -> i64 {
    used.stacks.iter().map(|&index| loading.stacks[index].weight).sum()
}

fn load_limits(loading: &Loading) -> Verdict {
    for used in &loading.used {
        if load_weight(loading, used) > i64::from(used.truck.load_limit) {
            return refuse(OVERLOAD, [used.number, used.copy, 0]);
        }
    }
    Ok(())
}

/// What is on the trailer when it leaves the supplier of order `order`.
#[derive(Debug, Clone, Copy, PartialEq, Eq)]
pub struct Departure {
    pub order: u32,
    pub weight: i64,
    /// Twice the moment about the rear axle, trailer included.
    pub moment: i64,
}

/// The departures of a used truck with at least one stack on, in loading order.
pub fn departures(loading: &Loading, used: &UsedTruck) -> Vec<Departure> {
    let trailer = &used.truck.trailer;
    let rear_axle = i64::from(trailer.end_to_harness) + i64::from(trailer.harness_to_rear);
    let suppliers = used.truck.suppliers.len();
    let mut weight_from = vec![0; suppliers];
    let mut moment_from = vec![0; suppliers];
    for &index in &used.stacks {
        let stack = &loading.stacks[index];
        let order = used.truck.supplier_order(stack.bottom.supplier);
        let place = order.expect("rule 12 has found the supplier") as usize - 1;
        weight_from[place] += stack.weight;
        moment_from[place] += stack.weight * (2 * rear_axle - stack.footprint.x - stack.footprint.xe);
    }
    let mut weight = 0;
    let mut moment = 2 * i64::from(trailer.weight) * i64::from(trailer.centre_to_rear);
    let mut departures = Vec::with_capacity(suppliers);
    for place in 0..suppliers {
        weight += weight_from[place];
        moment += moment_from[place];
        // Every stack weighs something, so no weight means no stack.
        if weight > 0 {
            let order = place as u32 + 1;
            departures.push(Departure { order, weight, moment });
        }
    }
    departures
}

/// Load on the middle axle, multiplied by `middle_factor`.
pub fn middle_lever(truck: &Truck, departure: &Departure) -> i64 {
    let tractor = &truck.tractor;
    let own = 2 * i64::from(truck.trailer.harness_to_rear) * i64::from(tractor.weight) * i64::from(tractor.to_centre);
    own + departure.moment * i64::from(tractor.to_harness)
}

pub fn middle_factor(truck: &Truck) -> i64 {
    2 * i64::from(truck.trailer.harness_to_rear) * i64::from(truck.tractor.to_middle)
}

/// Load on the rear axle, multiplied by `rear_factor`.
pub fn rear_lever(truck: &Truck, departure: &Departure) -> i64 {
    rear_factor(truck) * (departure.weight + i64::from(truck.trailer.weight)) - departure.moment
}

pub fn rear_factor(truck: &Truck) -> i64 {
    2 * i64::from(truck.trailer.harness_to_rear)
}

fn middle_overloaded(truck: &Truck, departure: &Departure) -> bool {
    middle_lever(truck, departure) > middle_factor(truck) * i64::from(truck.trailer.middle_limit)
}

fn rear_overloaded(truck: &Truck, departure: &Departure) -> bool {
    rear_lever(truck, departure) > rear_factor(truck) * i64::from(truck.trailer.rear_limit)
}

fn axle_limits(
    loading: &Loading,
    departures: &[Vec<Departure>],
    number: u32,
    overloaded: impl Fn(&Truck, &Departure) -> bool,
) -> Verdict {
    for (used, departures) in loading.used.iter().zip(departures) {
        for departure in departures {
            if overloaded(used.truck, departure) {
                return refuse(number, [used.number, used.copy, departure.order]);
            }
        }
    }
    Ok(())
}
