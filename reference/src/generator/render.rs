//! Writes an instance and a plan as the two files.

use crate::model::{Instance, Plan, Truck};

fn line(text: &mut Vec<u8>, key: &str, numbers: &[u32]) {
    text.extend_from_slice(key.as_bytes());
    for (place, number) in numbers.iter().enumerate() {
        if place > 0 {
            text.push(b',');
        }
        text.extend_from_slice(number.to_string().as_bytes());
    }
    text.push(b'\n');
}

pub fn instance(instance: &Instance) -> Vec<u8> {
    let mut text = Vec::new();
    line(&mut text, "transport=", &[instance.transport]);
    line(&mut text, "inventory=", &[instance.inventory]);
    line(&mut text, "extra=", &[instance.extra]);
    line(&mut text, "items=", &[instance.items.len() as u32]);
    line(&mut text, "trucks=", &[instance.trucks.len() as u32]);
    for item in &instance.items {
        line(&mut text, "item=", &item.fields());
    }
    for truck in &instance.trucks {
        truck_lines(&mut text, truck);
    }
    text
}

fn truck_lines(text: &mut Vec<u8>, truck: &Truck) {
    line(text, "truck=", &truck.fields());
    line(text, "products=", &truck.products);
    line(text, "suppliers=", &truck.suppliers);
    for docks in &truck.docks {
        line(text, "docks=", docks);
    }
    line(text, "plantdocks=", &truck.plant_docks);
}

pub fn plan(plan: &Plan) -> Vec<u8> {
    let mut text = Vec::new();
    line(&mut text, "stacks=", &[plan.stacks.len() as u32]);
    for stack in &plan.stacks {
        line(&mut text, "stack=", &stack.fields());
        line(&mut text, "load=", &stack.load);
    }
    text
}
