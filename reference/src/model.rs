//! The instance and the plan as ordinary structs.

#[derive(Debug, Clone, PartialEq, Eq)]
pub struct Instance {
    pub transport: u32,
    pub inventory: u32,
    pub extra: u32,
    pub items: Vec<Item>,
    pub trucks: Vec<Truck>,
}

#[derive(Debug, Clone, PartialEq, Eq)]
pub struct Item {
    pub length: u32,
    pub width: u32,
    pub height: u32,
    pub nesting: u32,
    pub weight: u32,
    pub code: u32,
    pub max_stackability: u32,
    pub product: u32,
    pub forced_orientation: u32,
    pub earliest: u32,
    pub latest: u32,
    pub plant: u32,
    pub plant_dock: u32,
    pub supplier: u32,
    pub supplier_dock: u32,
    pub daily_cost: u32,
}

#[derive(Debug, Clone, PartialEq, Eq)]
pub struct Truck {
    pub length: u32,
    pub width: u32,
    pub height: u32,
    pub load_limit: u32,
    pub plant: u32,
    pub arrival: u32,
    pub limit_above: u32,
    pub two_docks: u32,
    pub density_limit: u32,
    pub cost: u32,
    pub tractor: Tractor,
    pub trailer: Trailer,
    pub products: Vec<u32>,
    pub suppliers: Vec<u32>,
    /// One list per supplier, in the suppliers' order.
    pub docks: Vec<Vec<u32>>,
    pub plant_docks: Vec<u32>,
}

/// Distances run from the front axle.
#[derive(Debug, Clone, PartialEq, Eq)]
pub struct Tractor {
    pub weight: u32,
    pub to_middle: u32,
    pub to_centre: u32,
    pub to_harness: u32,
}

#[derive(Debug, Clone, PartialEq, Eq)]
pub struct Trailer {
    pub weight: u32,
    pub harness_to_rear: u32,
    pub centre_to_rear: u32,
    pub end_to_harness: u32,
    pub rear_limit: u32,
    pub middle_limit: u32,
}

#[derive(Debug, Clone, PartialEq, Eq)]
pub struct Plan {
    pub stacks: Vec<Stack>,
}

#[derive(Debug, Clone, PartialEq, Eq)]
pub struct Stack {
    pub number: u32,
    pub truck: u32,
    pub copy: u32,
    pub x: u32,
    pub y: u32,
    pub orientation: u32,
    /// Item numbers from 1, bottom first.
    pub load: Vec<u32>,
}

/// Loading order of an identifier: its place in the list, from 1.
pub fn loading_order(list: &[u32], identifier: u32) -> Option<u32> {
    let place = list.iter().position(|&entry| entry == identifier)?;
    Some(place as u32 + 1)
}

impl Item {
    /// The fields in the order of the file.
    pub fn fields(&self) -> [u32; 16] {
        [
            self.length,
            self.width,
            self.height,
            self.nesting,
            self.weight,
            self.code,
            self.max_stackability,
            self.product,
            self.forced_orientation,
            self.earliest,
            self.latest,
            self.plant,
            self.plant_dock,
            self.supplier,
            self.supplier_dock,
            self.daily_cost,
        ]
    }
}

impl Truck {
    /// The fields of the `truck=` line in the order of the file.
    pub fn fields(&self) -> [u32; 20] {
        [
            self.length,
            self.width,
            self.height,
            self.load_limit,
            self.plant,
            self.arrival,
            self.limit_above,
            self.two_docks,
            self.density_limit,
            self.cost,
            self.tractor.weight,
            self.tractor.to_middle,
            self.tractor.to_centre,
            self.tractor.to_harness,
            self.trailer.weight,
            self.trailer.harness_to_rear,
            self.trailer.centre_to_rear,
            self.trailer.end_to_harness,
            self.trailer.rear_limit,
            self.trailer.middle_limit,
        ]
    }

    pub fn supplier_order(&self, supplier: u32) -> Option<u32> {
        loading_order(&self.suppliers, supplier)
    }

    /// Order of a dock among the docks of that supplier.
    pub fn dock_order(&self, supplier: u32, dock: u32) -> Option<u32> {
        let order = self.supplier_order(supplier)?;
        loading_order(&self.docks[order as usize - 1], dock)
    }

    pub fn plant_dock_order(&self, dock: u32) -> Option<u32> {
        loading_order(&self.plant_docks, dock)
    }
}

impl Stack {
    /// The fields of the `stack=` line in the order of the file.
    pub fn fields(&self) -> [u32; 6] {
        [self.number, self.truck, self.copy, self.x, self.y, self.orientation]
    }
}
