//! Two stacks of one supplier dock, one behind the other, with every choice of one plant dock or two neighbouring ones for each. What the
//! loading order asks of stacks with two plant docks is too seldom met by chance.

use super::Made;

/// The truck's plant docks in loading order, which is not the order of their numbers.
const PLANT_DOCKS: [u32; 3] = [7, 5, 9];

/// Lowest and highest loading order of a stack's plant docks.
const CHOICES: [[usize; 2]; 5] = [[1, 1], [2, 2], [3, 3], [1, 2], [2, 3]];

pub fn all() -> Vec<Made> {
    let pairs = CHOICES
        .iter()
        .flat_map(|front| CHOICES.iter().map(move |behind| (front, behind)));
    pairs.map(|(front, behind)| case(front, behind)).collect()
}

/// The stack in front has items 1 and 2, the one behind it items 3 and 4; their codes differ, so that both may have two plant docks.
fn case(front: &[usize; 2], behind: &[usize; 2]) -> Made {
    let mut instance = "transport=1\ninventory=1\nextra=0\nitems=4\ntrucks=1\n".to_string();
    for (code, orders) in [(1, front), (2, behind)] {
        for order in orders {
            let dock = PLANT_DOCKS[order - 1];
            instance += &format!("item=1000,1000,500,0,100,{code},2,1,0,0,9,1,{dock},1,1,1\n");
        }
    }
    instance += "truck=4000,2400,2700,24000,1,0,1000,1,1500,100,7000,3800,1000,3000,7000,7500,2500,1500,24000,12000\n";
    let [first, second, third] = PLANT_DOCKS;
    instance += &format!("products=1\nsuppliers=1\ndocks=1\nplantdocks={first},{second},{third}\n");
    let plan = "stacks=2\nstack=1,1,0,0,0,1\nload=1,2\nstack=2,1,0,1000,0,1\nload=3,4\n";
    let label = format!("plant-docks-{}-before-{}", word(front), word(behind));
    Made::new(label, instance.into_bytes(), plan.into())
}

fn word([low, high]: &[usize; 2]) -> String {
    if low == high {
        low.to_string()
    } else {
        format!("{low}-{high}")
    }
}
