//! Stacks right behind others, with a common edge that is just long enough to hold them or just too short. Which length that is depends on
//! the widths of both, as they stand; by chance too few of them are met.

use super::Made;

/// A stack of one item: length, width, copy, x, y, orientation.
type Placed = [u32; 6];

/// Width of the stack in front, width of the one behind it, their common edge and the verdict. There is no edge at a corner, and less than
/// none where a gap is.
const EDGES: [(i32, i32, i32, u32); 30] = [
    (1000, 1000, 1000, 0),
    (1000, 1000, 101, 0),
    (1000, 1000, 100, 0),
    (1000, 1000, 99, 24),
    (1000, 1000, 0, 24),
    (1000, 1000, -1, 24),
    (1000, 80, 80, 0),
    (1000, 80, 79, 24),
    (1000, 99, 99, 0),
    (1000, 99, 98, 24),
    (1000, 100, 100, 0),
    (1000, 100, 99, 24),
    (1000, 101, 100, 0),
    (1000, 101, 99, 24),
    (80, 1000, 80, 0),
    (80, 1000, 79, 24),
    (99, 1000, 99, 0),
    (99, 1000, 98, 24),
    (100, 1000, 100, 0),
    (100, 1000, 99, 24),
    (101, 1000, 100, 0),
    (101, 1000, 99, 24),
    (80, 90, 80, 0),
    (80, 90, 79, 24),
    (90, 80, 80, 0),
    (90, 80, 79, 24),
    (80, 80, 0, 24),
    (1, 1, 1, 0),
    (1, 1, 0, 24),
    (1, 1000, 0, 24),
];

const WIDE: Placed = [1000, 1000, 0, 0, 0, 1];
const UNTURNED: Placed = [90, 80, 0, 0, 0, 1];
const TURNED: Placed = [90, 80, 0, 0, 0, 2];
/// Two that stand side by side.
const LOW: Placed = square(0, 0);
const HIGH: Placed = square(0, 500);

const fn square(x: u32, y: u32) -> Placed {
    [500, 500, 0, x, y, 1]
}

/// What the case shows, the verdict and the stacks, which are numbered from 1.
const OTHERS: [(&str, u32, &[Placed]); 19] = [
    ("shared-60-60", 24, &[LOW, HIGH, [500, 120, 0, 500, 440, 1]]),
    ("shared-99-21", 24, &[LOW, HIGH, [500, 120, 0, 500, 401, 1]]),
    ("shared-100-20", 0, &[LOW, HIGH, [500, 120, 0, 500, 400, 1]]),
    ("shared-20-100", 0, &[LOW, HIGH, [500, 120, 0, 500, 480, 1]]),
    // A turned stack is as wide as its item is long.
    ("turned-1000-by-80-edge-100", 0, &[WIDE, [1000, 80, 0, 1000, 900, 2]]),
    ("turned-1000-by-80-edge-99", 24, &[WIDE, [1000, 80, 0, 1000, 901, 2]]),
    ("turned-90-by-80-edge-90", 0, &[WIDE, [90, 80, 0, 1000, 910, 2]]),
    ("turned-90-by-80-edge-89", 24, &[WIDE, [90, 80, 0, 1000, 911, 2]]),
    ("unturned-90-by-80-edge-80", 0, &[WIDE, [90, 80, 0, 1000, 920, 1]]),
    ("unturned-90-by-80-edge-79", 24, &[WIDE, [90, 80, 0, 1000, 921, 1]]),
    ("behind-turned-edge-90", 0, &[TURNED, [1000, 1000, 0, 80, 0, 1]]),
    ("behind-turned-edge-89", 24, &[TURNED, [1000, 1000, 0, 80, 1, 1]]),
    ("behind-unturned-edge-80", 0, &[UNTURNED, [1000, 1000, 0, 90, 0, 1]]),
    ("behind-unturned-edge-79", 24, &[UNTURNED, [1000, 1000, 0, 90, 1, 1]]),
    // The last stack of each chain has its whole width behind the one before.
    ("chain-edge-100", 0, &[LOW, square(500, 400), square(1000, 400)]),
    ("chain-edge-99", 24, &[LOW, square(500, 401), square(1000, 401)]),
    ("chain-corner", 24, &[LOW, square(500, 500), square(1000, 500)]),
    ("same-copy", 0, &[LOW, square(500, 0)]),
    ("other-copy", 24, &[LOW, [500, 500, 1, 500, 0, 1]]),
];

pub fn all() -> Vec<Made> {
    let edges = EDGES.iter().flat_map(|&(front, behind, edge, number)| {
        // At the low side of the stack in front and at its high side.
        let sides = [("low", 2000 + edge - behind), ("high", 2000 + front - edge)];
        sides.map(|(side, y)| {
            let label = format!("{behind}-behind-{front}-{}-{side}", word(edge));
            let in_front = [1000, front as u32, 0, 0, 2000, 1];
            case(&label, number, &[in_front, [1000, behind as u32, 0, 1000, y as u32, 1]])
        })
    });
    let others = OTHERS
        .iter()
        .map(|(label, number, stacks)| case(label, *number, stacks));
    edges.chain(others).collect()
}

fn word(edge: i32) -> String {
    match edge {
        0 => "corner".to_string(),
        1.. => format!("edge-{edge}"),
        _ => format!("gap-{}", -edge),
    }
}

fn case(label: &str, number: u32, stacks: &[Placed]) -> Made {
    let count = stacks.len();
    let mut instance = format!("transport=1\ninventory=1\nextra=0\nitems={count}\ntrucks=1\n");
    let mut plan = format!("stacks={count}\n");
    for (stack, [length, width, copy, x, y, orientation]) in (1..).zip(stacks) {
        instance += &format!("item={length},{width},500,0,10,{stack},1,1,0,0,9,1,1,1,1,1\n");
        plan += &format!("stack={stack},1,{copy},{x},{y},{orientation}\nload={stack}\n");
    }
    instance += "truck=4000,5000,500,24000,1,0,0,0,10000,100,7000,3800,1000,3000,7000,7500,2500,1500,24000,12000\n";
    instance += "products=1\nsuppliers=1\ndocks=1\nplantdocks=1\n";
    let label = format!("aimed-{number}-contact-{label}");
    Made::new(label, instance.into_bytes(), plan.into_bytes())
}
