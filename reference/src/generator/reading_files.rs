//! Faults that more than one line makes: whole files, repeats, counts, the load total, and which of two faults is told.

use super::damage::{entries, key, Text};
use super::reading::{kind_of, Cases, File, Kind, Load, KINDS};

const FILES: [(&str, File); 2] = [("instance", File::Instance), ("plan", File::Plan)];

/// More digits than 32 bits hold, so out of every range but right in form.
const OUT_OF_RANGE: &[u8] = b"9999999999";

pub fn add(cases: &mut Cases) {
    add_blank_files(cases);
    add_surplus(cases);
    add_sizes(cases);
    add_repeats(cases);
    add_counts(cases);
    add_load_totals(cases);
    add_faults_in_one_line(cases);
    add_faults_in_two_lines(cases);
    add_faults_in_both_files(cases);
    add_code_clashes(cases);
    add_smallest_loads(cases);
    add_largest_loads(cases);
    add_full_tables(cases);
}

fn add_blank_files(cases: &mut Cases) {
    let load = Load::unchanged();
    let (instance, plan) = (load.instance.bytes(), load.plan.bytes());
    for (word, blank) in [("empty", ""), ("only-line-end", "\n"), ("only-unended", "0")] {
        let blank = blank.as_bytes().to_vec();
        cases.add_files(format!("{word}-instance"), blank.clone(), plan.clone());
        cases.add_files(format!("{word}-plan"), instance.clone(), blank.clone());
        cases.add_files(format!("{word}-both"), blank.clone(), blank);
    }
    cases.add_files("files-exchanged", plan, instance);
}

/// Lines or bytes too many after the last line, and an empty line before the first.
fn add_surplus(cases: &mut Cases) {
    let surplus: [(&str, &[u8]); 6] = [
        ("line", b"extra=200\n"),
        ("empty-line", b"\n"),
        ("carriage-return-line", b"\r\n"),
        ("unended-line", b"extra=200"),
        ("space", b" "),
        ("byte-0", b"\0"),
    ];
    let load = Load::unchanged();
    let (instance, plan) = (load.instance.bytes(), load.plan.bytes());
    for (word, more) in surplus {
        let longer = |file: &[u8]| [file, more].concat();
        cases.add_files(format!("instance-{word}-more"), longer(&instance), plan.clone());
        cases.add_files(format!("plan-{word}-more"), instance.clone(), longer(&plan));
    }
    for (word, file) in FILES {
        cases.add_changed(format!("{word}-empty-line-first"), file, |text| {
            text.lines.insert(0, Vec::new());
        });
    }
}

/// One byte more than a file may have, and just as many; what is too much stands in an unended line.
fn add_sizes(cases: &mut Cases) {
    let load = Load::unchanged();
    let (instance, plan) = (load.instance.bytes(), load.plan.bytes());
    for size in [65_536, 65_535] {
        let (long_instance, long_plan) = (filled(&instance, size), filled(&plan, size));
        cases.add_files(format!("instance-{size}-bytes"), long_instance.clone(), plan.clone());
        cases.add_files(format!("plan-{size}-bytes"), instance.clone(), long_plan.clone());
        cases.add_files(format!("both-{size}-bytes"), long_instance, long_plan.clone());
        cases.add_files(format!("empty-instance-plan-{size}-bytes"), Vec::new(), long_plan);
    }
}

/// The file made longer by an unended line.
pub fn filled(file: &[u8], size: usize) -> Vec<u8> {
    [file, &b"0".repeat(size - file.len())].concat()
}

/// The same identifier twice in a list, next to each other or not, and the same stack number twice.
fn add_repeats(cases: &mut Cases) {
    let lines = Load::unchanged().instance.lines;
    let lists = ["products=", "suppliers=", "docks=", "plantdocks="];
    for (at, line) in lines.iter().enumerate() {
        let Some(list_key) = lists.iter().find(|list_key| key(line) == list_key.as_bytes()) else {
            continue;
        };
        let first = entries(line)[0].clone();
        let label = format!("{}-line-{}-repeat", kind_of(list_key).word(), at + 1);
        cases.add_changed(format!("{label}-next"), File::Instance, |text| {
            text.set_entry(at, 1, &first);
        });
        cases.add_changed(format!("{label}-apart"), File::Instance, |text| {
            text.lines[at].push(b',');
            text.lines[at].extend(first);
        });
    }
    for (word, numbers) in [("next", [5, 5, 9]), ("apart", [5, 9, 5]), ("none", [5, 9, 7])] {
        let plan = three_stacks(numbers);
        cases.add_files(format!("stack-number-repeat-{word}"), lines_ended(&lines), plan);
    }
}

fn lines_ended(lines: &[Vec<u8>]) -> Vec<u8> {
    lines.iter().flat_map(|line| [line, &b"\n"[..]].concat()).collect()
}

/// Each item in a stack of its own, side by side on the first truck.
fn three_stacks(numbers: [u32; 3]) -> Vec<u8> {
    let mut plan = "stacks=3\n".to_string();
    for ((number, y), item) in numbers.iter().zip([0, 600, 1400]).zip([3, 1, 2]) {
        plan += &format!("stack={number},1,0,0,{y},1\nload={item}\n");
    }
    plan.into_bytes()
}

/// The count of items, trucks or stacks against the lines that follow.
fn add_counts(cases: &mut Cases) {
    for count_key in ["items=", "trucks=", "stacks="] {
        let kind = kind_of(count_key);
        for (word, step) in [("one-high", 1), ("one-low", -1)] {
            cases.add_line(format!("{}-{word}", kind.word()), kind, |text, at| {
                let count = text.number(at, 0).expect("the load holds its counts");
                text.set_entry(at, 0, count.saturating_add_signed(step).to_string().as_bytes());
            });
        }
    }
    cases.add_changed("stacks-none", File::Plan, |text| {
        text.lines = vec![b"stacks=0".to_vec()];
    });
}

/// A plan of loads of so many entries each, all of item 1.
fn plan_of_loads(counts: &[usize]) -> Vec<Vec<u8>> {
    let mut lines = vec![format!("stacks={}", counts.len()).into_bytes()];
    for (index, &count) in counts.iter().enumerate() {
        lines.push(format!("stack={},1,0,0,0,1", index + 1).into_bytes());
        lines.push(format!("load={}", vec!["1"; count].join(",")).into_bytes());
    }
    lines
}

/// Loads that hold 256 entries together, more, and more with another fault before, in or after the line.
fn add_load_totals(cases: &mut Cases) {
    let totals: [(&str, &[usize]); 6] = [
        ("256-in-4", &[64; 4]),
        ("256-in-5", &[64, 64, 64, 63, 1]),
        ("257-in-5", &[64, 64, 64, 64, 1]),
        ("257-by-second-entry", &[64, 64, 64, 63, 2]),
        ("258-in-6", &[64, 64, 64, 64, 1, 1]),
        ("321-long-line", &[64, 64, 64, 64, 65]),
    ];
    for (word, counts) in totals {
        cases.add_changed(format!("loads-{word}"), File::Plan, |text| {
            text.lines = plan_of_loads(counts);
        });
    }
    let faults: [(&str, usize, &str); 6] = [
        ("form-before", 9, "stack=5,1,0,0,0"),
        ("repeat-before", 9, "stack=4,1,0,0,0,1"),
        ("form-in-line", 10, "load=1,"),
        ("range-in-line", 10, "load=4"),
        ("form-after", 11, "stack=6,1,0,0,0"),
        ("range-after", 11, "stack=6,3,0,0,0,1"),
    ];
    for (word, at, line) in faults {
        cases.add_changed(format!("loads-258-{word}"), File::Plan, |text| {
            text.lines = plan_of_loads(&[64, 64, 64, 64, 1, 1]);
            text.lines[at] = line.as_bytes().to_vec();
        });
    }
}

fn wrong_form(text: &mut Text, at: usize) {
    text.lines[at].push(b',');
}

fn out_of_range(text: &mut Text, at: usize) {
    text.set_entry(at, 0, OUT_OF_RANGE);
}

/// A wrong form is told before a value out of range or a repeat of the same line, wherever they stand in it.
fn add_faults_in_one_line(cases: &mut Cases) {
    let repeated = vec!["5"; 33].join(",");
    let zeros = vec!["0"; 65].join(",");
    let lines = [
        ("item=", "0,0,0,0,0,0,0,0,0,0,0,0,0,0,0".to_string()),
        ("truck=", "a,1,1,1,1,0,0,2,0,0,0,0,0,0,0,0,0,0,0,0".to_string()),
        ("products=", repeated),
        ("suppliers=", "7,7,".to_string()),
        ("stack=", "5,2,1,0,600".to_string()),
        ("load=", zeros),
    ];
    for (line_key, value) in lines {
        let kind = kind_of(line_key);
        cases.add_line(format!("{}-form-and-range", kind.word()), kind, |text, at| {
            text.lines[at] = format!("{line_key}{value}").into_bytes();
        });
    }
}

/// The earlier of two bad lines is told, whichever fault it has.
fn add_faults_in_two_lines(cases: &mut Cases) {
    for pair in KINDS.windows(2).filter(|pair| pair[0].file == pair[1].file) {
        let [earlier, later] = pair else { continue };
        let label = format!("{}-{}", earlier.word(), later.word());
        add_two_lines(
            cases,
            &format!("{label}-range-form"),
            [(earlier, out_of_range), (later, wrong_form)],
        );
        add_two_lines(
            cases,
            &format!("{label}-form-range"),
            [(earlier, wrong_form), (later, out_of_range)],
        );
    }
    for (word, file) in FILES {
        cases.add_changed(format!("{word}-unended-range-first"), file, |text| {
            out_of_range(text, 0);
            text.ended = false;
        });
        cases.add_changed(format!("{word}-line-missing-range-first"), file, |text| {
            out_of_range(text, 0);
            text.lines.pop();
        });
        cases.add_changed(format!("{word}-line-more-range-first"), file, |text| {
            let last = text.lines.len() - 1;
            out_of_range(text, last);
            text.lines.push(text.lines[last].clone());
        });
    }
}

type Fault = fn(&mut Text, usize);

fn add_two_lines(cases: &mut Cases, label: &str, faults: [(&Kind, Fault); 2]) {
    let mut load = Load::unchanged();
    for (kind, fault) in faults {
        let (text, at) = load.line_of(kind);
        fault(text, at);
    }
    cases.add(label, &load);
}

/// A bad instance is told before a bad plan.
fn add_faults_in_both_files(cases: &mut Cases) {
    let faults: [(&str, Fault); 2] = [("form", wrong_form), ("range", out_of_range)];
    for (first_word, first) in faults {
        for (second_word, second) in faults {
            let label = format!("instance-{first_word}-plan-{second_word}");
            let (instance, plan) = (kind_of("plantdocks="), kind_of("stacks="));
            add_two_lines(cases, &label, [(instance, first), (plan, second)]);
        }
    }
}

/// A code clash is told after a bad instance and before a bad plan.
fn add_code_clashes(cases: &mut Cases) {
    let others: [(&str, Option<(&Kind, Fault)>); 5] = [
        ("alone", None),
        ("instance-form", Some((kind_of("plantdocks="), wrong_form))),
        ("instance-range", Some((kind_of("plantdocks="), out_of_range))),
        ("plan-form", Some((kind_of("stacks="), wrong_form))),
        ("plan-range", Some((kind_of("stacks="), out_of_range))),
    ];
    for (word, other) in others {
        let mut load = clashing_load();
        if let Some((kind, fault)) = other {
            let (text, at) = load.line_of(kind);
            fault(text, at);
        }
        cases.add(format!("clash-{word}"), &load);
    }
    cases.add_files("clash-empty-plan", clashing_load().instance.bytes(), Vec::new());
}

/// The last item takes the code of the others, which are longer and wider.
fn clashing_load() -> Load {
    let code = 5;
    let mut load = Load::unchanged();
    let (text, at) = load.line_of(kind_of("item="));
    text.set_entry(at, code, b"3");
    load
}

/// Light enough for the density limit of 1 on its square metre.
const SMALLEST_ITEM: &str = "item=1000,1000,1,0,1,1,1,1,0,0,0,1,1,1,1,0\n";
/// The middle of the stack lies far behind the rear axle, so the rear limit is above 1.
const SMALLEST_TRUCK: &str = "truck=1000,1000,1,1,1,0,0,0,1,0,0,1,0,0,0,1,0,0,500,1\n";

/// Numbers that are small throughout, with one truck and with the most.
fn add_smallest_loads(cases: &mut Cases) {
    for (word, trucks, used) in [("smallest", 1, 1), ("16-trucks", 16, 16), ("16-trucks-above", 16, 17)] {
        let head = format!("transport=0\ninventory=0\nextra=0\nitems=1\ntrucks={trucks}\n");
        let truck = format!("{SMALLEST_TRUCK}products=1\nsuppliers=1\ndocks=1\nplantdocks=1\n");
        let instance = head + SMALLEST_ITEM + &truck.repeat(trucks);
        let plan = format!("stacks=1\nstack=1,{used},0,0,0,1\nload=1\n");
        cases.add_files(word, instance.into_bytes(), plan.into_bytes());
    }
}

/// Numbers that are large throughout: the levers exceed 32 bits. With the harness over the front axle the middle axle
/// bears just its limit, and the longest stay in stock gives the largest cost of an item.
fn add_largest_loads(cases: &mut Cases) {
    for (word, earliest, arrival, harness) in [("largest", 399, 399, 20_000), ("largest-cost", 0, 0, 0)] {
        let instance = format!(
            "transport=1000\ninventory=1000\nextra=1000\nitems=1\ntrucks=1\n\
             item=20000,20000,20000,19999,50000,65535,64,65535,2,{earliest},399,65535,65535,65535,65535,100000\n\
             truck=20000,20000,20000,50000,65535,{arrival},50000,1,100000,1000000,50000,20000,20000,{harness},\
             50000,20000,20000,20000,50000,50000\n\
             products=65535\nsuppliers=65535\ndocks=65535\nplantdocks=65535\n"
        );
        let plan = b"stacks=1\nstack=65535,1,99,0,0,2\nload=1\n";
        cases.add_files(word, instance.into_bytes(), plan.to_vec());
    }
}

/// As many items, trucks, stacks, load entries and listed identifiers as there may be, so that every row of the table is filled; and one
/// more of each count.
fn add_full_tables(cases: &mut Cases) {
    for (word, items, trucks, stacks) in [
        ("full", 256, 16, 256),
        ("full-items-above", 257, 16, 256),
        ("full-trucks-above", 256, 17, 256),
        ("full-stacks-above", 256, 16, 257),
    ] {
        let instance = full_instance(items, trucks);
        cases.add_files(word, instance.into_bytes(), full_plan(stacks).into_bytes());
    }
}

fn full_instance(items: usize, trucks: usize) -> String {
    let mut instance = format!("transport=1\ninventory=1\nextra=1\nitems={items}\ntrucks={trucks}\n");
    for item in 0..items {
        let number = item + 1;
        instance += &format!("item={number},{number},9,0,1,{number},64,{number},0,0,9,1,1,1,1,{item}\n");
    }
    for truck in 0..trucks {
        instance += &format!("truck=9,9,9,9,1,0,9,0,9,{truck},9,9,9,9,9,9,9,9,9,9\n");
        instance += &format!("products={}\n", counted_from(100 * truck + 1, 32));
        instance += &format!("suppliers={}\n", counted_from(10 * truck + 1, 8));
        for supplier in 0..8 {
            instance += &format!("docks={}\n", counted_from(1000 * truck + 10 * supplier + 1, 8));
        }
        instance += &format!("plantdocks={}\n", counted_from(60_000 + truck, 8));
    }
    instance
}

fn counted_from(first: usize, count: usize) -> String {
    let numbers: Vec<String> = (first..first + count).map(|number| number.to_string()).collect();
    numbers.join(",")
}

fn full_plan(stacks: usize) -> String {
    let mut plan = format!("stacks={stacks}\n");
    for stack in 0..stacks {
        let (number, truck, copy) = (65_535 - stack, stack % 16 + 1, stack % 100);
        plan += &format!("stack={number},{truck},{copy},{stack},0,1\n");
        plan += &format!("load={}\n", stack % 256 + 1);
    }
    plan
}
