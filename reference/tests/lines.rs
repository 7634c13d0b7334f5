//! Bad lines: their verdicts and the part handed back.

mod common;

use common::{answer, edit, refused, INSTANCE, PLAN};
use reference::bad_line;

const END: u32 = 12;

fn part(number: u32, line: u32) -> &'static [u8] {
    bad_line(INSTANCE.as_bytes(), PLAN.as_bytes(), number, line)
}

fn is_empty_part_at_instance_end(part: &[u8]) -> bool {
    part.is_empty() && part.as_ptr() == INSTANCE.as_bytes().as_ptr_range().end
}

#[test]
fn the_file_is_chosen_by_the_number() {
    assert_eq!(part(4, 1), b"transport=2");
    assert_eq!(part(5, 12), b"plantdocks=1");
    assert_eq!(part(7, 1), b"stacks=1");
    assert_eq!(part(8, 3), b"load=1,2");
    assert_eq!(part(8, 3).as_ptr(), PLAN[PLAN.len() - 9..].as_ptr());
}

#[test]
fn otherwise_the_empty_part_at_the_instance_end() {
    for number in [0, 1, 2, 3, 6, 9, 28, 29, u32::MAX] {
        assert!(is_empty_part_at_instance_end(part(number, 1)), "{number}");
    }
    for number in [4, 5, 7, 8] {
        assert!(is_empty_part_at_instance_end(part(number, 0)));
        assert!(is_empty_part_at_instance_end(part(number, u32::MAX)));
    }
    assert!(is_empty_part_at_instance_end(part(4, 13)));
    assert!(is_empty_part_at_instance_end(part(7, 4)));
}

#[test]
fn an_unended_last_line_is_there() {
    assert_eq!(bad_line(b"a\nbc", b"", 4, 2), b"bc");
    assert_eq!(bad_line(b"a\n", b"x\n\n", 7, 2), b"");
    let plan = b"x\n\ny";
    assert_eq!(bad_line(b"a\n", plan, 7, 2).as_ptr(), plan[2..].as_ptr());
    assert_eq!(bad_line(b"", b"", 4, 1), b"");
}

#[test]
fn missing_and_surplus_lines() {
    assert_eq!(answer("", PLAN), refused(4, 1, 0, 0));
    assert_eq!(answer(INSTANCE, ""), refused(7, 1, 0, 0));
    let short = edit(INSTANCE, "plantdocks=1\n", "");
    assert_eq!(answer(&short, PLAN), refused(4, END, 0, 0));
    let unended = INSTANCE.trim_end();
    assert_eq!(answer(unended, PLAN), refused(4, END, 0, 0));
    for surplus in ["\n", "x", "plantdocks=1\n", "\n\n"] {
        let long = format!("{INSTANCE}{surplus}");
        assert_eq!(answer(&long, PLAN), refused(4, END + 1, 0, 0));
        let long = format!("{PLAN}{surplus}");
        assert_eq!(answer(INSTANCE, &long), refused(7, 4, 0, 0));
    }
}

#[test]
fn wrong_form() {
    for bad in [
        "x=2",
        "Transport=2",
        "transport2",
        "transport=",
        "transport=02",
        "transport=00",
        "transport=2,",
        "transport=,2",
        "transport=2,2",
        "transport= 2",
        "transport=2\r",
        " transport=2",
        "transport=+2",
        "transport=10000000000",
        "",
    ] {
        assert_eq!(
            answer(&edit(INSTANCE, "transport=2", bad), PLAN),
            refused(4, 1, 0, 0),
            "{bad}"
        );
    }
    let too_many: Vec<String> = (1..=65).map(|_| "1".to_string()).collect();
    let plan = edit(PLAN, "load=1,2", &format!("load={}", too_many.join(",")));
    assert_eq!(answer(INSTANCE, &plan), refused(7, 3, 0, 0));
}

#[test]
fn out_of_range() {
    for bad in ["1001", "4294967296", "9999999999"] {
        let instance = edit(INSTANCE, "transport=2", &format!("transport={bad}"));
        assert_eq!(answer(&instance, PLAN), refused(5, 1, 0, 0), "{bad}");
    }
    assert_eq!(
        answer(&edit(INSTANCE, "products=1", "products=1,2,1"), PLAN),
        refused(5, 9, 0, 0)
    );
    for bad in [
        "stack=0,1,0,0,0,1",
        "stack=1,2,0,0,0,1",
        "stack=1,0,0,0,0,1",
        "stack=1,1,100,0,0,1",
        "stack=1,1,0,0,0,3",
    ] {
        assert_eq!(
            answer(INSTANCE, &edit(PLAN, "stack=1,1,0,0,0,1", bad)),
            refused(8, 2, 0, 0),
            "{bad}"
        );
    }
    assert_eq!(
        answer(INSTANCE, &edit(PLAN, "load=1,2", "load=1,3")),
        refused(8, 3, 0, 0)
    );
    let repeated = "stacks=2\nstack=1,1,0,0,0,1\nload=1\nstack=1,1,0,0,800,1\nload=2\n";
    assert_eq!(answer(INSTANCE, repeated), refused(8, 4, 0, 0));
}

#[test]
fn form_before_range_in_the_first_bad_line() {
    let both = edit(INSTANCE, "transport=2", "transport=2000,x");
    assert_eq!(answer(&both, PLAN), refused(4, 1, 0, 0));
    let range_first = edit(&edit(INSTANCE, "transport=2", "transport=2000"), "extra=", "Extra=");
    assert_eq!(answer(&range_first, PLAN), refused(5, 1, 0, 0));
    let form_first = edit(&edit(INSTANCE, "transport=2", "transport=x"), "extra=200", "extra=2000");
    assert_eq!(answer(&form_first, PLAN), refused(4, 1, 0, 0));
}

/// Four loads of 64 fill the plan; the line with the 257th entry is out of range.
#[test]
fn the_load_total() {
    let full = vec!["1"; 64].join(",");
    let mut plan = "stacks=5\n".to_string();
    for number in 1..=4 {
        plan += &format!("stack={number},1,0,0,0,1\nload={full}\n");
    }
    let at_limit = edit(&plan, "stacks=5", "stacks=4");
    assert_eq!(answer(INSTANCE, &at_limit), refused(9, 1, 256, 0));
    plan += "stack=5,1,0,0,0,1\nload=1\n";
    assert_eq!(answer(INSTANCE, &plan), refused(8, 11, 0, 0));
}
