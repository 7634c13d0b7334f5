//! The example in C says what the program says, and gives back the files that it has read.

mod c_programs;

use c_programs::{built, in_repository};
use std::process::Command;

#[test]
fn the_example_in_c_prints_the_answer_and_the_bad_line_or_the_files() {
    let text = |path: &str| std::fs::read_to_string(in_repository(path)).unwrap();
    let files = text("examples/one_load/instance.txt") + &text("examples/one_load/plan.txt");
    let accepted = text("crates/loadcheck/stdout") + &files;
    let refused = "number=7\nfirst=2\nsecond=0\nthird=0\ncost=0\ntrucks=0\nstack=1,1,0,0,1\n".to_string();
    let example = built("example");
    for (folder, printed, status) in [
        ("examples/one_load", accepted, 0),
        ("crates/loadwhy/data/07-plan-form", refused, 1),
    ] {
        let run = Command::new(&example).arg(in_repository(folder)).output().unwrap();
        assert_eq!(String::from_utf8(run.stdout).unwrap(), printed, "{folder}");
        assert_eq!(run.status.code(), Some(status), "{folder}");
    }
}
