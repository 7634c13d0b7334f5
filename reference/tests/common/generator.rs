//! Runs the program that writes the generator's cases, and reads what it lists.

use reference::generator::Made;
use reference::table::NAMED_WORDS;
use reference::{case_folder, check};
use std::path::{Path, PathBuf};
use std::process::Command;

pub fn generate(folder: &str, options: &[&str]) -> PathBuf {
    let folder = Path::new(env!("CARGO_TARGET_TMPDIR")).join(folder);
    // Files of an earlier run must not pass for those of this one.
    let _ = std::fs::remove_dir_all(&folder);
    let run = Command::new(env!("CARGO_BIN_EXE_cases"))
        .arg(&folder)
        .args(options)
        .output()
        .unwrap();
    assert!(run.status.success(), "{}", String::from_utf8_lossy(&run.stderr));
    folder
}

/// The lines of the list, cut into words.
pub fn listed(folder: &Path) -> Vec<Vec<String>> {
    let list = std::fs::read_to_string(folder.join("list.txt")).unwrap();
    list.lines()
        .map(|line| line.split(' ').map(str::to_string).collect())
        .collect()
}

/// The program writes these cases. They are made anew here, so it shows too when they are not the same every time.
pub fn written_as_made(folder: &str, options: &[&str], cases: impl IntoIterator<Item = Made>) {
    let folder = generate(folder, options);
    let made: Vec<Made> = cases.into_iter().collect();
    let (listed, written) = (listed(&folder), case_folder::read(&folder).unwrap());
    assert_eq!(listed.len(), made.len());
    for ((words, written), made) in listed.iter().zip(written).zip(made) {
        assert_eq!(written.label, made.kind);
        assert!(written.instance == made.instance, "instance of {words:?}");
        assert!(written.plan == made.plan, "plan of {words:?}");
        let answer = check(&made.instance, &made.plan, &mut vec![1; NAMED_WORDS + 1]);
        assert_eq!(made.answer, answer, "{words:?}");
        assert_eq!(words[1..7].join(" "), answer.in_one_line(), "{words:?}");
    }
}

pub fn same_files(one: &Path, other: &Path) {
    let names = |folder: &Path| {
        let entries = std::fs::read_dir(folder).unwrap();
        let mut names: Vec<_> = entries.map(|entry| entry.unwrap().file_name()).collect();
        names.sort();
        names
    };
    assert_eq!(names(one), names(other));
    for name in names(one) {
        let (first, second) = (std::fs::read(one.join(&name)), std::fs::read(other.join(&name)));
        assert_eq!(first.unwrap(), second.unwrap(), "{name:?}");
    }
}

/// The label of the case whose stacks this one has in another order.
pub fn order_group(label: &str) -> Option<&str> {
    let (group, order) = label.rsplit_once("-order-")?;
    order.parse::<u32>().ok().map(|_| group)
}
