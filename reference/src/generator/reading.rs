//! Bad and edge input of the two files, one case after the other and without randomness. Each case is a small change of
//! one accepted load.

use super::damage::{key, Text};
use super::Made;
use super::{reading_fields, reading_files, reading_lines, reading_numbers};
use std::collections::HashSet;

/// Every kind of line occurs. No identifier is 1, so that an entry put at its low end repeats no other; and the plan
/// needs no last entry of a list, so that a list changed there is still read through to an acceptance.
const INSTANCE: &[u8] = include_bytes!("reading_load/instance.txt");

/// An extra truck is used, so that every number of the cost counts.
const PLAN: &[u8] = include_bytes!("reading_load/plan.txt");

pub const ITEMS: usize = 3;
pub const TRUCKS: usize = 2;

#[derive(Clone, Copy, PartialEq, Eq)]
pub enum File {
    Instance,
    Plan,
}

/// A kind of line, and the least and most entries such a line holds.
pub struct Kind {
    pub file: File,
    pub key: &'static str,
    pub least: usize,
    pub most: usize,
}

pub static KINDS: [Kind; 14] = [
    kind(File::Instance, "transport=", 1, 1),
    kind(File::Instance, "inventory=", 1, 1),
    kind(File::Instance, "extra=", 1, 1),
    kind(File::Instance, "items=", 1, 1),
    kind(File::Instance, "trucks=", 1, 1),
    kind(File::Instance, "item=", 16, 16),
    kind(File::Instance, "truck=", 20, 20),
    kind(File::Instance, "products=", 1, 32),
    kind(File::Instance, "suppliers=", 1, 8),
    kind(File::Instance, "docks=", 1, 8),
    kind(File::Instance, "plantdocks=", 1, 8),
    kind(File::Plan, "stacks=", 1, 1),
    kind(File::Plan, "stack=", 6, 6),
    kind(File::Plan, "load=", 1, 64),
];

const fn kind(file: File, key: &'static str, least: usize, most: usize) -> Kind {
    Kind { file, key, least, most }
}

pub fn kind_of(key: &str) -> &'static Kind {
    let found = KINDS.iter().find(|kind| kind.key == key);
    found.expect("only keys of the two files are looked up")
}

impl Kind {
    pub fn word(&self) -> &'static str {
        self.key.trim_end_matches('=')
    }

    /// Whether the count of entries is free between the least and the most.
    pub fn is_list(&self) -> bool {
        self.least < self.most
    }
}

/// The two files of a load, cut into lines.
#[derive(Clone)]
pub struct Load {
    pub instance: Text,
    pub plan: Text,
}

impl Load {
    pub fn unchanged() -> Self {
        Load {
            instance: Text::new(INSTANCE, ITEMS, TRUCKS),
            plan: Text::new(PLAN, ITEMS, TRUCKS),
        }
    }

    pub fn file(&mut self, file: File) -> &mut Text {
        match file {
            File::Instance => &mut self.instance,
            File::Plan => &mut self.plan,
        }
    }

    /// The file of that kind of line, and the last such line in it: where a kind comes more than once, others of it
    /// are read before.
    pub fn line_of(&mut self, kind: &Kind) -> (&mut Text, usize) {
        let text = self.file(kind.file);
        let at = text.lines.iter().rposition(|line| key(line) == kind.key.as_bytes());
        (text, at.expect("every kind of line occurs"))
    }
}

/// The cases so far. Two changes that give the same files are one case.
#[derive(Default)]
pub struct Cases {
    made: Vec<Made>,
    seen: HashSet<(Vec<u8>, Vec<u8>)>,
}

impl Cases {
    pub fn add_files(&mut self, label: impl Into<String>, instance: Vec<u8>, plan: Vec<u8>) {
        if self.seen.insert((instance.clone(), plan.clone())) {
            self.made.push(Made::new(label, instance, plan));
        }
    }

    pub fn add(&mut self, label: impl Into<String>, load: &Load) {
        self.add_files(label, load.instance.bytes(), load.plan.bytes());
    }

    /// A change of one file of the load.
    pub fn add_changed(&mut self, label: impl Into<String>, file: File, change: impl FnOnce(&mut Text)) {
        let mut load = Load::unchanged();
        change(load.file(file));
        self.add(label, &load);
    }

    /// A change of the last line of a kind; the change gets the file and the line's index.
    pub fn add_line(&mut self, label: impl Into<String>, kind: &Kind, change: impl FnOnce(&mut Text, usize)) {
        let mut load = Load::unchanged();
        let (text, at) = load.line_of(kind);
        change(text, at);
        self.add(label, &load);
    }
}

/// All cases; the first is the unchanged load.
pub fn all() -> Vec<Made> {
    let mut cases = Cases::default();
    cases.add("unchanged", &Load::unchanged());
    reading_fields::add(&mut cases);
    reading_numbers::add(&mut cases);
    reading_lines::add(&mut cases);
    reading_files::add(&mut cases);
    cases.made
}
