//! Faults of whole lines, on every kind of line: key, signs, odd bytes, count of entries, and lines not where they belong.

use super::damage::{entries, key, Text};
use super::reading::{kind_of, Cases, Kind, KINDS};

/// Changes the line of that index.
type LineFault = fn(&mut Text, usize);

const FAULTS: [(&str, LineFault); 16] = [
    ("key-letter", key_letter),
    ("key-upper", |text, at| text.lines[at].make_ascii_uppercase()),
    ("key-number", key_number),
    ("equals-missing", equals_missing),
    ("equals-doubled", equals_doubled),
    ("space-before-key", |text, at| text.lines[at].insert(0, b' ')),
    ("carriage-return", |text, at| text.lines[at].push(b'\r')),
    ("byte-0", |text, at| text.lines[at].push(0)),
    ("byte-255", byte_255),
    ("two-faults", two_faults),
    ("empty", |text, at| text.lines[at].clear()),
    ("missing", |text, at| drop(text.lines.remove(at))),
    ("doubled", |text, at| text.lines.insert(at, text.lines[at].clone())),
    ("unended", unended),
    ("cut-after", |text, at| text.lines.truncate(at + 1)),
    ("cut-within", cut_within),
];

pub fn add(cases: &mut Cases) {
    for kind in &KINDS {
        for (word, fault) in FAULTS {
            cases.add_line(format!("{}-{word}", kind.word()), kind, fault);
        }
        add_entry_counts(cases, kind);
    }
    add_supplier_counts(cases);
}

fn key_letter(text: &mut Text, at: usize) {
    text.lines[at][0] = b'x';
}

/// `items=` becomes `item=` and `item=` becomes `items=`, and the like.
fn key_number(text: &mut Text, at: usize) {
    let equals = equals_place(text, at);
    if text.lines[at][equals - 1] == b's' {
        text.lines[at].remove(equals - 1);
    } else {
        text.lines[at].insert(equals, b's');
    }
}

fn equals_missing(text: &mut Text, at: usize) {
    let equals = equals_place(text, at);
    text.lines[at].remove(equals);
}

fn equals_doubled(text: &mut Text, at: usize) {
    let equals = equals_place(text, at);
    text.lines[at].insert(equals, b'=');
}

fn equals_place(text: &Text, at: usize) -> usize {
    key(&text.lines[at]).len() - 1
}

/// Between the equals sign and the first number.
fn byte_255(text: &mut Text, at: usize) {
    let value = key(&text.lines[at]).len();
    text.lines[at].insert(value, 255);
}

/// Out of range at the first entry and wrong in form after the last.
fn two_faults(text: &mut Text, at: usize) {
    text.set_entry(at, 0, b"9999999999");
    text.lines[at].push(b',');
}

/// Without its byte 10 a line runs into the next; the last one is left unended.
fn unended(text: &mut Text, at: usize) {
    if at + 1 < text.lines.len() {
        let next = text.lines.remove(at + 1);
        text.lines[at].extend(next);
    } else {
        text.ended = false;
    }
}

/// The file ends in the line, which is complete but for its byte 10.
fn cut_within(text: &mut Text, at: usize) {
    text.lines.truncate(at + 1);
    text.ended = false;
}

/// One entry too few, one too many; for lists the fewest and the most too.
fn add_entry_counts(cases: &mut Cases, kind: &Kind) {
    let mut counts = vec![("too-few", kind.least - 1), ("too-many", kind.most + 1)];
    if kind.is_list() {
        counts.extend([("fewest", kind.least), ("most", kind.most)]);
    }
    for (word, count) in counts {
        let label = format!("{}-entries-{word}", kind.word());
        cases.add_line(label, kind, |text, at| set_count(text, at, count));
    }
}

/// Drops entries at the end, or adds some: an item number to a load, else identifiers that are new to the line.
fn set_count(text: &mut Text, at: usize, count: usize) {
    let mut list = entries(&text.lines[at]);
    list.truncate(count);
    let added = list.len()..count;
    let loads = key(&text.lines[at]) == b"load=";
    list.extend(added.map(|place| if loads { b"1".to_vec() } else { identifier(place) }));
    text.set_entries(at, &list);
}

/// Stands nowhere in the load.
fn identifier(place: usize) -> Vec<u8> {
    (100 + place).to_string().into_bytes()
}

/// The suppliers of the last truck become fewer or more, with the `docks=` lines that go with them or without.
fn add_supplier_counts(cases: &mut Cases) {
    let kind = kind_of("suppliers=");
    for count in [1, 3, kind.most] {
        let label = format!("suppliers-{count}-docks");
        cases.add_line(format!("{label}-as-many"), kind, |text, at| {
            let docks = text.lines[at + 1].clone();
            let before = entries(&text.lines[at]).len();
            text.lines.splice(at + 1..at + 1 + before, vec![docks; count]);
            set_count(text, at, count);
        });
        cases.add_line(format!("{label}-unchanged"), kind, |text, at| {
            set_count(text, at, count)
        });
    }
}
