//! Numbers written wrongly or with the most digits, and commas too many, on every kind of line.

use super::damage::entries;
use super::reading::{Cases, Load, KINDS};

/// What is written in place of a number.
type Form = fn(u64) -> String;

const FORMS: [(&str, Form); 14] = [
    ("empty", |_| String::new()),
    ("zero", |_| "0".to_string()),
    ("two-zeros", |_| "00".to_string()),
    ("zero-one", |_| "01".to_string()),
    ("32-bits", |_| "4294967295".to_string()),
    ("33-bits", |_| "4294967296".to_string()),
    ("10-digits", |_| "9999999999".to_string()),
    // The next two are the number itself to a reader that drops what exceeds 32 bits.
    ("wrapped", |number| (number + (1 << 32)).to_string()),
    ("11-digits", |number| (number + (10 << 32)).to_string()),
    ("minus", |number| format!("-{number}")),
    ("plus", |number| format!("+{number}")),
    ("space-before", |number| format!(" {number}")),
    ("space-after", |number| format!("{number} ")),
    ("letter", |number| format!("{number}a")),
];

type CommaFault = fn(&mut Vec<Vec<u8>>);

const COMMA_FAULTS: [(&str, CommaFault); 3] = [
    ("comma-front", |list| list.insert(0, Vec::new())),
    ("comma-end", |list| list.push(Vec::new())),
    ("comma-doubled", comma_doubled),
];

/// A single number has no comma to double and gets a second number.
fn comma_doubled(list: &mut Vec<Vec<u8>>) {
    if list.len() == 1 {
        list.push(list[0].clone());
    }
    list.insert(1, Vec::new());
}

pub fn add(cases: &mut Cases) {
    for (turn, kind) in KINDS.iter().enumerate() {
        let mut load = Load::unchanged();
        let (text, at) = load.line_of(kind);
        let list = entries(&text.lines[at]);
        // First, middle and last entry take turns, so that over the kinds each form stands at each of them.
        let places = [0, list.len() / 2, list.len() - 1];
        for (form_turn, (word, form)) in FORMS.iter().enumerate() {
            let place = places[(turn + form_turn) % places.len()];
            let entry = form(text.number(at, place).expect("the load holds numbers"));
            let label = format!("{}-written-{word}", kind.word());
            cases.add_line(label, kind, |text, at| text.set_entry(at, place, entry.as_bytes()));
        }
        for (word, fault) in COMMA_FAULTS {
            let mut list = list.clone();
            fault(&mut list);
            let label = format!("{}-{word}", kind.word());
            cases.add_line(label, kind, |text, at| text.set_entries(at, &list));
        }
    }
}
