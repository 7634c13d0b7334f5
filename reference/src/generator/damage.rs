//! Damage to the bytes of a file: wrong form, values out of range, and single numbers moved by one.

use super::random::Random;

/// A file cut into lines. The counts bound the numbers of the plan.
#[derive(Clone)]
pub struct Text {
    pub lines: Vec<Vec<u8>>,
    pub ended: bool,
    pub items: u64,
    pub trucks: u64,
}

/// Changes the text; false when there was nothing to change.
pub type Damage = fn(&mut Text, &mut Random) -> bool;

pub const FORM: &[(&str, Damage)] = &[
    ("form-missing", missing),
    ("form-cut", cut_off),
    ("form-surplus", surplus),
    ("form-surplus-end", surplus_end),
    ("form-empty-line", empty_line),
    ("form-unended", unended),
    ("form-unended-mid", unended_mid),
    ("form-tail", tail),
    ("form-key", key_byte),
    ("form-key-other", key_other),
    ("form-key-short", key_short),
    ("form-upper", upper),
    ("form-sign", sign),
    ("form-odd-byte", odd_byte),
    ("form-zero", leading_zero),
    ("form-digits", many_digits),
    ("form-few", entry_few),
    ("form-many", entry_many),
    ("form-none", entry_none),
    ("form-comma", comma),
    ("form-list-long", list_long),
    ("form-swapped", lines_swapped),
    ("form-broken", line_broken),
    ("form-count", count_moved),
    ("form-nothing", nothing_left),
];

pub const RANGE: &[(&str, Damage)] = &[
    ("range-beyond", beyond),
    ("range-beyond", beyond),
    ("range-beyond", beyond),
    ("range-end", at_end),
    ("range-huge", huge),
    ("range-repeat", repeat),
    ("range-repeat", repeat),
    ("range-total", load_total),
];

impl Text {
    pub fn new(bytes: &[u8], items: usize, trucks: usize) -> Self {
        let mut lines: Vec<Vec<u8>> = bytes.split(|&byte| byte == b'\n').map(<[u8]>::to_vec).collect();
        let ended = lines.last().is_some_and(Vec::is_empty);
        if ended {
            lines.pop();
        }
        Text {
            lines,
            ended,
            items: items as u64,
            trucks: trucks as u64,
        }
    }

    pub fn bytes(&self) -> Vec<u8> {
        let mut bytes = self.lines.join(&b'\n');
        if self.ended && !self.lines.is_empty() {
            bytes.push(b'\n');
        }
        bytes
    }

    /// A random line; the kinds of lines come up about equally often.
    fn line(&self, rng: &mut Random) -> Option<usize> {
        if self.lines.is_empty() {
            return None;
        }
        let some = rng.below(self.lines.len());
        let mut keys: Vec<&[u8]> = self.lines.iter().map(|line| key(line)).collect();
        keys.dedup();
        let wanted = rng.pick(&keys);
        let alike: Vec<usize> = (0..self.lines.len())
            .filter(|&at| key(&self.lines[at]) == wanted)
            .collect();
        Some(if rng.one_in(3) { some } else { rng.pick(&alike) })
    }

    fn line_with(&self, rng: &mut Random, keys: &[&str]) -> Option<usize> {
        let fitting: Vec<usize> = (0..self.lines.len())
            .filter(|&at| keys.iter().any(|wanted| key(&self.lines[at]) == wanted.as_bytes()))
            .collect();
        (!fitting.is_empty()).then(|| rng.pick(&fitting))
    }

    /// A random line with numbers, and one of its entries.
    fn entry(&self, rng: &mut Random) -> Option<(usize, usize)> {
        let at = self.line(rng)?;
        let count = entries(&self.lines[at]).len();
        (count > 0).then(|| (at, rng.below(count)))
    }

    pub fn set_entry(&mut self, at: usize, place: usize, entry: &[u8]) {
        let mut list = entries(&self.lines[at]);
        list[place] = entry.to_vec();
        self.set_entries(at, &list);
    }

    pub fn set_entries(&mut self, at: usize, list: &[Vec<u8>]) {
        let mut line = key(&self.lines[at]).to_vec();
        line.extend(list.join(&b','));
        self.lines[at] = line;
    }

    pub fn number(&self, at: usize, place: usize) -> Option<u64> {
        let list = entries(&self.lines[at]);
        std::str::from_utf8(list.get(place)?).ok()?.parse().ok()
    }
}

/// The line up to its equals sign, the sign included; empty if there is none.
pub fn key(line: &[u8]) -> &[u8] {
    let end = line.iter().position(|&byte| byte == b'=').map_or(0, |place| place + 1);
    &line[..end]
}

pub fn entries(line: &[u8]) -> Vec<Vec<u8>> {
    let value = &line[key(line).len()..];
    value.split(|&byte| byte == b',').map(<[u8]>::to_vec).collect()
}

/// Lowest and highest value of an entry; some depend on another entry of the line.
fn bounds(text: &Text, at: usize, place: usize) -> Option<(u64, u64)> {
    let id = (1, 65_535);
    let side = (1, 20_000);
    let mass = (1, 50_000);
    Some(match key(&text.lines[at]) {
        b"transport=" | b"inventory=" | b"extra=" => (0, 1000),
        b"items=" => (1, 256),
        b"trucks=" => (1, 16),
        b"stacks=" => (0, 256),
        b"item=" => match place {
            0 | 2 => side,
            1 => (1, text.number(at, 0)?),
            3 => (0, text.number(at, 2)?.saturating_sub(1)),
            4 => mass,
            6 => (1, 64),
            8 => (0, 2),
            9 => (0, text.number(at, 10)?),
            10 => (text.number(at, 9)?, 399),
            15 => (0, 100_000),
            _ => id,
        },
        b"truck=" => match place {
            0..=2 | 11 | 15 => side,
            3 | 18 | 19 => mass,
            4 => id,
            5 => (0, 399),
            6 | 10 | 14 => (0, 50_000),
            7 => (0, 1),
            8 => (1, 100_000),
            9 => (0, 1_000_000),
            _ => (0, 20_000),
        },
        b"stack=" => *[id, (1, text.trucks), (0, 99), (0, 20_000), (0, 20_000), (1, 2)].get(place)?,
        b"load=" => (1, text.items),
        _ => id,
    })
}

fn missing(text: &mut Text, rng: &mut Random) -> bool {
    let Some(at) = text.line(rng) else {
        return false;
    };
    text.lines.remove(at);
    true
}

fn cut_off(text: &mut Text, rng: &mut Random) -> bool {
    let keep = rng.below(text.lines.len().max(1));
    let shorter = keep < text.lines.len();
    text.lines.truncate(keep);
    shorter
}

fn surplus(text: &mut Text, rng: &mut Random) -> bool {
    let Some(at) = text.line(rng) else {
        return false;
    };
    text.lines.insert(at, text.lines[at].clone());
    true
}

fn surplus_end(text: &mut Text, rng: &mut Random) -> bool {
    let Some(at) = text.line(rng) else {
        return false;
    };
    let line = rng.pick(&[&text.lines[at][..], b"", b"\n", b"0"]).to_vec();
    text.lines.push(line);
    true
}

fn empty_line(text: &mut Text, rng: &mut Random) -> bool {
    let at = rng.below(text.lines.len() + 1);
    text.lines.insert(at, Vec::new());
    true
}

fn unended(text: &mut Text, _: &mut Random) -> bool {
    std::mem::replace(&mut text.ended, false)
}

fn unended_mid(text: &mut Text, rng: &mut Random) -> bool {
    let Some(at) = text.line(rng) else {
        return false;
    };
    text.lines.truncate(at + 1);
    let length = text.lines[at].len();
    text.lines[at].truncate(rng.below(length + 1));
    std::mem::replace(&mut text.ended, false)
}

/// Bytes after the last line end.
fn tail(text: &mut Text, rng: &mut Random) -> bool {
    text.lines.push(rng.pick(&[&b"0"[..], b" ", b"\0", b"item="]).to_vec());
    std::mem::replace(&mut text.ended, false)
}

fn key_byte(text: &mut Text, rng: &mut Random) -> bool {
    let Some(at) = text.line(rng) else {
        return false;
    };
    let length = key(&text.lines[at]).len();
    if length == 0 {
        return false;
    }
    let place = rng.below(length);
    let line = &mut text.lines[at];
    match rng.below(3) {
        0 => drop(line.remove(place)),
        1 => line.insert(place, b'e'),
        _ => line[place] = line[place].wrapping_add(1),
    }
    true
}

fn key_other(text: &mut Text, rng: &mut Random) -> bool {
    let Some(at) = text.line(rng) else {
        return false;
    };
    let all = [
        "transport=",
        "extra=",
        "items=",
        "item=",
        "trucks=",
        "truck=",
        "docks=",
        "stack=",
        "stacks=",
        "load=",
    ];
    let value = text.lines[at][key(&text.lines[at]).len()..].to_vec();
    let mut line = rng.pick(&all).as_bytes().to_vec();
    line.extend(value);
    let differs = line != text.lines[at];
    text.lines[at] = line;
    differs
}

/// Only a start of the key is left.
fn key_short(text: &mut Text, rng: &mut Random) -> bool {
    let Some(at) = text.line(rng) else {
        return false;
    };
    let length = key(&text.lines[at]).len();
    text.lines[at].truncate(rng.below(length.max(1)));
    true
}

fn upper(text: &mut Text, rng: &mut Random) -> bool {
    let Some(at) = text.line(rng) else {
        return false;
    };
    let length = key(&text.lines[at]).len();
    if length < 2 {
        return false;
    }
    let place = if rng.one_in(2) { 0 } else { rng.below(length - 1) };
    text.lines[at][place].make_ascii_uppercase();
    true
}

/// A sign that does not belong there, at either end, after the equals sign or anywhere.
fn sign(text: &mut Text, rng: &mut Random) -> bool {
    let Some(at) = text.line(rng) else {
        return false;
    };
    let byte = rng.pick(b" \r\t+-.=;x");
    let value = key(&text.lines[at]).len();
    let line = &mut text.lines[at];
    let place = match rng.below(5) {
        0 => 0,
        1 => value,
        2 => rng.below(line.len() + 1),
        _ => line.len(),
    };
    line.insert(place, byte);
    true
}

fn odd_byte(text: &mut Text, rng: &mut Random) -> bool {
    let Some(at) = text.line(rng) else {
        return false;
    };
    let byte = rng.pick(&[0, 255, 128, b'0' + 128, b'/', b':']);
    let line = &mut text.lines[at];
    let place = rng.below(line.len() + 1);
    if place < line.len() && rng.one_in(2) {
        line[place] = byte;
    } else {
        line.insert(place, byte);
    }
    true
}

fn leading_zero(text: &mut Text, rng: &mut Random) -> bool {
    let Some((at, place)) = text.entry(rng) else {
        return false;
    };
    let mut entry = entries(&text.lines[at])[place].clone();
    entry.insert(0, b'0');
    text.set_entry(at, place, &entry);
    true
}

fn many_digits(text: &mut Text, rng: &mut Random) -> bool {
    let Some((at, place)) = text.entry(rng) else {
        return false;
    };
    let entry = rng.pick(&[
        &b"10000000000"[..],
        b"00000000001",
        b"99999999999",
        b"18446744073709551617",
    ]);
    text.set_entry(at, place, entry);
    true
}

fn entry_few(text: &mut Text, rng: &mut Random) -> bool {
    let Some((at, place)) = text.entry(rng) else {
        return false;
    };
    let mut list = entries(&text.lines[at]);
    list.remove(place);
    text.set_entries(at, &list);
    true
}

fn entry_many(text: &mut Text, rng: &mut Random) -> bool {
    let Some((at, place)) = text.entry(rng) else {
        return false;
    };
    let mut list = entries(&text.lines[at]);
    list.insert(place, list[place].clone());
    text.set_entries(at, &list);
    true
}

fn entry_none(text: &mut Text, rng: &mut Random) -> bool {
    let Some(at) = text.line(rng) else {
        return false;
    };
    text.set_entries(at, &[]);
    true
}

/// A comma too many: before, after or between the numbers.
fn comma(text: &mut Text, rng: &mut Random) -> bool {
    let Some((at, place)) = text.entry(rng) else {
        return false;
    };
    let mut list = entries(&text.lines[at]);
    let place = rng.pick(&[0, place, list.len()]);
    list.insert(place, Vec::new());
    text.set_entries(at, &list);
    true
}

/// A list of just the most entries it may hold, or of one more.
fn list_long(text: &mut Text, rng: &mut Random) -> bool {
    let lists = ["products=", "suppliers=", "docks=", "plantdocks=", "load="];
    let Some(at) = text.line_with(rng, &lists) else {
        return false;
    };
    let (most, top) = match key(&text.lines[at]) {
        b"products=" => (32, 99),
        b"load=" => (64, 0),
        _ => (8, 20),
    };
    let count = most + usize::from(!rng.one_in(3));
    let numbers = if top > 0 {
        rng.distinct(count, top)
    } else {
        vec![1; count]
    };
    let list: Vec<Vec<u8>> = numbers.iter().map(|number| number.to_string().into_bytes()).collect();
    text.set_entries(at, &list);
    true
}

fn lines_swapped(text: &mut Text, rng: &mut Random) -> bool {
    if text.lines.is_empty() {
        return false;
    }
    let first = rng.below(text.lines.len());
    let second = if rng.one_in(2) {
        rng.below(text.lines.len())
    } else {
        (first + 1) % text.lines.len()
    };
    text.lines.swap(first, second);
    text.lines[first] != text.lines[second]
}

fn line_broken(text: &mut Text, rng: &mut Random) -> bool {
    let Some(at) = text.line(rng) else {
        return false;
    };
    let place = rng.below(text.lines[at].len() + 1);
    let rest = text.lines[at].split_off(place);
    text.lines.insert(at + 1, rest);
    true
}

/// The count of items, trucks or stacks moves by one.
fn count_moved(text: &mut Text, rng: &mut Random) -> bool {
    let Some(at) = text.line_with(rng, &["items=", "trucks=", "stacks="]) else {
        return false;
    };
    move_by_one(text, rng, at, 0)
}

fn nothing_left(text: &mut Text, rng: &mut Random) -> bool {
    text.lines = if rng.one_in(2) { Vec::new() } else { vec![Vec::new()] };
    true
}

fn put_number(text: &mut Text, at: usize, place: usize, number: u64) -> bool {
    let differs = text.number(at, place) != Some(number);
    text.set_entry(at, place, number.to_string().as_bytes());
    differs
}

/// One beyond either end of the range; under 0 there is nothing.
fn beyond(text: &mut Text, rng: &mut Random) -> bool {
    let Some((at, place)) = text.entry(rng) else {
        return false;
    };
    let Some((low, high)) = bounds(text, at, place) else {
        return false;
    };
    let number = if low > 0 && rng.one_in(2) { low - 1 } else { high + 1 };
    put_number(text, at, place, number)
}

/// Just at either end of the range.
pub fn at_end(text: &mut Text, rng: &mut Random) -> bool {
    let Some((at, place)) = text.entry(rng) else {
        return false;
    };
    let Some((low, high)) = bounds(text, at, place) else {
        return false;
    };
    put_number(text, at, place, rng.pick(&[low, high]))
}

fn huge(text: &mut Text, rng: &mut Random) -> bool {
    let Some((at, place)) = text.entry(rng) else {
        return false;
    };
    let wrapped = text.number(at, place).unwrap_or(0) % 1_000_000_000;
    let huge = [
        4_294_967_295,
        4_294_967_296,
        4_294_967_297,
        9_999_999_999,
        4_294_967_296 + wrapped,
    ];
    put_number(text, at, place, rng.pick(&huge))
}

/// The same identifier twice in a list, or the same stack number twice.
fn repeat(text: &mut Text, rng: &mut Random) -> bool {
    let keys = ["products=", "suppliers=", "docks=", "plantdocks=", "stack="];
    let Some(at) = text.line_with(rng, &keys) else {
        return false;
    };
    if key(&text.lines[at]) == b"stack=" {
        let other = text.line_with(rng, &["stack="]).unwrap_or(at);
        let number = text.number(other, 0).unwrap_or(1);
        return at != other && put_number(text, at, 0, number);
    }
    let mut list = entries(&text.lines[at]);
    let place = rng.below(list.len());
    let other = rng.below(list.len());
    if place == other {
        list.push(list[place].clone());
    } else {
        list[place] = list[other].clone();
    }
    text.set_entries(at, &list);
    true
}

/// A plan whose loads together hold about 256 entries.
fn load_total(text: &mut Text, rng: &mut Random) -> bool {
    if text.lines.first().map(|line| key(line)) != Some(&b"stacks="[..]) {
        return false;
    }
    let stacks = rng.between(5, 8) as usize;
    let total = rng.pick(&[255, 256, 257, 257, 258]);
    let mut counts = vec![1; stacks];
    while counts.iter().sum::<usize>() < total {
        let place = rng.below(stacks);
        counts[place] = (counts[place] + rng.below(16)).min(64);
        let surplus = counts.iter().sum::<usize>().saturating_sub(total);
        counts[place] -= surplus.min(counts[place] - 1);
    }
    text.lines = vec![format!("stacks={stacks}").into_bytes()];
    for (number, count) in rng.distinct(stacks, 99).into_iter().zip(counts) {
        let truck = 1 + rng.below(text.trucks as usize);
        text.lines.push(format!("stack={number},{truck},0,0,0,1").into_bytes());
        let load: Vec<String> = (0..count)
            .map(|_| (1 + rng.below(text.items as usize)).to_string())
            .collect();
        text.lines.push(format!("load={}", load.join(",")).into_bytes());
    }
    true
}

fn move_by_one(text: &mut Text, rng: &mut Random, at: usize, place: usize) -> bool {
    let Some(number) = text.number(at, place) else {
        return false;
    };
    let moved = if number > 0 && rng.one_in(2) {
        number - 1
    } else {
        number + 1
    };
    put_number(text, at, place, moved)
}

/// Any one number of the file moves by one.
pub fn nudge(text: &mut Text, rng: &mut Random) -> bool {
    match text.entry(rng) {
        Some((at, place)) => move_by_one(text, rng, at, place),
        None => false,
    }
}

/// The stack= line of a stack and its load= line.
pub type StackLines = Vec<Vec<u8>>;

/// The stacks of a readable plan in another order, each with its load.
pub fn reordered(plan: &[u8], order: impl FnOnce(&mut [StackLines])) -> Vec<u8> {
    let mut text = Text::new(plan, 0, 0);
    let mut stacks: Vec<StackLines> = text.lines[1..].chunks(2).map(<[Vec<u8>]>::to_vec).collect();
    order(&mut stacks);
    text.lines.truncate(1);
    text.lines.extend(stacks.into_iter().flatten());
    text.bytes()
}
