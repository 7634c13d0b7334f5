//! A table printed without a look at its sense: a count is printed as it stands, and as many entries as it says and there is room for.
//! The places are those of document 01.

use reference::check;
use reference::table::NAMED_WORDS;
use std::fmt::Write;

fn line(text: &mut String, key: &str, words: &[u32]) {
    let numbers: Vec<String> = words.iter().map(u32::to_string).collect();
    writeln!(text, "{key}={}", numbers.join(",")).unwrap();
}

fn list(text: &mut String, key: &str, count: u32, room: &[u32]) {
    line(text, key, &room[..room.len().min(count as usize)]);
}

fn truck(text: &mut String, words: &[u32]) {
    line(text, "truck", &words[..20]);
    list(text, "products", words[20], &words[21..53]);
    list(text, "suppliers", words[53], &words[54..62]);
    for supplier in 0..words[53].min(8) as usize {
        let docks = 70 + 8 * supplier;
        list(text, "docks", words[62 + supplier], &words[docks..docks + 8]);
    }
    list(text, "plantdocks", words[134], &words[135..143]);
}

pub fn instance(table: &[u32]) -> Vec<u8> {
    let mut text = String::new();
    for (key, word) in ["transport", "inventory", "extra", "items", "trucks"].iter().zip(table) {
        line(&mut text, key, &[*word]);
    }
    for item in table[16..4112].chunks(16).take(table[3] as usize) {
        line(&mut text, "item", item);
    }
    for words in table[4112..6672].chunks(160).take(table[4] as usize) {
        truck(&mut text, words);
    }
    text.into_bytes()
}

pub fn plan(table: &[u32]) -> Vec<u8> {
    let mut text = String::new();
    line(&mut text, "stacks", &table[5..6]);
    let mut loads = &table[8720..8976];
    for stack in table[6672..8720].chunks(8).take(table[5] as usize) {
        line(&mut text, "stack", &stack[..6]);
        list(&mut text, "load", stack[7], loads);
        loads = &loads[loads.len().min(stack[7] as usize)..];
    }
    text.into_bytes()
}

/// Whether some readable pair of files fills the table. Only the printed pair can be the one, as a number is written in one way only.
pub fn is_filled(table: &[u32]) -> bool {
    let mut again = vec![0; NAMED_WORDS];
    let answer = check(&instance(table), &plan(table), &mut again);
    (answer.number == 0 || answer.number > 8) && again == table[..NAMED_WORDS]
}
