//! Prints the rows of a filled table as the lines of the two files.

use super::filled::{Filled, LOADED};
use crate::table::{
    DOCKS, DOCKS_PER_SUPPLIER, DOCK_COUNTS, PLANT_DOCKS, PLANT_DOCK_COUNT, PRODUCTS, PRODUCT_COUNT, SUPPLIERS,
    SUPPLIER_COUNT,
};

/// A file that grows in a buffer with room for all of it.
struct Printer<'a> {
    buffer: &'a mut [u8],
    length: usize,
}

/// Prints the instance and returns its length.
pub fn print_instance(filled: &Filled, buffer: &mut [u8]) -> usize {
    let mut printer = Printer { buffer, length: 0 };
    let keys: [&[u8]; 5] = [b"transport=", b"inventory=", b"extra=", b"items=", b"trucks="];
    for (key, &word) in keys.into_iter().zip(filled.head) {
        printer.line(key, &[word]);
    }
    for item in filled.items() {
        printer.line(b"item=", item);
    }
    for truck in filled.trucks() {
        printer.truck(truck);
    }
    printer.length
}

/// Prints the plan and returns its length.
pub fn print_plan(filled: &Filled, buffer: &mut [u8]) -> usize {
    let mut printer = Printer { buffer, length: 0 };
    printer.line(b"stacks=", &filled.head[5..]);
    let mut rest = filled.loads;
    for stack in filled.stacks() {
        let (load, behind) = rest.split_at(stack[LOADED] as usize);
        printer.line(b"stack=", &stack[..6]);
        printer.line(b"load=", load);
        rest = behind;
    }
    printer.length
}

impl Printer<'_> {
    fn truck(&mut self, truck: &[u32]) {
        self.line(b"truck=", &truck[..PRODUCT_COUNT]);
        self.list(b"products=", truck[PRODUCT_COUNT], &truck[PRODUCTS..]);
        self.list(b"suppliers=", truck[SUPPLIER_COUNT], &truck[SUPPLIERS..]);
        for supplier in 0..truck[SUPPLIER_COUNT] as usize {
            let docks = &truck[DOCKS + supplier * DOCKS_PER_SUPPLIER..];
            self.list(b"docks=", truck[DOCK_COUNTS + supplier], docks);
        }
        self.list(b"plantdocks=", truck[PLANT_DOCK_COUNT], &truck[PLANT_DOCKS..]);
    }

    fn list(&mut self, key: &[u8], count: u32, words: &[u32]) {
        self.line(key, &words[..count as usize]);
    }

    /// The key, at least one number, and the line's end.
    fn line(&mut self, key: &[u8], numbers: &[u32]) {
        self.bytes(key);
        for &number in numbers {
            self.number(number);
            self.bytes(b",");
        }
        // The end takes the place of the last comma.
        self.buffer[self.length - 1] = b'\n';
    }

    fn bytes(&mut self, bytes: &[u8]) {
        let end = self.length + bytes.len();
        self.buffer[self.length..end].copy_from_slice(bytes);
        self.length = end;
    }

    /// Decimal digits, from the last to the first.
    fn number(&mut self, number: u32) {
        let digits = number.checked_ilog10().map_or(1, |log| log as usize + 1);
        let end = self.length + digits;
        let mut rest = number;
        for digit in self.buffer[self.length..end].iter_mut().rev() {
            *digit = b'0' + (rest % 10) as u8;
            rest /= 10;
        }
        self.length = end;
    }
}
