//! Buffers lent to the writer, filled before so that a byte that is written or moved shows.

use reference::writer::{write, Written};
use reference::MOST_BYTES;

pub fn before(length: usize) -> Vec<u8> {
    // No byte of a file is 128 or above.
    let pattern: Vec<u8> = (128..255).collect();
    let mut buffer = pattern.repeat(length / pattern.len() + 1);
    buffer.truncate(length);
    buffer
}

/// What is answered, and both buffers afterwards, with so many bytes more than there have to be.
pub fn written(table: &[u32], more: usize) -> (Written, Vec<u8>, Vec<u8>) {
    let (mut instance, mut plan) = (before(MOST_BYTES + more), before(MOST_BYTES + 2 * more));
    (write(table, &mut instance, &mut plan), instance, plan)
}

/// The buffer holds the file and then what stood there before.
pub fn holds(buffer: &[u8], file: &[u8]) -> bool {
    buffer.starts_with(file) && buffer[file.len()..] == before(buffer.len())[file.len()..]
}

/// Whether the table is refused with this number; then both lengths have to be 0, and all bytes as before.
pub fn is_refused(table: &[u32], number: u32) -> bool {
    let (answer, instance, plan) = written(table, 1);
    let refused = answer.number == number;
    if refused {
        assert_eq!((answer.instance_length, answer.plan_length), (0, 0));
        assert!(holds(&instance, b"") && holds(&plan, b""));
    }
    refused
}
