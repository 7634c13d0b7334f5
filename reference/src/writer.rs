//! Writes the two files back from a table that a check has filled.

mod filled;
mod printer;

use crate::verdict::{ACCEPTED, SHORT_BUFFER, UNFILLED_TABLE};
use crate::MOST_BYTES;
use filled::Filled;

/// Number 0 and the length of each file, or the number of a refusal and lengths 0.
#[derive(Debug, Clone, Copy, PartialEq, Eq)]
pub struct Written {
    pub number: u32,
    pub instance_length: usize,
    pub plan_length: usize,
}

/// Writes the files whose check leaves these named words. A refusal changes no byte; otherwise those behind a file stay.
pub fn write(table: &[u32], instance: &mut [u8], plan: &mut [u8]) -> Written {
    // Every file that can be read has room, so nothing can run out once writing has begun.
    if instance.len() < MOST_BYTES || plan.len() < MOST_BYTES {
        return refused(SHORT_BUFFER);
    }
    let Some(filled) = Filled::new(table) else {
        return refused(UNFILLED_TABLE);
    };
    Written {
        number: ACCEPTED,
        instance_length: printer::print_instance(&filled, instance),
        plan_length: printer::print_plan(&filled, plan),
    }
}

fn refused(number: u32) -> Written {
    Written {
        number,
        instance_length: 0,
        plan_length: 0,
    }
}
