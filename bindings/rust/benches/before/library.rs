//! The calls of the earlier library, which build.rs has linked under other names.

use super::{Check, Write};

#[cfg(not(before))]
pub const CHECK: Option<Check> = None;

#[cfg(before)]
pub const CHECK: Option<Check> = Some(check);

#[cfg(not(writer_before))]
pub const WRITE: Option<Write> = None;

#[cfg(writer_before)]
pub const WRITE: Option<Write> = Some(write);

#[cfg(before)]
unsafe extern "C" {
    fn before_kaqlluwe_check(
        instance: *const u8,
        instance_bytes: usize,
        plan: *const u8,
        plan_bytes: usize,
        table: *mut u32,
        table_words: usize,
    ) -> kaqlluwe::Answer;
}

#[cfg(writer_before)]
unsafe extern "C" {
    fn before_kaqlluwe_write(
        table: *const u32,
        table_words: usize,
        instance: *mut u8,
        instance_bytes: usize,
        plan: *mut u8,
        plan_bytes: usize,
    ) -> kaqlluwe::Written;
}

#[cfg(before)]
fn check(instance: &[u8], plan: &[u8], table: &mut [u32]) -> kaqlluwe::Answer {
    // SAFETY: as in `kaqlluwe::check`.
    unsafe {
        before_kaqlluwe_check(
            instance.as_ptr(),
            instance.len(),
            plan.as_ptr(),
            plan.len(),
            table.as_mut_ptr(),
            table.len(),
        )
    }
}

#[cfg(writer_before)]
fn write(table: &[u32], instance: &mut [u8], plan: &mut [u8]) -> kaqlluwe::Written {
    // SAFETY: as in `kaqlluwe::write_files`.
    unsafe {
        before_kaqlluwe_write(
            table.as_ptr(),
            table.len(),
            instance.as_mut_ptr(),
            instance.len(),
            plan.as_mut_ptr(),
            plan.len(),
        )
    }
}
