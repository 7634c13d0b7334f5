//! The load plan checker for Rust: safe calls of the proved static library.
//!
//! ```
//! let instance = include_bytes!("../../../examples/one_load/instance.txt");
//! let plan = include_bytes!("../../../examples/one_load/plan.txt");
//! let mut table = [0; kaqlluwe::TABLE_WORDS];
//! let answer = kaqlluwe::check(instance, plan, &mut table);
//! assert_eq!((answer.number, answer.cost, answer.trucks), (0, 248_000, 1));
//!
//! let mut instance_again = [0; kaqlluwe::FILE_BYTES];
//! let mut plan_again = [0; kaqlluwe::FILE_BYTES];
//! let written = kaqlluwe::write_files(&table, &mut instance_again, &mut plan_again);
//! assert_eq!(written.number, 0);
//! assert_eq!(&instance_again[..written.instance_length], instance);
//! assert_eq!(&plan_again[..written.plan_length], plan);
//!
//! let answer = kaqlluwe::check(instance, b"stacks=1\nstack=1\n", &mut table);
//! assert_eq!((answer.number, answer.first), (7, 2));
//! let line = kaqlluwe::bad_line(instance, b"stacks=1\nstack=1\n", answer.number, answer.first);
//! assert_eq!(line, b"stack=1");
//! ```

/// Words of the working table that are named. A shorter table is refused and left as it is; words beyond are left as they are.
pub const TABLE_WORDS: usize = 8_976;

/// The most bytes of a file, and the fewest of a buffer that one is written to.
pub const FILE_BYTES: usize = 65_535;

/// Number 0 accepts; any other is a refusal, with up to three places. The cost is in thousandths, the trucks are the used ones.
#[repr(C)]
#[derive(Debug, Clone, Copy, PartialEq, Eq)]
pub struct Answer {
    pub number: u32,
    pub first: u32,
    pub second: u32,
    pub third: u32,
    pub cost: u64,
    pub trucks: u32,
}

/// Number 0 and the length of each file; or a refusal, with both lengths 0: 29 where either buffer is too short, otherwise 30 where the
/// table is short or no readable pair of files fills it.
#[repr(C)]
#[derive(Debug, Clone, Copy, PartialEq, Eq)]
pub struct Written {
    pub number: u32,
    pub instance_length: usize,
    pub plan_length: usize,
}

/// A part of one of the two files.
#[repr(C)]
struct Part {
    plan: bool,
    start: usize,
    end: usize,
}

// The library passes a slice as a pointer and a length. Nothing holds these declarations to it but the tests.
unsafe extern "C" {
    fn kaqlluwe_check(
        instance: *const u8,
        instance_bytes: usize,
        plan: *const u8,
        plan_bytes: usize,
        table: *mut u32,
        table_words: usize,
    ) -> Answer;
    fn kaqlluwe_bad_line(
        instance: *const u8,
        instance_bytes: usize,
        plan: *const u8,
        plan_bytes: usize,
        number: u32,
        line: u32,
    ) -> Part;
    fn kaqlluwe_write(
        table: *const u32,
        table_words: usize,
        instance: *mut u8,
        instance_bytes: usize,
        plan: *mut u8,
        plan_bytes: usize,
    ) -> Written;
}

/// Checks the plan against the instance. The named words of a table that is not short are then what the files say, or zero where they
/// cannot be read.
pub fn check(instance: &[u8], plan: &[u8], table: &mut [u32]) -> Answer {
    // SAFETY: each pointer and length come from one slice, and no other reference reaches the table. The call asks for nothing more.
    unsafe {
        kaqlluwe_check(
            instance.as_ptr(),
            instance.len(),
            plan.as_ptr(),
            plan.len(),
            table.as_mut_ptr(),
            table.len(),
        )
    }
}

/// The line that a refusal 4, 5, 7 or 8 names, as the part of its file, given the answer's number and first place; the empty part at the
/// instance's end for any other number, and for a line that is not there.
pub fn bad_line<'a>(instance: &'a [u8], plan: &'a [u8], number: u32, line: u32) -> &'a [u8] {
    // SAFETY: as in `check`.
    let part = unsafe {
        kaqlluwe_bad_line(
            instance.as_ptr(),
            instance.len(),
            plan.as_ptr(),
            plan.len(),
            number,
            line,
        )
    };
    let file = if part.plan { plan } else { instance };
    &file[part.start..part.end]
}

/// Writes the files whose check fills the table so, each to the front of its buffer of [`FILE_BYTES`] or more. Words beyond the named ones
/// do not matter. Bytes behind a file are left as they are, and after a refusal all bytes of both buffers.
pub fn write_files(table: &[u32], instance: &mut [u8], plan: &mut [u8]) -> Written {
    // SAFETY: each pointer and length come from one slice, and no other reference reaches the buffers. The call asks for nothing more.
    unsafe {
        kaqlluwe_write(
            table.as_ptr(),
            table.len(),
            instance.as_mut_ptr(),
            instance.len(),
            plan.as_mut_ptr(),
            plan.len(),
        )
    }
}
