//! Lines and numbers of the two files.

use std::ops::RangeInclusive;

const LINE_END: u8 = 10;
const MOST_DIGITS: usize = 10;

#[derive(Debug, Clone, Copy, PartialEq, Eq)]
pub enum Fault {
    Form,
    Range,
}

#[derive(Debug, Clone, Copy, PartialEq, Eq)]
pub struct BadLine {
    pub line: u32,
    pub fault: Fault,
}

/// The first line of a file and what follows it.
pub struct Cut<'a> {
    pub line: &'a [u8],
    pub ended: bool,
    pub rest: &'a [u8],
}

/// Cuts off the first line; there is none once no byte is left.
pub fn cut_line(file: &[u8]) -> Option<Cut<'_>> {
    if file.is_empty() {
        return None;
    }
    match file.iter().position(|&byte| byte == LINE_END) {
        Some(end) => Some(Cut {
            line: &file[..end],
            ended: true,
            rest: &file[end + 1..],
        }),
        None => Some(Cut {
            line: file,
            ended: false,
            rest: &file[file.len()..],
        }),
    }
}

/// The line of that number, counted from 1, without its end byte. An unended last line counts.
pub fn nth_line(file: &[u8], wanted: u32) -> Option<&[u8]> {
    let mut rest = file;
    let mut number = 0;
    while let Some(cut) = cut_line(rest) {
        number += 1;
        if number == wanted {
            return Some(cut.line);
        }
        rest = cut.rest;
    }
    None
}

/// A number is 1 to 10 decimal digits without a needless leading zero. Ten digits may exceed 32 bits.
pub fn parse_number(text: &[u8]) -> Option<u64> {
    let needless_zero = text.len() > 1 && text[0] == b'0';
    if text.is_empty() || text.len() > MOST_DIGITS || needless_zero {
        return None;
    }
    let mut number = 0;
    for &byte in text {
        if !byte.is_ascii_digit() {
            return None;
        }
        number = number * 10 + u64::from(byte - b'0');
    }
    Some(number)
}

/// Reads a file line by line and remembers which line it stands on.
pub struct LineReader<'a> {
    rest: &'a [u8],
    line: u32,
    values: Vec<u64>,
}

impl<'a> LineReader<'a> {
    pub fn new(file: &'a [u8]) -> Self {
        LineReader {
            rest: file,
            line: 0,
            values: Vec::new(),
        }
    }

    /// A fault in the line read last.
    pub fn bad(&self, fault: Fault) -> BadLine {
        BadLine { line: self.line, fault }
    }

    /// Reads the next line: the key with its equals sign, then as many numbers as `counts` allows.
    pub fn entries(&mut self, key: &str, counts: RangeInclusive<usize>) -> Result<&[u64], BadLine> {
        self.line += 1;
        let well_formed = self.parse_next(key).is_some() && counts.contains(&self.values.len());
        if well_formed {
            Ok(&self.values)
        } else {
            Err(self.bad(Fault::Form))
        }
    }

    /// A line that holds a single number.
    pub fn single(&mut self, key: &str) -> Result<u64, BadLine> {
        Ok(self.entries(key, 1..=1)?[0])
    }

    fn parse_next(&mut self, key: &str) -> Option<()> {
        let cut = cut_line(self.rest)?;
        self.rest = cut.rest;
        self.values.clear();
        if !cut.ended {
            return None;
        }
        let value = cut.line.strip_prefix(key.as_bytes())?;
        for entry in value.split(|&byte| byte == b',') {
            self.values.push(parse_number(entry)?);
        }
        Some(())
    }

    /// No line may follow the last one expected.
    pub fn finish(mut self) -> Result<(), BadLine> {
        self.line += 1;
        if self.rest.is_empty() {
            Ok(())
        } else {
            Err(self.bad(Fault::Form))
        }
    }
}
