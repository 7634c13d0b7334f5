//! Generated cases read back from their folder: `list.txt` names each case, and its two files lie beside it.

use std::io::{Error, Result};
use std::path::Path;

pub struct ListedCase {
    pub name: String,
    /// What the case tries.
    pub label: String,
    pub instance: Vec<u8>,
    pub plan: Vec<u8>,
}

/// The cases in the order of the list.
pub fn read(folder: &Path) -> Result<Vec<ListedCase>> {
    let list = String::from_utf8_lossy(&read_file(&folder.join("list.txt"))?).into_owned();
    list.lines().map(|line| read_case(folder, line)).collect()
}

/// A line of the list has the name first, then the answer, and the label last.
fn read_case(folder: &Path, line: &str) -> Result<ListedCase> {
    let mut words = line.split(' ');
    let name = words.next().unwrap_or_default();
    let label = words.next_back().unwrap_or_default();
    Ok(ListedCase {
        name: name.to_string(),
        label: label.to_string(),
        instance: read_file(&folder.join(format!("{name}.instance")))?,
        plan: read_file(&folder.join(format!("{name}.plan")))?,
    })
}

/// An error that names the file.
fn read_file(path: &Path) -> Result<Vec<u8>> {
    std::fs::read(path).map_err(|error| Error::new(error.kind(), format!("{}: {error}", path.display())))
}
