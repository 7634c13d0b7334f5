//! The programs in C, built with the machine's C compiler against the header and the static library.

use std::path::{Path, PathBuf};
use std::process::Command;

/// A file of the repository.
pub fn in_repository(path: &str) -> PathBuf {
    Path::new(env!("CARGO_MANIFEST_DIR")).join("../..").join(path)
}

/// The program that bindings/c has under this name.
pub fn built(name: &str) -> PathBuf {
    let program = Path::new(env!("CARGO_TARGET_TMPDIR")).join(name);
    let run = Command::new("cc")
        .args(["-std=c11", "-O2", "-Wall", "-Wextra", "-Werror", "-o"])
        .arg(&program)
        .arg(in_repository(&format!("bindings/c/{name}.c")))
        .arg(in_repository("target/staticlib/libkaqlluwe.a"))
        .output()
        .unwrap();
    assert!(run.status.success(), "{}", String::from_utf8_lossy(&run.stderr));
    program
}
