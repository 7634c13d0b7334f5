//! Links the static library of the check, which `tools/build library` proves and writes. The benchmark is given a second one, of another
//! commit, when KAQLLUWE_BEFORE names its file.

use std::env;
use std::path::{Path, PathBuf};
use std::process::Command;

fn main() {
    let folder = Path::new(env!("CARGO_MANIFEST_DIR")).join("../../target/staticlib");
    let library = folder.join("libkaqlluwe.a");
    println!("cargo:rerun-if-changed={}", library.display());
    if !library.exists() {
        println!("cargo:warning=target/staticlib/libkaqlluwe.a is missing: 'tools/build library' writes it");
    }
    println!("cargo:rustc-check-cfg=cfg(before)");
    println!("cargo:rustc-check-cfg=cfg(writer_before)");
    println!("cargo:rerun-if-env-changed=KAQLLUWE_BEFORE");
    let linked = match env::var("KAQLLUWE_BEFORE") {
        Ok(before) => beside(&library, Path::new(&before)),
        Err(_) => folder,
    };
    println!("cargo:rustc-link-search=native={}", linked.display());
    println!("cargo:rustc-link-lib=static=kaqlluwe");
}

/// Copies both libraries to a folder, which is returned. Two with the same names cannot be linked, so check and writer of the earlier one
/// get other names, and no other name of it is seen. Where the linker happens to put a function can cost 2 in 100 of the time, so in both
/// each starts a page.
fn beside(library: &Path, before: &Path) -> PathBuf {
    println!("cargo:rerun-if-changed={}", before.display());
    let folder = PathBuf::from(env::var("OUT_DIR").unwrap());
    let copy = |from: &Path, name: &str, options: &[String]| {
        let mut objcopy = Command::new("objcopy");
        objcopy.arg("--set-section-alignment=.text.*=4096").args(options);
        let run = objcopy.args([from, &folder.join(name)]).status();
        assert!(run.unwrap().success(), "objcopy copies {}", from.display());
    };
    copy(library, "libkaqlluwe.a", &[]);
    let options = ["check", "write"].map(|call| {
        let renamed = format!("--redefine-sym=kaqlluwe_{call}=before_kaqlluwe_{call}");
        [renamed, format!("--keep-global-symbol=before_kaqlluwe_{call}")]
    });
    copy(before, "libbefore.a", options.as_flattened());
    println!("cargo:rustc-link-arg-benches={}", folder.join("libbefore.a").display());
    println!("cargo:rustc-cfg=before");
    if has_writer(before) {
        println!("cargo:rustc-cfg=writer_before");
    }
    folder
}

/// The first libraries have a check and no writer.
fn has_writer(library: &Path) -> bool {
    let run = Command::new("nm")
        .args(["-g", "--defined-only"])
        .arg(library)
        .output()
        .unwrap();
    assert!(run.status.success(), "nm lists {}", library.display());
    let names = String::from_utf8_lossy(&run.stdout).into_owned();
    names.split_whitespace().any(|name| name == "kaqlluwe_write")
}
