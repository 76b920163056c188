//! The header for C, and C programs over it that print what it says.

use std::path::{Path, PathBuf};
use std::process::{Command, Stdio};

pub fn root() -> PathBuf {
    Path::new(env!("CARGO_MANIFEST_DIR")).join("../..")
}

pub fn header() -> String {
    std::fs::read_to_string(root().join("include/gdl90.h")).expect("the header")
}

/// What a program prints: a file of tests/, without its ending.
pub fn printed_by(name: &str) -> String {
    let source = format!("tests/{name}.c");
    let program = Path::new(env!("CARGO_TARGET_TMPDIR")).join(name);
    let compiled = Command::new("cc")
        .current_dir(root())
        .args(["-std=c11", "-Wall", "-Wextra", "-Wpedantic", "-Werror"])
        .args(["-Iinclude", &source, "-o"])
        .arg(&program)
        .stderr(Stdio::inherit())
        .status()
        .expect("cc, a C compiler, runs");
    assert!(compiled.success(), "cc refused {source}");
    let printed = Command::new(program).output().expect("the program runs");
    assert!(printed.status.success());
    String::from_utf8(printed.stdout).expect("text")
}
