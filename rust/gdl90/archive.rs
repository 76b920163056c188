//! Archives of proved functions, for build scripts: `rt` makes one where it is
//! not there or older than its sources.

use std::collections::BTreeSet;
use std::fs::{self, File};
use std::io::ErrorKind;
use std::path::{Path, PathBuf};
use std::process::{Command, ExitCode};
use std::time::SystemTime;

/// Has cargo link a crate's archive from this folder, or says why it cannot.
pub fn link(name: &str, folder: Result<PathBuf, String>) -> ExitCode {
    match folder {
        Ok(folder) => {
            println!("cargo:rustc-link-search=native={}", folder.display());
            println!("cargo:rustc-link-lib=static={name}");
            ExitCode::SUCCESS
        }
        Err(reason) => {
            eprintln!("{reason}");
            ExitCode::FAILURE
        }
    }
}

/// The archive is for one machine, and `rt` makes it for no other.
pub fn check_target() -> Result<(), String> {
    let target = |part| std::env::var(format!("CARGO_CFG_TARGET_{part}")).unwrap_or_default();
    if target("ARCH") == "x86_64" && target("OS") == "linux" {
        return Ok(());
    }
    let target = std::env::var("TARGET").unwrap_or_default();
    Err(format!(
        "the archive of proved functions is for x86-64 Linux only, not for {target}"
    ))
}

/// The folder of this checkout that has an archive, made of a crate of Rattle's.
pub fn made(name: &str, of: &str) -> Result<PathBuf, String> {
    let root = Path::new(env!("CARGO_MANIFEST_DIR")).join("../..");
    let folder = root.join("target/staticlib");
    let archive = folder.join(format!("lib{name}.a"));
    let sources = sources(&root, of)?;
    for watched in sources.iter().chain([&archive]) {
        println!("cargo:rerun-if-changed={}", watched.display());
    }
    let newest = sources.iter().filter_map(|path| newest(path)).max();
    if modified(&archive) <= newest {
        // A source that is saved while `rt` proves counts as newer.
        let begun = SystemTime::now();
        let built = make(&root, of, &archive)?;
        put(&built, &archive, begun).map_err(|error| format!("{}: {error}", archive.display()))?;
    }
    Ok(folder)
}

/// crates.txt, and the folders of the crate and of those that it is built on, but
/// for must-fail/, without which the archive is the same.
fn sources(root: &Path, name: &str) -> Result<Vec<PathBuf>, String> {
    let list = root.join("crates.txt");
    let text = fs::read_to_string(&list).map_err(|error| format!("{}: {error}", list.display()))?;
    let mut crates = BTreeSet::new();
    let mut left = vec![name];
    while let Some(name) = left.pop() {
        // A static library has that word behind its name.
        let is_it = |(head, _): &(&str, &str)| head.split_whitespace().next() == Some(name);
        let mut lines = text.lines().filter_map(|line| line.split_once(':'));
        if let (Some((_, below)), true) = (lines.find(is_it), crates.insert(name)) {
            left.extend(below.split_whitespace());
        }
    }
    if crates.is_empty() {
        return Err(format!("{} has no {name}", list.display()));
    }
    let folders = crates.iter().flat_map(|name| {
        let of_crate = root.join("crates").join(name);
        ["src", "specs", "proofs"].map(|folder| of_crate.join(folder))
    });
    Ok(folders
        .filter(|folder| folder.is_dir())
        .chain([list])
        .collect())
}

fn modified(path: &Path) -> Option<SystemTime> {
    fs::metadata(path).and_then(|data| data.modified()).ok()
}

/// When a file was last written, or a folder or anything in it: a file that goes
/// changes its folder.
fn newest(path: &Path) -> Option<SystemTime> {
    let inside = fs::read_dir(path).into_iter().flatten().flatten();
    let inside = inside.filter_map(|entry| newest(&entry.path()));
    inside.chain(modified(path)).max()
}

/// `rt` proves the crate before it writes the archive, which stays in the crate's
/// folder.
fn make(root: &Path, of: &str, archive: &Path) -> Result<PathBuf, String> {
    let folder = root.join("crates").join(of);
    let status = Command::new("rt")
        .arg("lib")
        .current_dir(&folder)
        // Cargo takes what a build script prints as commands.
        .stdout(std::io::stderr())
        .status()
        .map_err(|error| not_run(of, archive, &error))?;
    if !status.success() {
        return Err(format!("`rt lib` in crates/{of} failed: {status}"));
    }
    let built = folder.join(format!("out/lib{of}.a"));
    if !built.is_file() {
        let built = built.display();
        return Err(format!("`rt lib` in crates/{of} made no {built}"));
    }
    Ok(built)
}

fn not_run(of: &str, archive: &Path, error: &std::io::Error) -> String {
    let state = match archive.is_file() {
        true => "older than its sources",
        false => "not there",
    };
    let reason = match error.kind() {
        ErrorKind::NotFound => "rt, the Rattle toolchain, is not on the path".to_string(),
        _ => format!("rt, the Rattle toolchain, does not run: {error}"),
    };
    let archive = archive.display();
    format!("{archive} is {state}, and {reason}: `rt lib` in crates/{of} makes it")
}

/// Copies an archive, and gives the copy this time.
fn put(built: &Path, archive: &Path, time: SystemTime) -> std::io::Result<()> {
    if let Some(folder) = archive.parent() {
        fs::create_dir_all(folder)?;
    }
    fs::copy(built, archive)?;
    let file = File::options().write(true).open(archive)?;
    file.set_modified(time)
}
