//! Has the archive of proved functions linked: that of this checkout, or where
//! GDL90_LIB_DIR says.

mod archive;

use std::path::PathBuf;
use std::process::ExitCode;

const ARCHIVE: &str = "libgdl90.a";

fn main() -> ExitCode {
    println!("cargo:rerun-if-env-changed=GDL90_LIB_DIR");
    archive::link("gdl90", found())
}

fn found() -> Result<PathBuf, String> {
    archive::check_target()?;
    match std::env::var_os("GDL90_LIB_DIR") {
        Some(folder) => given(PathBuf::from(folder)),
        None => archive::made("gdl90", "gdl90_c").map_err(|reason| {
            format!("{reason}. GDL90_LIB_DIR can name another folder that has {ARCHIVE}")
        }),
    }
}

fn given(folder: PathBuf) -> Result<PathBuf, String> {
    // Relative to what? This script and rustc run in different folders.
    if folder.is_relative() {
        let folder = folder.display();
        return Err(format!(
            "GDL90_LIB_DIR is {folder}, and has to be a full path"
        ));
    }
    let archive = folder.join(ARCHIVE);
    if !archive.is_file() {
        let archive = archive.display();
        return Err(format!("GDL90_LIB_DIR is set, but {archive} is not there"));
    }
    println!("cargo:rerun-if-changed={}", archive.display());
    Ok(folder)
}
