//! Has the archive linked that is there to be measured.

#[path = "../gdl90/archive.rs"]
mod archive;

use std::process::ExitCode;

fn main() -> ExitCode {
    let name = "by_value_benchmark";
    let folder = archive::check_target().and_then(|()| archive::made(name, name));
    archive::link(name, folder)
}
