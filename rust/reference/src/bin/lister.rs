//! Lists the frames of standard input on standard output (RULES 'Listing').

use std::io;
use std::process::ExitCode;

use reference::listing::{list, Failure};

fn main() -> ExitCode {
    match list(io::stdin().lock(), io::stdout().lock()) {
        Ok(()) => return ExitCode::SUCCESS,
        Err(Failure::Reading(error)) => eprintln!("lister: cannot read standard input: {error}"),
        Err(Failure::Writing(error)) => {
            eprintln!("lister: cannot write to standard output: {error}")
        }
    }
    ExitCode::FAILURE
}
