//! What the programs that write test vectors have in common.

use std::io::{self, BufWriter, Write};
use std::process::ExitCode;

/// The message of 001 §2.2.4.
pub const HEARTBEAT: [u8; 7] = [0x00, 0x81, 0x41, 0xDB, 0xD0, 0x08, 0x02];

/// The traffic report of 001 §3.5.2.
pub const SALEM: [u8; 28] = [
    0x14, 0x00, 0xAB, 0x45, 0x49, 0x1F, 0xEF, 0x15, 0xA8, 0x89, 0x78, 0x0F, 0x09, 0xA9, 0x07, 0xB0,
    0x01, 0x20, 0x01, 0x4E, 0x38, 0x32, 0x35, 0x56, 0x20, 0x20, 0x20, 0x00,
];

type Writer = fn(&mut dyn Write) -> io::Result<()>;

/// Has the side named on the command line written to standard output.
pub fn run(name: &str, input: Writer, output: Writer) -> io::Result<ExitCode> {
    let arguments: Vec<String> = std::env::args().skip(1).collect();
    let mut out = BufWriter::new(io::stdout().lock());
    match arguments.iter().map(String::as_str).collect::<Vec<_>>()[..] {
        ["input"] => input(&mut out)?,
        ["output"] => output(&mut out)?,
        _ => {
            eprintln!("usage: {name} input|output");
            return Ok(ExitCode::from(2));
        }
    }
    out.flush()?;
    Ok(ExitCode::SUCCESS)
}

/// Lower-case hex, "-" for no bytes.
pub fn write_hex(out: &mut dyn Write, bytes: &[u8]) -> io::Result<()> {
    if bytes.is_empty() {
        write!(out, "-")?;
    }
    for byte in bytes {
        write!(out, "{byte:02x}")?;
    }
    Ok(())
}
