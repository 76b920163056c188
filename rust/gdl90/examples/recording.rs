//! Reads a recording and prints each frame in words, refused ones with their
//! number, the reason and where they broke:
//!
//!     cargo run --manifest-path rust/Cargo.toml --offline -p gdl90 --example recording -- FILE
//!
//! Without FILE it reads standard input.

use std::fs::File;
use std::io::{self, BufWriter, ErrorKind, Read, Write};
use std::process::ExitCode;

use gdl90::{Collector, Message, Received, Refusal, Text};

fn main() -> ExitCode {
    let arguments: Vec<_> = std::env::args_os().skip(1).collect();
    let result = match &arguments[..] {
        [] => print(&mut io::stdin().lock(), "standard input"),
        [path] => {
            let name = path.to_string_lossy();
            match File::open(path) {
                Ok(mut file) => print(&mut file, &name),
                Err(error) => Err(format!("{name}: {error}")),
            }
        }
        _ => {
            eprintln!("usage: recording [FILE]");
            return ExitCode::from(2);
        }
    };
    match result {
        Ok(()) => ExitCode::SUCCESS,
        Err(reason) => {
            eprintln!("recording: {reason}");
            ExitCode::FAILURE
        }
    }
}

/// Prints the frames of the input. A reader of the output that has seen enough
/// and closes it is no fault.
fn print(input: &mut dyn Read, name: &str) -> Result<(), String> {
    let mut out = BufWriter::new(io::stdout().lock());
    let mut collector = Collector::new();
    let mut bytes = [0; 4096];
    let mut number = 0;
    loop {
        let got = match input.read(&mut bytes) {
            Ok(got) => got,
            Err(error) if error.kind() == ErrorKind::Interrupted => continue,
            Err(error) => return Err(format!("{name}: {error}")),
        };
        let written = collector.answers(&bytes[..got]).try_for_each(|answer| {
            number += 1;
            write!(out, "{number}: ")?;
            print_answer(&mut out, answer)
        });
        // A recording may come slowly: what is known is shown.
        match written.and_then(|()| out.flush()) {
            Err(error) if error.kind() == ErrorKind::BrokenPipe => return Ok(()),
            Err(error) => return Err(format!("standard output: {error}")),
            Ok(()) if got == 0 => return Ok(()),
            Ok(()) => {}
        }
    }
}

fn print_answer(out: &mut dyn Write, answer: Result<Received, Refusal>) -> io::Result<()> {
    let received = match answer {
        Ok(received) => received,
        Err(refusal) => {
            let number = refusal.error.number();
            return writeln!(out, "frame refused with {number}: {refusal}");
        }
    };
    match received.message() {
        Ok(Message::Uplink(uplink)) => {
            writeln!(out, "{uplink}")?;
            print_information_frames(out, &uplink)
        }
        Ok(message) => writeln!(out, "{message}"),
        Err(error) => {
            let (id, length) = (received[0], received.len());
            let number = error.number();
            writeln!(
                out,
                "message refused with {number}: {error} (id {id}, {length} bytes)"
            )
        }
    }
}

fn print_information_frames(out: &mut dyn Write, uplink: &gdl90::Uplink) -> io::Result<()> {
    let frames = match uplink.information_frames() {
        Ok(frames) => frames,
        Err(error) => return writeln!(out, "   payload refused with {}: {error}", error.number()),
    };
    for (n, frame) in frames.enumerate() {
        let (kind, length) = (frame.kind, frame.data.len());
        writeln!(out, "   information frame {n}: type {kind}, {length} bytes")?;
        match frame.text() {
            Some(Ok(text)) => print_text(out, &text)?,
            Some(Err(error)) => {
                writeln!(out, "      text refused with {}: {error}", error.number())?
            }
            None => {}
        }
    }
    Ok(())
}

/// Its lines indented; each record starts a line.
fn print_text(out: &mut dyn Write, text: &Text) -> io::Result<()> {
    writeln!(out, "      text of {:02}:{:02}", text.hours, text.minutes)?;
    for line in text.records().flat_map(str::lines) {
        writeln!(out, "         {line}")?;
    }
    Ok(())
}
