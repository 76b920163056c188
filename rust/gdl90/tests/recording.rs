//! The example `recording`, run as a program. `cargo test` builds it.

use std::fs::{read_to_string, File};
use std::io::Write;
use std::path::{Path, PathBuf};
use std::process::{Command, Output, Stdio};

fn root() -> PathBuf {
    Path::new(env!("CARGO_MANIFEST_DIR")).join("../..")
}

/// Examples are put beside the folder of the tests.
fn example() -> Command {
    let test = std::env::current_exe().expect("the test's own path");
    let folder = test.parent().and_then(Path::parent).expect("its folder");
    let program = folder.join("examples/recording");
    assert!(
        program.is_file(),
        "build it: cargo build --example recording"
    );
    Command::new(program)
}

fn run(arguments: &[&Path]) -> Output {
    let run = example().args(arguments).stdin(Stdio::null()).output();
    run.expect("the example runs")
}

/// What it wrote to standard output, where all went well.
fn printed(output: Output) -> String {
    assert_eq!(output.status.code(), Some(0));
    assert_eq!(String::from_utf8_lossy(&output.stderr), "");
    String::from_utf8(output.stdout).expect("text")
}

fn assert_fails(output: Output, code: i32, reason: &str) {
    let said = String::from_utf8_lossy(&output.stderr);
    assert_eq!(output.status.code(), Some(code), "{said}");
    assert!(said.contains(reason) && said.lines().count() == 1, "{said}");
    assert_eq!(output.stdout, b"");
}

fn sample() -> PathBuf {
    root().join("samples/recording.gdl90")
}

#[test]
fn the_sample_is_printed_as_stored() {
    let stored = include_str!("../examples/recording.txt");
    assert_eq!(printed(run(&[&sample()])), stored);
}

#[test]
fn standard_input_is_read() {
    let input = File::open(sample()).expect("the sample");
    let output = example().stdin(input).output().expect("the example runs");
    assert_eq!(printed(output), printed(run(&[&sample()])));
}

#[test]
fn no_bytes_print_nothing() {
    assert_eq!(printed(run(&[])), "");
}

/// A line for each answer of the listing that the second implementation made,
/// with its number where it is a refusal, the byte where a frame broke, and the id
/// and length of a message that was refused.
#[test]
fn the_sample_is_printed_as_listed() {
    let listing = read_to_string(root().join("samples/recording.txt")).expect("the listing");
    let printed = printed(run(&[&sample()]));
    let mut lines = printed.lines().filter(|line| !line.starts_with(' '));
    let listed = listing.lines().filter(|line| !line.starts_with(['n', 'e']));
    for listed in listed {
        let line = lines.next().expect("a line");
        let [n, _, answer, id, length, position] = listed.split(' ').collect::<Vec<_>>()[..] else {
            panic!("no line of an answer: {listed}");
        };
        assert!(line.starts_with(&format!("{n}: ")), "{listed} {line}");
        match (answer, id) {
            ("0", _) => assert!(!line.contains("refused"), "{listed} {line}"),
            (_, "-") => {
                let refused = format!("frame refused with {answer}:");
                assert!(line.contains(&refused), "{listed} {line}");
                let place = format!(", at byte {position}");
                assert!(line.ends_with(&place), "{listed} {line}");
            }
            _ => {
                let refused = format!("message refused with {answer}:");
                assert!(line.contains(&refused), "{listed} {line}");
                let which = format!("(id {id}, {length} bytes)");
                assert!(line.ends_with(&which), "{listed} {line}");
            }
        }
    }
    assert_eq!(lines.next(), None);
}

/// Its lines as text, record by record; another product, and another type.
#[test]
fn texts_are_printed() {
    let text = gdl90::Text::new(9, 5, 0, "METAR A=\n\x1EMETAR B\n C=\n\x1E").expect("a text");
    let mut payload = [0; gdl90::PAYLOAD_LENGTH];
    let data = text.to_vec().expect("data");
    for (kind, data) in [(0, &data[..]), (0, &[0; 4]), (1, &data)] {
        gdl90::add_information_frame(&mut payload, kind, data).expect("room");
    }
    let (reception, payload) = (None, &payload);
    let uplink = gdl90::Message::Uplink(gdl90::Uplink { reception, payload });
    let frame = gdl90::framed(&uplink.to_vec().expect("a message")).expect("a frame");
    let path = Path::new(env!("CARGO_TARGET_TMPDIR")).join("texts.gdl90");
    std::fs::write(&path, frame).expect("a file to write");
    assert_eq!(
        printed(run(&[&path])).lines().skip(1).collect::<Vec<_>>(),
        [
            "   information frame 0: type 0, 22 bytes",
            "      text of 09:05",
            "         METAR A=",
            "         METAR B",
            "          C=",
            "   information frame 1: type 0, 4 bytes",
            "      text refused with 15: the data are not a weather text",
            "   information frame 2: type 1, 22 bytes",
        ]
    );
}

#[test]
fn faults_have_a_message_and_a_code() {
    let missing = Path::new("no such recording");
    assert_fails(run(&[missing]), 1, "recording: no such recording: ");
    assert_fails(run(&[&root()]), 1, "Is a directory");
    assert_fails(run(&[missing, missing]), 2, "usage: recording [FILE]");
}

/// A reader that has seen enough is no fault.
#[test]
fn a_closed_output_ends_it_quietly() {
    let mut child = example()
        .stdin(Stdio::piped())
        .stdout(Stdio::piped())
        .stderr(Stdio::piped())
        .spawn()
        .expect("the example runs");
    drop(child.stdout.take());
    let bytes = std::fs::read(sample()).expect("the sample");
    let mut input = child.stdin.take().expect("a pipe");
    // More would be taken: only the closed output can end it here. Again and
    // again, since a child that another test is just starting holds a copy of
    // the output for a moment, and what is written meanwhile is no fault.
    let ended = (0..100_000).any(|_| input.write_all(&bytes).is_err());
    assert!(ended, "it goes on with its output closed");
    printed(child.wait_with_output().expect("it ends"));
}

#[test]
#[cfg(target_os = "linux")]
fn a_full_output_is_a_fault() {
    let full = File::options()
        .write(true)
        .open("/dev/full")
        .expect("/dev/full");
    let output = example().arg(sample()).stdout(full).output();
    assert_fails(output.expect("it runs"), 1, "recording: standard output: ");
}
