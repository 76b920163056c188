//! Messages to be framed and the answers to them.
//!
//! `framing_vectors input` writes binary records: message length and output
//! length (both 16 bits, high byte first), then the message.
//! `framing_vectors output` writes one line for each record: the number,
//! length written, and the whole output room in hex ("-" if it has no bytes).

use std::io::{self, Write};
use std::process::ExitCode;

use reference::fcs::check_sequence;
use reference::framing::{frame, Framed, ESCAPE, FLAG, MESSAGE_MAX};
use reference::recording::framed;
use reference::vectors::{run, write_hex, HEARTBEAT};
use reference::xorshift::Xorshift;

/// What the output room holds before each call.
const FILL: u8 = 0xAA;
const ROOM_MAX: usize = 1024;

struct Record {
    message: Vec<u8>,
    room: usize,
}

fn main() -> io::Result<ExitCode> {
    run("framing_vectors", write_input, write_output)
}

fn write_input(out: &mut dyn Write) -> io::Result<()> {
    for Record { message, room } in records() {
        out.write_all(&(message.len() as u16).to_be_bytes())?;
        out.write_all(&(room as u16).to_be_bytes())?;
        out.write_all(&message)?;
    }
    Ok(())
}

fn write_output(out: &mut dyn Write) -> io::Result<()> {
    for Record { message, room } in records() {
        let mut lent = vec![FILL; room];
        let (number, length) = match frame(&message, &mut lent) {
            Framed::Bytes(length) => (0, length),
            Framed::Refused(number) => (number, 0),
        };
        write!(out, "{number} {length} ")?;
        write_hex(out, &lent)?;
        writeln!(out)?;
    }
    Ok(())
}

fn records() -> Vec<Record> {
    let mut random = Xorshift::new(0x7E7D_1021);
    let mut records = Vec::new();
    add_one_byte(&mut records);
    add_two_bytes(&mut records);
    add_every_byte(&mut records);
    add_longest(&mut records, &mut random);
    add_escaped_sequences(&mut records, &mut random);
    add_refused(&mut records);
    add_exact_and_short(&mut records, &HEARTBEAT);
    add(&mut records, &HEARTBEAT, ROOM_MAX);
    records
}

fn add(records: &mut Vec<Record>, message: &[u8], room: usize) {
    assert!(room <= ROOM_MAX);
    let message = message.to_vec();
    records.push(Record { message, room });
}

/// Once with the room of exactly the frame, once with one byte less.
fn add_exact_and_short(records: &mut Vec<Record>, message: &[u8]) {
    let length = frame_length(message);
    add(records, message, length);
    add(records, message, length - 1);
}

fn frame_length(message: &[u8]) -> usize {
    framed(message).len()
}

fn add_one_byte(records: &mut Vec<Record>) {
    for byte in 0..=255 {
        add(records, &[byte], frame_length(&[byte]) + 2);
    }
}

/// Two bytes are their own check sequence, so these escape it as well.
fn add_two_bytes(records: &mut Vec<Record>) {
    for first in [ESCAPE, FLAG] {
        for second in [ESCAPE, FLAG] {
            add_exact_and_short(records, &[first, second]);
        }
    }
    // Around the escaped bytes, their escaped forms and the ends.
    let spread = [
        0x00, 0x01, 0x20, 0x5C, 0x5D, 0x5E, 0x5F, 0x7C, 0x7D, 0x7E, 0x7F, 0x80, 0xFD, 0xFE, 0xFF,
    ];
    for first in spread {
        for second in spread {
            add(records, &[first, second], frame_length(&[first, second]));
        }
    }
}

fn add_every_byte(records: &mut Vec<Record>) {
    let ascending: Vec<u8> = (0..=255).collect();
    let descending: Vec<u8> = (0..=255).rev().collect();
    for message in [ascending, descending] {
        add_exact_and_short(records, &message);
        add(records, &message, ROOM_MAX);
    }
}

fn add_longest(records: &mut Vec<Record>, random: &mut Xorshift) {
    for length in [MESSAGE_MAX - 1, MESSAGE_MAX] {
        for byte in [FLAG, ESCAPE, 0x00, 0xFF] {
            let message = vec![byte; length];
            add_exact_and_short(records, &message);
            add(records, &message, ROOM_MAX);
        }
        for eighths in [0, 0, 1, 4] {
            let message = random.message_with_escapes(length, eighths);
            add_exact_and_short(records, &message);
            add(records, &message, ROOM_MAX);
        }
    }
}

/// Short messages whose check sequence itself needs escapes: in the low byte,
/// in the high byte, in both.
fn add_escaped_sequences(records: &mut Vec<Record>, random: &mut Xorshift) {
    let escaped = |byte: u8| [ESCAPE, FLAG].contains(&byte);
    for wanted in [ESCAPE, FLAG] {
        for _ in 0..4 {
            let low = search(random, |low, high| low == wanted && !escaped(high));
            add_exact_and_short(records, &low);
            let high = search(random, |low, high| high == wanted && !escaped(low));
            add_exact_and_short(records, &high);
        }
        for other in [ESCAPE, FLAG] {
            for _ in 0..4 {
                let both = search(random, |low, high| low == wanted && high == other);
                add_exact_and_short(records, &both);
            }
        }
    }
}

/// The next message of 3 to 20 bytes whose sequence has bytes as wanted.
fn search(random: &mut Xorshift, wanted: impl Fn(u8, u8) -> bool) -> Vec<u8> {
    loop {
        let length = 3 + random.below(18);
        let message = random.message(length);
        let [low, high] = check_sequence(&message).to_le_bytes();
        if wanted(low, high) {
            return message;
        }
    }
}

/// Answers 10 and 9; a message of a wrong length is 10 in any room.
fn add_refused(records: &mut Vec<Record>) {
    for length in [0, MESSAGE_MAX + 1] {
        for room in [ROOM_MAX, 0] {
            add(records, &vec![0x55; length], room);
        }
    }
    for length in [1, MESSAGE_MAX] {
        let message = vec![0x55; length];
        add(records, &message, 0);
        add(records, &message, frame_length(&message) - 1);
    }
}
