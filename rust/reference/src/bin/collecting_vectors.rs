//! A recording to be collected from and the answers to it.
//!
//! `collecting_vectors input` writes the recording, in binary.
//! `collecting_vectors output` writes a block for each piece size: a line
//! `in pieces of P`, then one line for each answer: offset of the closing flag,
//! the number, message in hex ("-" unless the number is 0), and unless it is 0 the
//! position.

use std::io::{self, Write};
use std::process::ExitCode;

use reference::collecting::{answers, ROOM};
use reference::fcs::check_sequence;
use reference::framing::{ESCAPE, FLAG, MESSAGE_MAX};
use reference::recording::{between_flags, framed, mixed};
use reference::vectors::{run, write_hex, HEARTBEAT};
use reference::xorshift::Xorshift;

/// The first takes the recording whole, the last cuts the longest frames.
const PIECES: [usize; 4] = [65_536, 1, 7, 437];
/// Times the edge cases come, around other messages each time.
const REPEATS: usize = 3;
const GENERATED: usize = 32_000;

fn main() -> io::Result<ExitCode> {
    run("collecting_vectors", write_input, write_output)
}

fn write_input(out: &mut dyn Write) -> io::Result<()> {
    out.write_all(&recording())
}

/// The blocks are alike: answers do not depend on how the stream is cut
/// (RULES 'Collecting').
fn write_output(out: &mut dyn Write) -> io::Result<()> {
    let kept = answers(&recording());
    for piece in PIECES {
        writeln!(out, "in pieces of {piece}")?;
        for answer in &kept {
            write!(out, "{} {} ", answer.at, answer.number)?;
            write_hex(out, &answer.message)?;
            if answer.number != 0 {
                write!(out, " {}", answer.position)?;
            }
            writeln!(out)?;
        }
    }
    Ok(())
}

fn recording() -> Vec<u8> {
    let mut random = Xorshift::new(0x7E7D_5D5E);
    let mut out = Vec::new();
    add_lead_in(&mut out);
    for _ in 0..REPEATS {
        add_values(&mut out);
        add_flags(&mut out, &mut random);
        add_short(&mut out, &mut random);
        add_sequences(&mut out, &mut random);
        add_lone_escapes(&mut out, &mut random);
        add_full_room(&mut out, &mut random);
        add_first_fault_wins(&mut out, &mut random);
        add_longest(&mut out, &mut random);
    }
    add_positions(&mut out);
    add_every_byte_behind_an_escape(&mut out);
    out.extend(mixed(&mut random, GENERATED));
    out
}

/// Bytes as they stand, between two flags of their own.
fn add(out: &mut Vec<u8>, bytes: &[u8]) {
    out.push(FLAG);
    out.extend(bytes);
    out.push(FLAG);
}

/// A frame that would be good, broken escapes and too many bytes, all ignored;
/// the escape right before the first flag as well.
fn add_lead_in(out: &mut Vec<u8>) {
    out.extend([0x07, 0x07, 0x00, ESCAPE, ESCAPE, 0x00, 0x5E]);
    out.extend([0x55; ROOM + 2]);
    out.push(ESCAPE);
    out.extend(framed(&HEARTBEAT));
}

/// Values 1 and 3 to 6 of RULES 'Values'.
fn add_values(out: &mut Vec<u8>) {
    out.extend(framed(&HEARTBEAT));
    out.extend(framed(&[FLAG]));
    out.extend(framed(&[FLAG, ESCAPE]));
    add(out, &[0x00, 0x81, 0x41, 0xDB, 0xD0, 0x08, 0x03, 0xB2, 0x8B]);
    add(out, &[ESCAPE]);
    add(out, &[ESCAPE, 0x00]);
    add(out, &[0x07, 0x07]);
    add(out, &[0x07, 0x07, 0x00]);
}

/// Flags shared by two frames, and flags with nothing between them.
fn add_flags(out: &mut Vec<u8>, random: &mut Xorshift) {
    out.extend([FLAG; 5]);
    for _ in 0..3 {
        let length = 1 + random.below(30);
        let frame = framed(&random.message_with_escapes(length, 1));
        out.extend(&frame[1..]);
    }
    // The opening flag closes bytes that belong to no frame.
    out.extend([0x01, 0x02, 0x03, 0x04]);
    out.extend(framed(&HEARTBEAT));
}

/// One and two unstuffed bytes, escaped or not; three that are no frame.
fn add_short(out: &mut Vec<u8>, random: &mut Xorshift) {
    for byte in [0x00, FLAG, ESCAPE, random.next_u64() as u8] {
        out.extend(between_flags(&[byte]));
        out.extend(between_flags(&[byte, 0x00]));
        out.extend(between_flags(&[ESCAPE, byte]));
        out.extend(between_flags(&[byte, byte ^ 0x01, 0x00]));
    }
}

/// Sequences with a flipped bit, with their bytes swapped, and of a message
/// with sixteen zero bits appended.
fn add_sequences(out: &mut Vec<u8>, random: &mut Xorshift) {
    for length in [2, 7, 28] {
        let message = random.message(length);
        let [low, high] = check_sequence(&message).to_le_bytes();
        let flip = 1 << random.below(8);
        let appended = check_sequence(&[&message[..], &[0, 0]].concat());
        for wrong in [
            [low ^ flip, high],
            [low, high ^ flip],
            [high, low],
            appended.to_le_bytes(),
        ] {
            out.extend(between_flags(&[&message[..], &wrong].concat()));
        }
        out.extend(between_flags(&[&message[..], &[low, high]].concat()));
    }
}

/// The flag behind a lone escape closes, and opens a frame of which it must not
/// eat the first byte.
fn add_lone_escapes(out: &mut Vec<u8>, random: &mut Xorshift) {
    for length in [0, 1, 3, 28] {
        out.push(FLAG);
        out.extend(random.message(length).iter().map(|byte| byte & 0x5F));
        out.push(ESCAPE);
        out.extend(framed(&[0x5E, 0x5D, length as u8]));
    }
    // A whole frame otherwise.
    let frame = framed(&HEARTBEAT);
    out.extend(&frame[..frame.len() - 1]);
    out.extend([ESCAPE, FLAG]);
    out.extend(&framed(&[0x5D])[1..]);
}

/// 438 unstuffed bytes and what may come behind them.
fn add_full_room(out: &mut Vec<u8>, random: &mut Xorshift) {
    let behind: [&[u8]; 8] = [
        &[],
        &[0x00],
        &[ESCAPE],
        &[ESCAPE, 0x00],
        &[ESCAPE, ESCAPE],
        &[ESCAPE, 0x5E],
        &[ESCAPE, 0x5D],
        &[ESCAPE, FLAG, 0x07, 0x07, 0x00],
    ];
    for bytes in behind {
        let mut frame = between_flags(&random.message(ROOM));
        frame.pop();
        out.extend(frame);
        out.extend(bytes);
        out.push(FLAG);
    }
}

/// Behind the first fault nothing counts, a lone escape before the flag neither.
fn add_first_fault_wins(out: &mut Vec<u8>, random: &mut Xorshift) {
    add(out, &[ESCAPE, 0x00, ESCAPE]);
    add(out, &[ESCAPE, ESCAPE, ESCAPE]);
    add(out, &[ESCAPE, 0x7F, 0x07, 0x07, 0x00]);
    add(out, &[&[ESCAPE, 0x00], &[0x55; ROOM + 1][..]].concat());
    for behind in [&[ESCAPE][..], &[ESCAPE, 0x00], &[ESCAPE, 0x5E]] {
        let mut frame = between_flags(&random.message(ROOM + 1));
        frame.pop();
        out.extend(frame);
        out.extend(behind);
        out.push(FLAG);
    }
    out.extend(framed(&HEARTBEAT));
}

/// Good frames of 1, 435 and 436 bytes; one of 437 is refused.
fn add_longest(out: &mut Vec<u8>, random: &mut Xorshift) {
    for (length, eighths) in [(1, 0), (MESSAGE_MAX - 1, 1), (MESSAGE_MAX, 0)] {
        let message = random.message_with_escapes(length, eighths);
        out.extend(framed(&message));
    }
    out.extend(framed(&random.message_with_escapes(MESSAGE_MAX, 8)));
    let mut long = random.message(MESSAGE_MAX + 1);
    long.extend(check_sequence(&long).to_le_bytes());
    out.extend(between_flags(&long));
}

/// Each fault behind an escape, and behind 438 bytes, plain and escaped; what comes
/// behind a fault moves no position.
fn add_positions(out: &mut Vec<u8>) {
    add(out, &[0x07, ESCAPE, 0x5E, ESCAPE, 0x00]);
    add(out, &[0x07, ESCAPE, 0x5D, ESCAPE]);
    add(out, &[ESCAPE, 0x5E, 0x07]);
    add(out, &[ESCAPE, 0x5E, 0x07, 0x07]);
    let long = [0x55; ROOM + 1];
    add(out, &[&long[..], &[0x07, ESCAPE, 0x00]].concat());
    let escaped = [ESCAPE, 0x5E].repeat(ROOM);
    let behind: [&[u8]; 5] = [
        &[],
        &[0x07],
        &[ESCAPE],
        &[ESCAPE, 0x00],
        &[ESCAPE, 0x5E, 0x07],
    ];
    for bytes in behind {
        add(out, &[&escaped, bytes].concat());
    }
}

/// Two bytes follow, so that 0x5D and 0x5E make a frame of three: 7D or 7E,
/// then the sequence of that one byte, escaped.
fn add_every_byte_behind_an_escape(out: &mut Vec<u8>) {
    for byte in 0..=255 {
        add(out, &[ESCAPE, byte, ESCAPE, byte, 0x00]);
    }
}

#[cfg(test)]
mod tests {
    use super::*;

    /// It has to fit into the largest piece.
    #[test]
    fn recording_is_taken_whole() {
        assert!(recording().len() <= PIECES[0], "{}", recording().len());
    }

    /// Each number where the frame is shortest and longest, and behind an escape.
    #[test]
    fn every_rule_of_positions_occurs() {
        let kept = answers(&recording());
        for refused in [
            [(1, 2), (1, 5), (1, 878)],
            [(2, 1), (2, 4), (2, 877)],
            [(3, 439), (3, 877), (3, 878)],
            [(4, 1), (4, 3), (4, 4)],
            [(5, 3), (5, 4), (5, 876)],
        ]
        .concat()
        {
            let found = kept.iter().any(|one| (one.number, one.position) == refused);
            assert!(found, "{refused:?}");
        }
    }
}
