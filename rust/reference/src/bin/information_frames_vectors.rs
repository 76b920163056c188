//! Payloads whose frames are to be listed, frames to be added, and the answers.
//!
//! `information_frames_vectors input` writes binary records: a letter, a size (16 bits, high
//! byte first), and that many bytes. P is a payload; M a message; A a type and
//! data, added to the payload given last, also in a message; L, without bytes,
//! is that payload as it is now. One that is not of 432 bytes is cut to them or
//! filled with zeros before frames are added, and a refused message leaves zeros.
//! `information_frames_vectors output` writes one line for each record. For P, M and L: the
//! number and, if it is 0, count and end of the list, then type, reserved bits,
//! length and the first two bytes in hex of each frame, then the answer to the
//! number behind the last. For M also what reading the text of each frame answers,
//! and behind the last: the number and, if it is 0, hours, minutes, padding, length
//! and the check sequence of the room, 1,024 bytes that were zero. For A: the
//! number, and the payload's check sequence.

use std::io::{self, Write};
use std::process::ExitCode;

use reference::fcs::check_sequence;
use reference::information_frames::{
    add, end, list, nth, DATA_LENGTH, FRAME_DATA_MAX, FRAME_TYPE_MAX, VALID, VALID_AT,
};
use reference::messages::{read, write, Message, Uplink, NOT_LISTED, PAYLOAD_LENGTH, UPLINK_ID};
use reference::payloads::{damaged, samples_of_001, valid, whole};
use reference::samples;
use reference::text::{self, Text};
use reference::vectors::{run, write_hex, HEARTBEAT};
use reference::xorshift::Xorshift;

/// Payloads made up, whole and damaged each, and messages with such payloads.
const MADE_UP: usize = 120;
const MESSAGES: usize = 12;
/// What the program that reads the input takes at most, in bytes.
const INPUT_MAX: usize = 200_000;
/// What it lends for a text.
const TEXT_ROOM: usize = 1_024;

enum Record {
    Payload(Vec<u8>),
    Message(Vec<u8>),
    Add(u8, Vec<u8>),
    List,
}

use Record::{Add, List, Payload};

fn main() -> io::Result<ExitCode> {
    run("information_frames_vectors", write_input, write_output)
}

fn write_input(out: &mut dyn Write) -> io::Result<()> {
    let mut total = 0;
    for record in records() {
        let (letter, bytes) = match record {
            Payload(payload) => (b'P', payload),
            Record::Message(message) => (b'M', message),
            Add(frame_type, data) => (b'A', [&[frame_type][..], &data].concat()),
            List => (b'L', vec![]),
        };
        out.write_all(&[letter])?;
        out.write_all(&(bytes.len() as u16).to_be_bytes())?;
        out.write_all(&bytes)?;
        total += 3 + bytes.len();
    }
    assert!(total <= INPUT_MAX, "{total} bytes of input");
    Ok(())
}

fn write_output(out: &mut dyn Write) -> io::Result<()> {
    let mut last = vec![0; PAYLOAD_LENGTH];
    for record in records() {
        match record {
            Payload(payload) => last = list_and_keep(out, payload, false)?,
            Record::Message(message) => {
                last = match read_uplink(&message) {
                    Ok(payload) => list_and_keep(out, payload, true)?,
                    Err(number) => {
                        writeln!(out, "list {number}")?;
                        vec![0; PAYLOAD_LENGTH]
                    }
                };
            }
            Add(frame_type, data) => {
                let number = add(&mut last, frame_type, &data).err().unwrap_or(0);
                writeln!(out, "add {number} {:04x}", check_sequence(&last))?;
            }
            List => write_list(out, &last, false)?,
        }
    }
    Ok(())
}

/// The payload of an uplink message: refused as reading it is, and with 6 if it
/// is of another kind.
fn read_uplink(message: &[u8]) -> Result<Vec<u8>, u8> {
    if message.first() != Some(&UPLINK_ID) {
        return Err(NOT_LISTED);
    }
    match read(message)? {
        Message::Uplink(uplink) => Ok(uplink.payload),
        _ => unreachable!("the id is an uplink's"),
    }
}

/// What frames are added to: the first 432 bytes, zeros behind fewer.
fn list_and_keep(out: &mut dyn Write, mut payload: Vec<u8>, texts: bool) -> io::Result<Vec<u8>> {
    write_list(out, &payload, texts)?;
    payload.resize(PAYLOAD_LENGTH, 0);
    Ok(payload)
}

fn write_list(out: &mut dyn Write, payload: &[u8], texts: bool) -> io::Result<()> {
    let frames = match list(payload) {
        Ok(frames) => frames,
        Err(number) => return writeln!(out, "list {number}"),
    };
    write!(out, "list 0 {} {}", frames.len(), end(&frames))?;
    for frame in &frames {
        let data = &payload[frame.data.clone()];
        write!(
            out,
            " {} {} {} ",
            frame.frame_type,
            frame.reserved,
            data.len()
        )?;
        write_hex(out, &data[..data.len().min(2)])?;
        if texts {
            write_text(out, data)?;
        }
    }
    let behind = nth(payload, frames.len()).expect_err("no frame behind the last");
    write!(out, " {behind}")?;
    if texts {
        write!(out, " {behind}")?;
    }
    writeln!(out)
}

fn write_text(out: &mut dyn Write, data: &[u8]) -> io::Result<()> {
    let mut room = [0; TEXT_ROOM];
    match text::read(data, &mut room) {
        Ok(Text {
            hours,
            minutes,
            padding,
            length,
        }) => {
            let sequence = check_sequence(&room);
            write!(
                out,
                " 0 {hours} {minutes} {padding} {length} {sequence:04x}"
            )
        }
        Err(number) => write!(out, " {number}"),
    }
}

fn records() -> Vec<Record> {
    let mut random = Xorshift::new(0x0DA7_A424);
    let mut records = Vec::new();
    add_samples(&mut records);
    add_lengths(&mut records);
    add_headers(&mut records);
    add_ends(&mut records);
    add_made_up(&mut records, &mut random);
    add_messages(&mut records, &mut random);
    records
}

/// Each sample of 001 §5.1.4 and §5.2.4, and the same built from nothing. The
/// type that is refused shows the check sequence of the first.
fn add_samples(records: &mut Vec<Record>) {
    for sample in samples_of_001() {
        let frames = list(&sample).expect("a whole payload");
        records.extend([Payload(sample.clone()), Add(FRAME_TYPE_MAX + 1, vec![1])]);
        records.push(Payload(vec![0; PAYLOAD_LENGTH]));
        for frame in frames {
            records.push(Add(frame.frame_type, sample[frame.data].to_vec()));
        }
        records.push(List);
    }
}

fn add_lengths(records: &mut Vec<Record>) {
    for length in [0, 1, 8, 424, 431, 433, 436] {
        records.push(Payload(vec![0xFF; length]));
    }
}

/// Value 10 of RULES 'Values', lengths around the longest, and data that are not
/// valid.
fn add_headers(records: &mut Vec<Record>) {
    for header in [
        [0x96, 0x00],
        [0x00, 0x80],
        [0x00, 0x7F],
        [0xD2, 0xFF],
        [0xD3, 0x00],
        [0xD3, 0x80],
        [0xFF, 0xFF],
    ] {
        let mut payload = valid(&header);
        records.push(Payload(payload.clone()));
        payload[VALID_AT] ^= VALID;
        records.extend([Payload(payload), Add(15, vec![0xEE; 3]), List]);
    }
}

/// Frames that are added up to the last byte, and one byte more.
fn add_ends(records: &mut Vec<Record>) {
    for length in [1, 2, 5, 100, 419, 420, 421, 422] {
        records.push(Payload(valid(&[])));
        let fitting = DATA_LENGTH / (length + 2);
        for _ in 0..fitting {
            records.push(Add(7, vec![0xEE; length]));
        }
        let left = DATA_LENGTH - fitting * (length + 2);
        let fills = left.saturating_sub(2);
        for length in [fills + 1, fills, 0, 1, FRAME_DATA_MAX, FRAME_DATA_MAX + 1] {
            records.push(Add(8, vec![0xDD; length]));
        }
        records.push(List);
    }
}

/// Each with a frame or two added.
fn add_made_up(records: &mut Vec<Record>, random: &mut Xorshift) {
    for make in [whole, damaged] {
        for _ in 0..MADE_UP {
            records.push(Payload(make(random)));
            for _ in 0..1 + random.below(2) {
                let length = random.below(60);
                records.push(Add(random.below(18) as u8, random.message(length)));
            }
        }
    }
}

/// Uplinks, with times of reception also out of range, other messages, and the
/// samples of 001 in messages.
fn add_messages(records: &mut Vec<Record>, random: &mut Xorshift) {
    for make in [whole, damaged] {
        for _ in 0..MESSAGES {
            let payload = make(random);
            let uplink = Uplink {
                reception: None,
                payload,
            };
            // What writing refuses is a payload of another length.
            if let Ok(message) = write(&Message::Uplink(uplink)) {
                records.push(Record::Message(message));
            }
        }
    }
    for _ in 0..MESSAGES {
        records.push(Record::Message(samples::damaged(random, UPLINK_ID)));
    }
    records.extend([vec![], HEARTBEAT.to_vec(), vec![UPLINK_ID; 4]].map(Record::Message));
    for payload in samples_of_001() {
        let uplink = Uplink {
            reception: None,
            payload,
        };
        let message = write(&Message::Uplink(uplink)).expect("a whole uplink");
        records.push(Record::Message(message));
    }
}
