//! Messages to be read and the answers to them.
//!
//! `messages_vectors input` writes binary records: message length (16 bits, high
//! byte first), then the message.
//! `messages_vectors output` writes one line for each record: the number and,
//! if it is 0, the word of the kind, its fields, and in hex the bytes that
//! writing what was read gives.

use std::fmt::Display;
use std::io::{self, Write};
use std::process::ExitCode;

use reference::messages::*;
use reference::samples::{damaged, whole};
use reference::vectors::{run, write_hex, HEARTBEAT, SALEM};
use reference::xorshift::Xorshift;

/// For each id how many are made up: whole, damaged, of random bytes behind the
/// id. Uplinks are long, so few.
const MADE_UP: [(u8, [usize; 3]); 7] = [
    (HEARTBEAT_ID, [120, 80, 120]),
    (INITIALIZATION_ID, [30, 30, 30]),
    (UPLINK_ID, [4, 4, 2]),
    (HEIGHT_ID, [60, 40, 60]),
    (OWNSHIP_ID, [160, 80, 80]),
    (GEOMETRIC_ID, [120, 60, 80]),
    (TRAFFIC_ID, [160, 80, 80]),
];

/// What the input may have at most, in bytes.
const INPUT_MAX: usize = 59_999;

fn main() -> io::Result<ExitCode> {
    run("messages_vectors", write_input, write_output)
}

fn write_input(out: &mut dyn Write) -> io::Result<()> {
    let records = records();
    let total: usize = records.iter().map(|message| 2 + message.len()).sum();
    assert!(total <= INPUT_MAX, "{total} bytes of input");
    for message in records {
        out.write_all(&(message.len() as u16).to_be_bytes())?;
        out.write_all(&message)?;
    }
    Ok(())
}

fn write_output(out: &mut dyn Write) -> io::Result<()> {
    for message in records() {
        match read(&message) {
            Ok(value) => write_accepted(out, &value)?,
            Err(number) => write!(out, "{number}")?,
        }
        writeln!(out)?;
    }
    Ok(())
}

fn write_accepted(out: &mut dyn Write, value: &Message) -> io::Result<()> {
    write!(out, "0 ")?;
    match value {
        Message::Heartbeat(heartbeat) => write_heartbeat(out, heartbeat)?,
        Message::Initialization(Initialization { first, second }) => {
            write!(out, "initialization {first} {second}")?;
        }
        Message::Uplink(uplink) => write!(out, "uplink {}", or_none(uplink.reception))?,
        Message::Height(Height(height)) => {
            write!(out, "height {}", or_none(height.map(TerrainFeet::feet)))?;
        }
        Message::Ownship(report) => write_report(out, "ownship", report)?,
        Message::Geometric(geometric) => write_geometric(out, geometric)?,
        Message::Traffic(report) => write_report(out, "traffic", report)?,
    }
    write!(out, " ")?;
    let written = write(value).expect("what was read can be written");
    write_hex(out, &written)
}

fn or_none(value: Option<impl Display>) -> String {
    value.map_or("none".to_string(), |value| value.to_string())
}

fn write_heartbeat(out: &mut dyn Write, heartbeat: &Heartbeat) -> io::Result<()> {
    let Heartbeat {
        status_1,
        status_2,
        time,
        uplinks,
        reserved,
        basic_and_long,
    } = heartbeat;
    let reserved = u8::from(*reserved);
    write!(out, "heartbeat {status_1} {status_2} {time}")?;
    write!(out, " {uplinks} {reserved} {basic_and_long}")
}

fn write_geometric(out: &mut dyn Write, geometric: &GeometricAltitude) -> io::Result<()> {
    let feet = geometric.altitude.feet();
    write!(out, "geometric {feet} {}", u8::from(geometric.warning))?;
    match geometric.merit {
        Merit::Metres(metres) => write!(out, " {metres}"),
        Merit::Over => write!(out, " over"),
        Merit::None => write!(out, " none"),
    }
}

fn write_report(out: &mut dyn Write, word: &str, report: &Report) -> io::Result<()> {
    write!(out, "{word} {} {}", report.alert, report.address_type)?;
    write!(out, " {}", report.address)?;
    match report.position {
        Position::At {
            latitude,
            longitude,
        } => write!(out, " {latitude} {longitude}")?,
        Position::None => write!(out, " none none")?,
    }
    let feet = report.altitude.map(AltitudeSteps::feet);
    write!(out, " {} {}", or_none(feet), report.track_kind as u8)?;
    let (extrapolated, airborne) = (u8::from(report.extrapolated), u8::from(report.airborne));
    write!(out, " {extrapolated} {airborne}")?;
    write!(out, " {} {}", report.integrity, report.accuracy)?;
    match report.speed {
        Speed::Knots(knots) => write!(out, " {knots}")?,
        Speed::Over => write!(out, " over")?,
        Speed::None => write!(out, " none")?,
    }
    match report.climb {
        Climb::Steps(steps) => write!(out, " {steps}")?,
        Climb::Above => write!(out, " above")?,
        Climb::Below => write!(out, " below")?,
        Climb::None => write!(out, " none")?,
    }
    write!(out, " {} {} ", report.track, report.emitter)?;
    write_hex(out, &report.call_sign)?;
    write!(out, " {} {}", report.priority, report.spare)
}

type Records = Vec<Vec<u8>>;

fn records() -> Records {
    let mut random = Xorshift::new(0x14_0A1E_1F07);
    let mut records = Records::new();
    records.push(HEARTBEAT.to_vec());
    records.push(SALEM.to_vec());
    add_lengths(&mut records, &mut random);
    add_heartbeats(&mut records);
    add_heights(&mut records);
    add_geometric(&mut records);
    add_receptions(&mut records, &mut random);
    add_retired(&mut records, &mut random);
    add_reports(&mut records);
    add_positions(&mut records);
    add_made_up(&mut records, &mut random);
    records
}

/// No byte, every id alone, each kind one byte short and one byte long, and
/// messages whole but for an id not in the list.
fn add_lengths(records: &mut Records, random: &mut Xorshift) {
    records.push(Vec::new());
    records.extend((0..=255).map(|id| vec![id]));
    for (id, length) in LENGTHS {
        let mut message = whole(random, id);
        message.push(0x00);
        records.push(message.clone());
        message.truncate(length - 1);
        records.push(message);
    }
    for id in [1, 3, 8, 12, 19, 21, 29, 32, 255] {
        for like in [HEARTBEAT_ID, HEIGHT_ID, TRAFFIC_ID] {
            let mut message = whole(random, like);
            message[0] = id;
            records.push(message);
        }
    }
}

/// Times, counts and single bits.
fn add_heartbeats(records: &mut Records) {
    for time in [
        0, 1, 255, 256, 65_535, 65_536, 86_398, 86_399, 86_400, 86_401, 131_071,
    ] {
        for status_2 in [0x00, 0x7F] {
            let [low, middle, high, _] = u32::to_le_bytes(time);
            records.push(vec![0, 0x81, high << 7 | status_2, low, middle, 0x08, 0x02]);
        }
    }
    // The first is the example of 001 §3.1.4.
    for [high, low] in [[0x22, 0x37], [0xF8, 0x00], [0x04, 0x00], [0x03, 0xFF]] {
        records.push(vec![0, 0x81, 0x41, 0xDB, 0xD0, high, low]);
    }
    for bit in 0..48 {
        let mut message = vec![0; 7];
        message[1 + bit / 8] = 0x80 >> (bit % 8);
        records.push(message);
    }
}

/// The example of 001 §3.7, the mark and what is next to it.
fn add_heights(records: &mut Records) {
    for bits in [
        0x0100, 0x0000, 0x0001, 0x00FF, 0xFFFF, 0x7FFE, 0x7FFF, 0x8000, 0x8001,
    ] {
        let [high, low] = u16::to_be_bytes(bits);
        records.push(vec![HEIGHT_ID, high, low]);
    }
}

/// Examples of 001 §3.8, ends and marks.
fn add_geometric(records: &mut Records) {
    let mut add = |altitude: u16, metrics: u16| {
        let [high, low] = altitude.to_be_bytes();
        let [metrics, metrics_low] = metrics.to_be_bytes();
        records.push(vec![GEOMETRIC_ID, high, low, metrics, metrics_low]);
    };
    for altitude in [0xFF38, 0x0000, 0x00C8, 0x0001, 0xFFFF, 0x7FFF, 0x8000] {
        add(altitude, 0x000A);
    }
    for merit in [
        0x0000, 0x000A, 0x0032, 0x7EED, 0x7EEE, 0x7EEF, 0x7FFD, 0x7FFE, 0x7FFF,
    ] {
        add(0x00C8, merit);
        add(0xFF38, merit | 0x8000);
    }
}

/// Ends and mark of the time of reception, what is next to them, and others.
const RECEPTIONS: [u32; 11] = [
    0, 1, 256, 65_536, 0x80_0000, 12_499_998, 12_499_999, 12_500_000, 0xC0_0000, 0xFF_FFFE,
    0xFF_FFFF,
];

fn add_receptions(records: &mut Records, random: &mut Xorshift) {
    for steps in RECEPTIONS {
        records.push(received_at(steps, whole(random, UPLINK_ID)));
    }
}

/// The retired ids and those next to them: of few bytes, of as many as a message
/// may have, and around 22 and 38, which pass-through had (001 §3.6). Those of 22
/// and 38 bytes also with times of reception, good and not.
fn add_retired(records: &mut Records, random: &mut Xorshift) {
    for id in 29..=32 {
        for length in [2, 3, 4, 5, 21, 22, 23, 37, 38, 39, 435, 436, 437] {
            records.push(random.message_with_id(id, length));
        }
        for length in [22, 38] {
            for steps in RECEPTIONS {
                records.push(received_at(steps, random.message_with_id(id, length)));
            }
        }
    }
}

fn received_at(steps: u32, mut message: Vec<u8>) -> Vec<u8> {
    message[1..4].copy_from_slice(&steps.to_le_bytes()[..3]);
    message
}

/// Values of the letters of 001 Figure 2: first half byte behind the id, number
/// of half bytes, values.
const LETTERS: [(usize, usize, &[u32]); 16] = [
    (0, 1, &[0, 1, 2, 15]),
    (1, 1, &[0, 1, 2, 3, 4, 5, 6, 15]),
    (2, 6, &[0, 1, 0x80_0000, 0xFF_FFFF]),
    (8, 6, &LATITUDES),
    (14, 6, &LONGITUDES),
    (20, 3, &[0, 1, 0x27, 0x28, 0x29, 0x50, 0xFFD, 0xFFE, 0xFFF]),
    (23, 1, &HALF_BYTES),
    (24, 1, &HALF_BYTES),
    (25, 1, &HALF_BYTES),
    (26, 3, &[0, 1, 0x7FF, 0x800, 0xFFC, 0xFFD, 0xFFE, 0xFFF]),
    (29, 3, &CLIMBS),
    (32, 2, &[0, 1, 0x80, 0xFF]),
    (34, 2, &[0, 0x11, 39, 40, 0xFF]),
    (36, 16, &[0, 0xFFFF_FFFF]),
    (52, 1, &[1, 6, 7, 15]),
    (53, 1, &[1, 8, 15]),
];

/// Table of 001 §3.5.1.3, then 90 degrees to both sides and one step beyond.
const LATITUDES: [u32; 14] = [
    0x00_0000, 0x00_0001, 0xFF_FFFF, 0x20_0000, 0xE0_0000, 0x40_0000, 0x80_0000, 0x7F_FFFF,
    0x3F_FFFF, 0x40_0001, 0xC0_0000, 0xC0_0001, 0xBF_FFFF, 0x80_0001,
];

/// Table of 001 §3.5.1.3; no longitude is out of range.
const LONGITUDES: [u32; 10] = [
    0x00_0000, 0x00_0001, 0xFF_FFFF, 0x20_0000, 0xE0_0000, 0x40_0000, 0x80_0000, 0x7F_FFFF,
    0x80_0001, 0xBF_FFFF,
];

const HALF_BYTES: [u32; 16] = [0, 1, 2, 3, 4, 5, 6, 7, 8, 9, 10, 11, 12, 13, 14, 15];

/// Examples of 001 §3.5.1.8, then both sides of every border.
const CLIMBS: [u32; 18] = [
    0x000, 0x001, 0xFFF, 0x1FD, 0x1FE, 0xE03, 0xE02, 0x800, 0x002, 0xFFE, 0x1FC, 0x1FF, 0x200,
    0x7FF, 0x801, 0xE00, 0xE01, 0xE04,
];

/// The example of 001 §3.5.2 with one field changed.
fn add_reports(records: &mut Records) {
    for id in [OWNSHIP_ID, TRAFFIC_ID] {
        for (at, width, values) in LETTERS {
            for &value in values {
                let mut message = SALEM;
                message[0] = id;
                put(&mut message, at, width, value);
                records.push(message.to_vec());
            }
        }
    }
}

/// Position 0, 0 and its neighbours, with integrities: which of them are none.
fn add_positions(records: &mut Records) {
    for id in [OWNSHIP_ID, TRAFFIC_ID] {
        for latitude in [0, 1, 0xFF_FFFF] {
            for longitude in [0, 1, 0x80_0000] {
                for integrity in [0, 1, 11, 12] {
                    let mut message = SALEM;
                    message[0] = id;
                    put(&mut message, 8, 6, latitude);
                    put(&mut message, 14, 6, longitude);
                    put(&mut message, 24, 1, integrity);
                    records.push(message.to_vec());
                }
            }
        }
    }
}

/// Puts the value into half bytes behind the id, high first. A value of fewer
/// half bytes than the field has zeros in front.
fn put(message: &mut [u8], at: usize, width: usize, value: u32) {
    for place in 0..width {
        let half = (u64::from(value) >> (4 * (width - 1 - place)) & 0xF) as u8;
        let byte = &mut message[1 + (at + place) / 2];
        *byte = match (at + place) % 2 {
            0 => *byte & 0x0F | half << 4,
            _ => *byte & 0xF0 | half,
        };
    }
}

fn add_made_up(records: &mut Records, random: &mut Xorshift) {
    for ((id, counts), (listed, length)) in MADE_UP.into_iter().zip(LENGTHS) {
        assert_eq!(id, listed);
        let [wholes, damages, others] = counts;
        records.extend((0..wholes).map(|_| whole(random, id)));
        records.extend((0..damages).map(|_| damaged(random, id)));
        records.extend((0..others).map(|_| random.message_with_id(id, length)));
    }
}
