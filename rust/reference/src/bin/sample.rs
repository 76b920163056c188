//! A short made-up flight as it would be recorded, and its listing: the files in
//! `samples`.
//!
//! `sample input` writes the recording, in binary.
//! `sample output` writes its listing (RULES 'Listing').

use std::io::{self, Write};
use std::process::ExitCode;

use reference::framing::{ESCAPE, FLAG};
use reference::listing::listing;
use reference::messages::{
    read, write, AltitudeSteps, Climb, FiveFootSteps, GeometricAltitude, Heartbeat, Height, Merit,
    Message, Position, Report, Speed, TerrainFeet, TrackKind, Uplink,
};
use reference::payloads::samples_of_001;
use reference::recording::framed;
use reference::vectors::{run, HEARTBEAT, SALEM};

const SECONDS: u16 = 10;
/// The display shows traffic and wants no audible alerts (001 §3.2).
const INITIALIZATION: [u8; 3] = [2, 0x01, 0x02];
/// What a receiver may have heard from N825V: its address, and any bytes behind
/// it, two of which need an escape.
const HEARD: [u8; 34] =
    *b"\x00\xAB\x45\x49\x3F\xDE\x2B\x51\x12\xF0\x0A\x90\x7E\x05\x7D\x40\x31\x01\
    \x03\xC1\x4A\x57\xA0\x22\x10\x0C\x00\x00\x81\x00\x00\x00\x00\x00";

fn main() -> io::Result<ExitCode> {
    run("sample", write_input, write_output)
}

fn write_input(out: &mut dyn Write) -> io::Result<()> {
    out.write_all(&recording())
}

fn write_output(out: &mut dyn Write) -> io::Result<()> {
    out.write_all(&listing(&recording()))
}

/// Begun and ended within a frame, as recordings are.
fn recording() -> Vec<u8> {
    let mut out = framed(&traffic(0))[20..].to_vec();
    for second in 0..SECONDS {
        let messages = [heartbeat, ownship, geometric, height, traffic];
        out.extend(messages.iter().flat_map(|of| framed(&of(second))));
        out.extend(also(second));
    }
    out.extend([FLAG; 4]);
    out.extend(&framed(&ownship(SECONDS))[..13]);
    out
}

/// What each second has besides: the rarer kinds and the retired ids (17) first,
/// then every other refusal.
fn also(second: u16) -> Vec<u8> {
    match second {
        0 => framed(&INITIALIZATION),
        1 => shared_flag(),
        2 => framed(&uplink(2)),
        3 => broken_escapes(),
        4 => lost_flag(),
        5 => scraps(),
        6 => flipped(&ownship(second)),
        7 => not_listed(),
        8 => wrong_lengths(second),
        _ => borders(),
    }
}

fn bytes(message: Message) -> Vec<u8> {
    write(&message).unwrap_or_else(|number| panic!("refused with {number}: {message:?}"))
}

/// That of 001 §2.2.4, a second later each time.
fn heartbeat(second: u16) -> Vec<u8> {
    let Ok(Message::Heartbeat(first)) = read(&HEARTBEAT) else {
        panic!("no heartbeat");
    };
    bytes(Message::Heartbeat(Heartbeat {
        time: first.time + u32::from(second),
        ..first
    }))
}

/// Pressure altitude of a climb at 704 feet a minute.
fn feet(second: u16) -> u16 {
    1_240 + 704 * second / 60
}

/// Northwards to Salem at 92 knots, which is 20 steps of latitude a second.
fn ownship(second: u16) -> Vec<u8> {
    bytes(Message::Ownship(Report {
        alert: 0,
        address_type: 0,
        address: 0xA9_90_1D,
        position: Position::At {
            latitude: 2_091_559 + 20 * i32::from(second),
            longitude: -5_732_739,
        },
        altitude: Some(AltitudeSteps((feet(second) + 1_000) / 25)),
        track_kind: TrackKind::TrueTrack,
        extrapolated: false,
        airborne: true,
        integrity: 10,
        accuracy: 9,
        speed: Speed::Knots(92),
        climb: Climb::Steps(11),
        track: 0,
        emitter: 1,
        call_sign: *b"N90GD   ",
        priority: 0,
        spare: 0,
    }))
}

fn geometric(second: u16) -> Vec<u8> {
    bytes(Message::Geometric(GeometricAltitude {
        altitude: FiveFootSteps((feet(second) + 60) as i16 / 5),
        warning: false,
        merit: Merit::Metres(12),
    }))
}

fn height(second: u16) -> Vec<u8> {
    let feet = TerrainFeet(feet(second) as i16 - 190);
    bytes(Message::Height(Height(Some(feet))))
}

/// N825V of 001 §3.5.2, flown on to the north-east at 123 knots.
fn traffic(second: u16) -> Vec<u8> {
    let Ok(Message::Traffic(mut report)) = read(&SALEM) else {
        panic!("no traffic report");
    };
    if let Position::At {
        latitude,
        longitude,
    } = &mut report.position
    {
        *latitude += 19 * i32::from(second);
        *longitude += 27 * i32::from(second);
    }
    bytes(Message::Traffic(report))
}

/// With the n-th sample of 001 §5, in several information frames: 2 is text.
fn uplink(n: usize) -> Vec<u8> {
    bytes(Message::Uplink(Uplink {
        reception: Some(3_125_000),
        payload: samples_of_001()[n].clone(),
    }))
}

/// Pass-through as recordings hold it (001 §3.6): received 0.4 s into a second.
fn basic() -> Vec<u8> {
    [&[30, 0x40, 0x4B, 0x4C], &HEARD[..18]].concat()
}

/// With no time of reception.
fn long() -> Vec<u8> {
    [&[31, 0xFF, 0xFF, 0xFF], &HEARD[..]].concat()
}

/// 17: basic and long pass-through with one flag between them.
fn shared_flag() -> Vec<u8> {
    [&framed(&basic())[..], &framed(&long())[1..]].concat()
}

/// 1: a bit flipped in the byte behind an escape. 2: broken off behind it.
fn broken_escapes() -> Vec<u8> {
    let frame = framed(&basic());
    let escape = frame.iter().position(|&byte| byte == ESCAPE);
    let behind = escape.expect("an escape") + 1;
    let mut flipped = frame.clone();
    flipped[behind] ^= 1;
    [&flipped, &frame[..behind]].concat()
}

/// 3: the closing flag became another byte, which is the 439th.
fn lost_flag() -> Vec<u8> {
    let mut frame = framed(&uplink(0));
    *frame.last_mut().expect("a flag") ^= 1;
    frame
}

/// 4: one byte between flags, and two.
fn scraps() -> Vec<u8> {
    vec![FLAG, 0x00, FLAG, 0x81, 0x41, FLAG]
}

/// 5: a bit of the call sign flipped on the way.
fn flipped(message: &[u8]) -> Vec<u8> {
    let mut frame = framed(message);
    frame[22] ^= 0x10;
    frame
}

/// 6: ids that 001 does not have.
fn not_listed() -> Vec<u8> {
    [framed(&[204, 0x02]), framed(&[101; 39])].concat()
}

/// 7: a heartbeat with a byte more, an ownship report with one fewer.
fn wrong_lengths(second: u16) -> Vec<u8> {
    let longer = [&heartbeat(second)[..], &[0x00]].concat();
    let shorter = &ownship(second)[..27];
    [framed(&longer), framed(shorter)].concat()
}

/// 0: the last second of a day. 8: the one behind it, and a climb that is neither
/// a number nor a mark (values 7 and 8 of RULES 'Values').
fn borders() -> Vec<u8> {
    let [last, late] = [86_400_u32, 86_401].map(|time| {
        let [low, middle, high, _] = time.to_le_bytes();
        let mut heartbeat = HEARTBEAT;
        heartbeat[2..5].copy_from_slice(&[high << 7 | 0x41, low, middle]);
        framed(&heartbeat)
    });
    let mut steep = SALEM;
    steep[15..17].copy_from_slice(&[0xB1, 0xFF]);
    [last, late, framed(&steep)].concat()
}

#[cfg(test)]
mod tests {
    use super::*;
    use reference::collecting::answers;
    use reference::information_frames::list;
    use reference::messages::{LENGTHS, UPLINK_ID};

    const README: &str = include_str!("../../../../samples/README.md");

    /// Answer, id, length and position in each line, and the last line.
    fn lines() -> (Vec<[String; 4]>, String) {
        let text = String::from_utf8(listing(&recording())).expect("ASCII");
        let mut lines: Vec<&str> = text.lines().skip(1).collect();
        let end = lines.pop().expect("a last line").to_string();
        let fields = |line: &str| {
            let fields: Vec<String> = line.split(' ').map(String::from).collect();
            let [_, _, answer, id, length, position] = fields.try_into().expect("six fields");
            [answer, id, length, position]
        };
        (lines.into_iter().map(fields).collect(), end)
    }

    #[test]
    fn every_kind_is_accepted() {
        let (lines, _) = lines();
        for (id, length) in LENGTHS {
            let accepted = ["0", &id.to_string(), &length.to_string(), "-"].map(String::from);
            assert!(lines.contains(&accepted), "id {id}");
        }
    }

    #[test]
    fn every_answer_occurs() {
        let (lines, end) = lines();
        for number in (0..=8).chain([17]) {
            let number = number.to_string();
            assert!(lines.iter().any(|line| line[0] == number), "{number}");
        }
        assert!((40..=80).contains(&lines.len()));
        assert_eq!(end, "end 11 12");
    }

    /// The first three columns of its table are the line, its answer and its position.
    #[test]
    fn readme_names_the_lines_that_are_refused() {
        let (lines, _) = lines();
        let numbered = (1..).zip(lines).filter(|(_, line)| line[0] != "0");
        let expected: Vec<String> = numbered
            .map(|(number, line)| format!("{number} {} {}", line[0], line[3]))
            .collect();
        let table = README
            .lines()
            .skip_while(|row| !row.starts_with("| Line |"));
        let named: Vec<String> = table
            .take_while(|row| row.starts_with('|'))
            .skip(2)
            .map(|row| {
                let columns: Vec<&str> = row.split('|').map(str::trim).collect();
                columns[1..4].join(" ")
            })
            .collect();
        assert_eq!(named, expected);
    }

    #[test]
    fn uplink_has_several_frames_of_text() {
        let kept = answers(&recording());
        let uplink = kept
            .iter()
            .find(|kept| kept.message.first() == Some(&UPLINK_ID));
        let payload = &uplink.expect("an uplink").message[4..];
        assert!(list(payload).expect("a whole payload").len() > 2);
    }
}
