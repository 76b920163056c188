//! The seven kinds of message as typed values, 001 §3 and RULES 'Messages'.

mod fields;
mod heartbeat;
mod heights;
mod report;
mod uplink;

pub use heartbeat::{Heartbeat, Initialization, TIME_MAX};
pub use heights::{FiveFootSteps, GeometricAltitude, Height, Merit, TerrainFeet};
pub use report::{
    AltitudeSteps, Climb, Position, Report, Speed, TrackKind, ALTITUDE_MAX, CATEGORY_MAX,
    CLIMB_MAX, LATITUDE_MAX, SPEED_MAX,
};
pub use uplink::{Uplink, PAYLOAD_LENGTH, RECEPTION_MAX};

use crate::framing::MESSAGE_MAX;
use fields::exactly;

/// The numbers of RULES 'Numbers'.
pub use crate::framing::OUTPUT_TOO_SHORT;
pub const NOT_LISTED: u8 = 6;
pub const WRONG_LENGTH: u8 = 7;
pub const OUT_OF_RANGE: u8 = 8;
pub const RETIRED: u8 = 17;

/// Ids of 001 Table 2.
pub const HEARTBEAT_ID: u8 = 0;
pub const INITIALIZATION_ID: u8 = 2;
pub const UPLINK_ID: u8 = 7;
pub const HEIGHT_ID: u8 = 9;
pub const OWNSHIP_ID: u8 = 10;
pub const GEOMETRIC_ID: u8 = 11;
pub const TRAFFIC_ID: u8 = 20;

/// Of basic and long pass-through (001 §3.6, RULES 'Retired ids'). Recordings hold
/// them: they are framed and collected, and reading answers 17.
pub const RETIRED_IDS: [u8; 2] = [30, 31];

/// Each id with its length, the id included (RULES 'Messages').
pub const LENGTHS: [(u8, usize); 7] = [
    (HEARTBEAT_ID, 7),
    (INITIALIZATION_ID, 3),
    (UPLINK_ID, 436),
    (HEIGHT_ID, 3),
    (OWNSHIP_ID, 28),
    (GEOMETRIC_ID, 5),
    (TRAFFIC_ID, 28),
];

#[derive(Debug, PartialEq, Eq, Clone)]
pub enum Message {
    Heartbeat(Heartbeat),
    Initialization(Initialization),
    Uplink(Uplink),
    Height(Height),
    Ownship(Report),
    Geometric(GeometricAltitude),
    Traffic(Report),
}

/// Checks 6, 17, 7, 8 in this order (RULES 'Numbers').
pub fn read(message: &[u8]) -> Result<Message, u8> {
    let [id, fields @ ..] = message else {
        return Err(NOT_LISTED);
    };
    match *id {
        HEARTBEAT_ID => Heartbeat::read(exactly(fields)?).map(Message::Heartbeat),
        INITIALIZATION_ID => Initialization::read(exactly(fields)?).map(Message::Initialization),
        UPLINK_ID => Uplink::read(exactly(fields)?).map(Message::Uplink),
        HEIGHT_ID => Height::read(exactly(fields)?).map(Message::Height),
        OWNSHIP_ID => Report::read(exactly(fields)?).map(Message::Ownship),
        GEOMETRIC_ID => GeometricAltitude::read(exactly(fields)?).map(Message::Geometric),
        TRAFFIC_ID => Report::read(exactly(fields)?).map(Message::Traffic),
        id if RETIRED_IDS.contains(&id) => Err(RETIRED),
        _ => Err(NOT_LISTED),
    }
}

/// Checks 7 (an uplink's payload only), then 8 (RULES 'Numbers').
pub fn write(message: &Message) -> Result<Vec<u8>, u8> {
    let mut out = [0; MESSAGE_MAX];
    let length = write_into(message, &mut out)?;
    Ok(out[..length].to_vec())
}

/// Checks 7 (an uplink's payload only), 8, 9 in this order (RULES 'Numbers') and
/// answers how many bytes were written. A refusal leaves the output unchanged.
pub fn write_into(message: &Message, out: &mut [u8]) -> Result<usize, u8> {
    match message {
        Message::Heartbeat(heartbeat) => put(HEARTBEAT_ID, &heartbeat.write()?, out),
        Message::Initialization(bytes) => put(INITIALIZATION_ID, &bytes.write(), out),
        Message::Uplink(uplink) => put(UPLINK_ID, &uplink.write()?, out),
        Message::Height(height) => put(HEIGHT_ID, &height.write()?, out),
        Message::Ownship(report) => put(OWNSHIP_ID, &report.write()?, out),
        Message::Geometric(geometric) => put(GEOMETRIC_ID, &geometric.write()?, out),
        Message::Traffic(report) => put(TRAFFIC_ID, &report.write()?, out),
    }
}

/// Writes the id and the fields behind it.
#[inline]
pub fn put(id: u8, fields: &[u8], out: &mut [u8]) -> Result<usize, u8> {
    let length = 1 + fields.len();
    let out = out.get_mut(..length).ok_or(OUTPUT_TOO_SHORT)?;
    out[0] = id;
    out[1..].copy_from_slice(fields);
    Ok(length)
}

#[cfg(test)]
mod tests {
    use super::*;
    use crate::samples;
    use crate::vectors::{HEARTBEAT, SALEM};
    use crate::xorshift::Xorshift;

    fn with_id(id: u8, mut message: Vec<u8>) -> Vec<u8> {
        message[0] = id;
        message
    }

    #[test]
    fn ids_and_lengths() {
        let mut random = Xorshift::new(10);
        assert_eq!(read(&[]), Err(NOT_LISTED));
        for id in 0..=255 {
            let listed = LENGTHS.iter().find(|kind| kind.0 == id);
            for length in 1..=440 {
                // Zeros are in range in every kind.
                let answer = read(&with_id(id, vec![0; length]));
                match listed {
                    None if RETIRED_IDS.contains(&id) => assert_eq!(answer, Err(RETIRED)),
                    None => assert_eq!(answer, Err(NOT_LISTED)),
                    Some(kind) if kind.1 == length => assert!(answer.is_ok()),
                    Some(_) => {
                        assert_eq!(answer, Err(WRONG_LENGTH));
                        let message = with_id(id, random.message(length));
                        assert_eq!(read(&message), Err(WRONG_LENGTH));
                    }
                }
            }
        }
    }

    /// 17 comes before 7 and 8: neither the length nor a field matters.
    #[test]
    fn pass_through_is_retired() {
        let retired = (0..=255).filter(|&id| read(&[id]) == Err(17));
        assert_eq!(retired.collect::<Vec<u8>>(), [30, 31]);
        let mut random = Xorshift::new(16);
        for length in 1..=440 {
            for message in [vec![0; length], vec![0xFF; length], random.message(length)] {
                for (id, number) in [(29, 6), (30, 17), (31, 17), (32, 6)] {
                    assert_eq!(read(&with_id(id, message.clone())), Err(number));
                }
            }
        }
    }

    #[test]
    fn examples_keep_their_bytes() {
        for message in [&HEARTBEAT[..], &SALEM] {
            assert_eq!(write(&read(message).unwrap()).unwrap(), message);
        }
    }

    #[test]
    fn generated_values_read_back() {
        let mut random = Xorshift::new(11);
        for (id, length) in LENGTHS {
            for _ in 0..5_000 {
                let value = samples::value(&mut random, id);
                let message = write(&value).unwrap();
                assert_eq!((message[0], message.len()), (id, length));
                assert_eq!(read(&message), Ok(value));
            }
        }
    }

    /// Only the message's bytes change, and none with 9.
    #[test]
    fn every_room() {
        let mut random = Xorshift::new(14);
        for (id, length) in LENGTHS {
            let value = samples::value(&mut random, id);
            let message = write(&value).unwrap();
            for room in 0..length + 3 {
                let mut out = vec![0xAA; room];
                if room < length {
                    assert_eq!(write_into(&value, &mut out), Err(OUTPUT_TOO_SHORT));
                    assert_eq!(out, vec![0xAA; room]);
                } else {
                    assert_eq!(write_into(&value, &mut out), Ok(length));
                    assert_eq!(out[..length], message);
                    assert!(out[length..].iter().all(|&byte| byte == 0xAA));
                }
            }
        }
    }

    /// 8 comes before 9; 7 before 8 is shown in `uplink`.
    #[test]
    fn range_is_checked_before_the_output() {
        let mut random = Xorshift::new(15);
        for (id, length) in LENGTHS {
            let mut refused = 0;
            for _ in 0..2_000 {
                let value = samples::stretched(&mut random, id);
                if let Err(number) = write(&value) {
                    refused += 1;
                    for room in [0, length - 1, length] {
                        let mut out = vec![0xAA; room];
                        assert_eq!(write_into(&value, &mut out), Err(number));
                        assert_eq!(out, vec![0xAA; room]);
                    }
                }
            }
            assert!(refused > 5 || id == INITIALIZATION_ID, "id {id}: {refused}");
        }
    }

    /// Nothing is lost: reserved and spare bits are carried (RULES 'Messages').
    #[test]
    fn accepted_messages_keep_their_bytes() {
        let mut random = Xorshift::new(12);
        for (id, length) in LENGTHS {
            let mut accepted = 0;
            for _ in 0..5_000 {
                let message = with_id(id, random.message(length));
                match read(&message) {
                    Ok(value) => assert_eq!(write(&value), Ok(message)),
                    Err(number) => {
                        assert_eq!(number, OUT_OF_RANGE);
                        continue;
                    }
                }
                accepted += 1;
            }
            assert!(accepted > 200, "id {id}: {accepted}");
        }
    }

    #[test]
    fn damaged_messages_are_refused_or_keep_their_bytes() {
        let mut random = Xorshift::new(13);
        for (id, _) in LENGTHS {
            for _ in 0..5_000 {
                let message = samples::damaged(&mut random, id);
                if let Ok(value) = read(&message) {
                    assert_eq!(write(&value), Ok(message));
                }
            }
        }
    }
}
