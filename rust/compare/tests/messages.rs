//! The proved library and the reference read and write the same messages.

use std::fmt::Debug;
use std::hint::black_box;

use compare::messages::{from_reference, to_reference};
use gdl90::raw::{self, WriteAnswer, BELOW, NONE, OVER, PLAIN};
use gdl90::Error;
use reference::messages::{
    AltitudeSteps, Climb, FiveFootSteps, GeometricAltitude, Heartbeat, Height, Merit, Message,
    Report, Speed, TerrainFeet, GEOMETRIC_ID, HEARTBEAT_ID, HEIGHT_ID, INITIALIZATION_ID, LENGTHS,
    NOT_LISTED, OUTPUT_TOO_SHORT, OUT_OF_RANGE, OWNSHIP_ID, PAYLOAD_LENGTH, RECEPTION_MAX, RETIRED,
    RETIRED_IDS, TRAFFIC_ID, UPLINK_ID, WRONG_LENGTH,
};
use reference::samples;
use reference::vectors::{HEARTBEAT, SALEM};
use reference::xorshift::Xorshift;

/// Messages made up of each kind in one test.
const ROUNDS: usize = 5_000;
/// Bytes on each side of the output that no call may touch.
const GUARD: usize = 16;
/// Room for every message.
const ROOM: usize = 440;

/// Reads with the function of the kind with this id.
fn read_as(id: u8, message: &[u8]) -> Result<Message, u8> {
    let value = match id {
        HEARTBEAT_ID => answer(raw::read_heartbeat(message)).map(gdl90::Message::Heartbeat),
        INITIALIZATION_ID => {
            answer(raw::read_initialization(message)).map(gdl90::Message::Initialization)
        }
        UPLINK_ID => uplink_answer(message).map(gdl90::Message::Uplink),
        HEIGHT_ID => answer(raw::read_height(message)).map(gdl90::Message::Height),
        OWNSHIP_ID => answer(raw::read_ownship(message)).map(gdl90::Message::Ownship),
        GEOMETRIC_ID => answer(raw::read_geometric(message)).map(gdl90::Message::Geometric),
        TRAFFIC_ID => answer(raw::read_traffic(message)).map(gdl90::Message::Traffic),
        _ => panic!("no kind has the id {id}"),
    };
    value.map(to_reference)
}

/// The answer as a typed value. The value of a refusal is zero, and so is a
/// number with a mark, which the way there and back shows.
fn answer<Raw, Value>(answer: raw::Read<Raw>) -> Result<Value, u8>
where
    Raw: Copy + Debug + Default + PartialEq + From<Value>,
    Value: Copy + TryFrom<Raw>,
    Value::Error: Debug,
{
    if answer.number != 0 {
        assert_eq!(answer.value, Raw::default(), "value of a refusal");
        return Err(answer.number);
    }
    let value = Value::try_from(answer.value).expect("marks that there are");
    assert_eq!(answer.value, Raw::from(value), "a number with a mark");
    Ok(value)
}

/// The same of an uplink, whose payload is no part of the answer.
fn uplink_answer(message: &[u8]) -> Result<gdl90::Uplink<'_>, u8> {
    let answer = raw::read_uplink(message);
    if answer.number != 0 {
        assert_eq!(answer.value, raw::Uplink::default(), "value of a refusal");
        return Err(answer.number);
    }
    let uplink = gdl90::Uplink {
        reception: (answer.value.reception_mark != NONE).then_some(answer.value.reception),
        payload: &message[4..],
    };
    assert_eq!(answer.value, uplink.into(), "a number with a mark");
    Ok(uplink)
}

/// By the function that looks for the kind, and by the kind's own. There is no
/// kind exactly if reading answers 6 or 17 (RULES 'Numbers').
fn assert_readings_agree(message: &[u8]) {
    let expected = reference::messages::read(message);
    let kind = raw::kind(message);
    let expected_kind = match expected {
        Err(number @ (NOT_LISTED | RETIRED)) => (number, 0),
        _ => (0, message[0]),
    };
    assert_eq!((kind.number, kind.value), expected_kind, "{message:02X?}");
    let value = gdl90::Message::read(message);
    let answer = value.map(to_reference).map_err(Error::number);
    assert_eq!(answer, expected, "{message:02X?}");
    for (id, _) in LENGTHS {
        if message.first() == Some(&id) {
            assert_eq!(read_as(id, message), expected, "{message:02X?}");
        }
    }
}

/// What a function of writing answers in this room, with the bytes written.
/// Nothing else changes, and a refusal changes nothing (RULES 'Numbers').
fn written(room: usize, mut write: impl FnMut(&mut [u8]) -> WriteAnswer) -> Result<Vec<u8>, u8> {
    // A byte that was not written differs between the two fills.
    let [first, second] = [0xA5, 0x5A].map(|fill| {
        let mut lent = vec![fill; GUARD + room + GUARD];
        let answer = write(&mut lent[GUARD..GUARD + room]);
        // The compiler may hold that a call leaves the guards as they are.
        let lent = black_box(lent);
        let end = GUARD + answer.length;
        let mut others = lent[..GUARD].iter().chain(&lent[end..]);
        assert!(others.all(|&byte| byte == fill), "{answer:?}: {lent:02X?}");
        assert!(answer.number == 0 || answer.length == 0, "{answer:?}");
        let result = answer.result().map_err(Error::number);
        result.map(|_| lent[GUARD..end].to_vec())
    });
    assert_eq!(first, second);
    first
}

/// By the kind's own function, and by the one that looks for it.
fn assert_writings_agree(value: &Message, room: usize) {
    let expected = match reference::messages::write(value) {
        Ok(message) if message.len() > room => Err(OUTPUT_TOO_SHORT),
        answer => answer,
    };
    let value = from_reference(value);
    let answer = written(room, |out| write_as(value, out));
    assert_eq!(answer, expected, "in {room} bytes: {value:?}");
    let answer = written(room, |out| match value.write(out) {
        Ok(length) => WriteAnswer { number: 0, length },
        Err(error) => WriteAnswer {
            number: error.number(),
            length: 0,
        },
    });
    assert_eq!(answer, expected, "in {room} bytes: {value:?}");
}

fn write_as(value: gdl90::Message, out: &mut [u8]) -> WriteAnswer {
    match value {
        gdl90::Message::Heartbeat(heartbeat) => raw::write_heartbeat(heartbeat.into(), out),
        gdl90::Message::Initialization(bytes) => raw::write_initialization(bytes.into(), out),
        gdl90::Message::Uplink(uplink) => raw::write_uplink(uplink.into(), uplink.payload, out),
        gdl90::Message::Height(height) => raw::write_height(height.into(), out),
        gdl90::Message::Ownship(report) => raw::write_ownship(report.into(), out),
        gdl90::Message::Geometric(geometric) => raw::write_geometric(geometric.into(), out),
        gdl90::Message::Traffic(report) => raw::write_traffic(report.into(), out),
        other => panic!("no function writes {other:?}"),
    }
}

#[test]
fn examples_of_001_agree() {
    for message in [&HEARTBEAT[..], &SALEM] {
        assert_readings_agree(message);
        let value = reference::messages::read(message).unwrap();
        assert_writings_agree(&value, message.len());
    }
}

#[test]
fn generated_messages_agree() {
    let mut random = Xorshift::new(20);
    for (id, length) in LENGTHS {
        for _ in 0..ROUNDS {
            let value = samples::value(&mut random, id);
            assert_writings_agree(&value, length);
            let message = reference::messages::write(&value).unwrap();
            assert_readings_agree(&message);
            assert_eq!(from_reference(&value).to_vec(), Ok(message));
        }
    }
}

#[test]
fn damaged_messages_agree() {
    let mut random = Xorshift::new(21);
    for (id, _) in LENGTHS {
        for _ in 0..ROUNDS {
            assert_readings_agree(&samples::damaged(&mut random, id));
        }
    }
}

/// Of the kind's length, so that it is the fields that decide.
#[test]
fn random_fields_agree() {
    let mut random = Xorshift::new(22);
    for (id, length) in LENGTHS {
        for _ in 0..ROUNDS {
            assert_readings_agree(&random.message_with_id(id, length));
        }
    }
}

#[test]
fn random_bytes_agree() {
    let mut random = Xorshift::new(23);
    for _ in 0..20 * ROUNDS {
        let bound = [4, 40, 500][random.below(3)];
        let length = random.below(bound);
        assert_readings_agree(&random.message(length));
    }
}

#[test]
fn every_id_with_every_length_agrees() {
    let mut random = Xorshift::new(24);
    assert_readings_agree(&[]);
    for id in 0..=255 {
        for length in 1..=440 {
            for mut message in [vec![0; length], random.message(length)] {
                message[0] = id;
                assert_readings_agree(&message);
            }
        }
    }
}

/// RULES 'Retired ids': 17 whatever stands behind the id; a kind's own function
/// answers 6.
#[test]
fn retired_ids_are_retired_whatever_the_length() {
    let mut random = Xorshift::new(29);
    for id in RETIRED_IDS {
        for length in 1..=440 {
            let message = random.message_with_id(id, length);
            let answer = gdl90::Message::read(&message).map_err(Error::number);
            assert_eq!(answer, Err(RETIRED), "{message:02X?}");
            for (kind, _) in LENGTHS {
                assert_eq!(read_as(kind, &message), Err(NOT_LISTED), "{message:02X?}");
            }
        }
    }
}

/// A kind's function knows no id but its own.
#[test]
fn messages_of_other_kinds_are_not_listed() {
    let mut random = Xorshift::new(25);
    for (id, length) in LENGTHS {
        assert_eq!(read_as(id, &[]), Err(NOT_LISTED));
        for other in (0..=255).filter(|&other| other != id) {
            let mut message = samples::whole(&mut random, id);
            message[0] = other;
            assert_eq!(read_as(id, &message), Err(NOT_LISTED), "{message:02X?}");
            message.truncate(random.below(length));
            assert_eq!(read_as(id, &message), Err(NOT_LISTED), "{message:02X?}");
        }
        for (other, _) in LENGTHS.into_iter().filter(|&(other, _)| other != id) {
            let message = samples::whole(&mut random, other);
            assert_eq!(read_as(id, &message), Err(NOT_LISTED), "{message:02X?}");
        }
    }
}

#[test]
fn every_room_agrees() {
    let mut random = Xorshift::new(26);
    for (id, length) in LENGTHS {
        for _ in 0..3 {
            let value = samples::value(&mut random, id);
            for room in 0..=length + 2 {
                assert_writings_agree(&value, room);
            }
        }
    }
}

/// Answers 7 and 8, in rooms that are enough and too short.
#[test]
fn stretched_values_agree() {
    let mut random = Xorshift::new(27);
    for (id, length) in LENGTHS {
        for _ in 0..4 * ROUNDS {
            let room = [0, length - 1, length, ROOM][random.below(4)];
            assert_writings_agree(&samples::stretched(&mut random, id), room);
        }
    }
}

#[test]
fn every_height_and_merit_agrees() {
    for number in 0..=u16::MAX {
        let height = Height(Some(TerrainFeet(number as i16)));
        assert_writings_agree(&Message::Height(height), ROOM);
        let geometric = GeometricAltitude {
            merit: Merit::Metres(number),
            altitude: FiveFootSteps(0),
            warning: false,
        };
        assert_writings_agree(&Message::Geometric(geometric), ROOM);
    }
}

/// That of 001 §2.2.4.
fn heartbeat() -> Heartbeat {
    let Ok(Message::Heartbeat(heartbeat)) = reference::messages::read(&HEARTBEAT) else {
        panic!("no heartbeat");
    };
    heartbeat
}

#[test]
fn every_number_in_a_heartbeat_agrees() {
    let example = heartbeat();
    for number in 0..=u16::MAX {
        for change in [
            |heartbeat: &mut Heartbeat, number| heartbeat.status_2 = number as u8,
            |heartbeat: &mut Heartbeat, number| heartbeat.uplinks = number as u8,
            |heartbeat: &mut Heartbeat, number| heartbeat.basic_and_long = number,
        ] {
            let mut heartbeat = example;
            change(&mut heartbeat, number);
            assert_writings_agree(&Message::Heartbeat(heartbeat), ROOM);
        }
    }
}

/// Read and written: 8 from 86,401 on (RULES 'Time of day').
#[test]
fn every_time_agrees() {
    let example = heartbeat();
    // 17 bits of the message, 32 of the value.
    for time in (0..1 << 17).chain([1 << 17, (1 << 17) + 86_400, 1 << 31, u32::MAX]) {
        let number = (time > 86_400).then_some(OUT_OF_RANGE);
        let value = Message::Heartbeat(Heartbeat { time, ..example });
        assert_writings_agree(&value, ROOM);
        assert_eq!(reference::messages::write(&value).err(), number, "{time}");
        if time < 1 << 17 {
            let [low, middle, high, _] = time.to_le_bytes();
            let message = [0, 0x81, high << 7 | 0x41, low, middle, 0x08, 0x02];
            assert_readings_agree(&message);
            assert_eq!(read_as(HEARTBEAT_ID, &message).err(), number, "{time}");
        }
    }
}

#[test]
fn every_number_in_a_report_agrees() {
    let Ok(Message::Traffic(example)) = reference::messages::read(&SALEM) else {
        panic!("no traffic");
    };
    for number in 0..=u16::MAX {
        for change in [
            |report: &mut Report, number| report.alert = number as u8,
            |report: &mut Report, number| report.address_type = number as u8,
            |report: &mut Report, number| report.altitude = Some(AltitudeSteps(number)),
            |report: &mut Report, number| report.integrity = number as u8,
            |report: &mut Report, number| report.accuracy = number as u8,
            |report: &mut Report, number| report.speed = Speed::Knots(number),
            |report: &mut Report, number| report.climb = Climb::Steps(number as i16),
            |report: &mut Report, number| report.priority = number as u8,
            |report: &mut Report, number| report.spare = number as u8,
        ] {
            let mut report = example;
            change(&mut report, number);
            assert_writings_agree(&Message::Ownship(report), ROOM);
            assert_writings_agree(&Message::Traffic(report), ROOM);
        }
    }
}

type WriteReport = fn(raw::Report, &mut [u8]) -> WriteAnswer;

const REPORT_WRITERS: [WriteReport; 2] = [raw::write_ownship, raw::write_traffic];

/// Writes every mark into the value; those up to `last` are the field's.
fn assert_marks<Raw: Copy + Debug>(
    value: Raw,
    write: impl Fn(Raw, &mut [u8]) -> WriteAnswer,
    last: u8,
    set: fn(&mut Raw, u8),
) {
    for mark in 0..=u8::MAX {
        let mut value = value;
        set(&mut value, mark);
        let answer = written(ROOM, |out| write(value, out));
        if mark <= last {
            assert!(answer.is_ok(), "{answer:?}: {value:?}");
        } else {
            assert_eq!(answer, Err(OUT_OF_RANGE), "{value:?}");
        }
    }
}

#[test]
fn unknown_marks_are_refused() {
    let uplink = |value, out: &mut [u8]| raw::write_uplink(value, &[0; PAYLOAD_LENGTH], out);
    assert_marks(raw::Uplink::default(), uplink, NONE, |uplink, mark| {
        uplink.reception_mark = mark
    });
    assert_marks(
        raw::Height::default(),
        raw::write_height,
        NONE,
        |height, mark| height.height_mark = mark,
    );
    let geometric = raw::Geometric::default();
    assert_marks(geometric, raw::write_geometric, OVER, |geometric, mark| {
        geometric.merit_mark = mark
    });
}

#[test]
fn unknown_marks_of_a_report_are_refused() {
    // With integrity 0, so that there may be no position.
    let report = raw::Report {
        longitude: 1,
        ..raw::Report::default()
    };
    for write in REPORT_WRITERS {
        assert_marks(report, write, NONE, |report, mark| {
            report.position_mark = mark
        });
        assert_marks(report, write, NONE, |report, mark| {
            report.altitude_mark = mark
        });
        assert_marks(report, write, OVER, |report, mark| report.speed_mark = mark);
        assert_marks(report, write, BELOW, |report, mark| {
            report.climb_mark = mark
        });
        // Not a mark, but refused alike: 001 Table 9 has four.
        assert_marks(report, write, 3, |report, kind| report.track_kind = kind);
    }
}

#[test]
fn reserved_is_one_bit() {
    assert_marks(
        raw::Heartbeat::default(),
        raw::write_heartbeat,
        1,
        |value, bit| value.reserved = bit,
    );
}

/// The two values differ only in numbers with marks.
fn assert_written_alike<Raw: Copy + Debug>(
    values: [Raw; 2],
    write: impl Fn(Raw, &mut [u8]) -> WriteAnswer,
) {
    let [first, second] = values.map(|value| written(ROOM, |out| write(value, out)));
    assert!(first.is_ok(), "{first:?}: {values:?}");
    assert_eq!(first, second, "{values:?}");
}

#[test]
fn numbers_with_marks_are_not_looked_at() {
    let uplinks = [0, u32::MAX].map(|reception| raw::Uplink {
        reception_mark: NONE,
        reception,
    });
    assert_written_alike(uplinks, |value, out| {
        raw::write_uplink(value, &[0; PAYLOAD_LENGTH], out)
    });
    let heights = [0, i16::MIN].map(|feet| raw::Height {
        height_mark: NONE,
        height: gdl90::TerrainFeet(feet),
    });
    assert_written_alike(heights, raw::write_height);
    for merit_mark in [NONE, OVER] {
        let geometrics = [0, u16::MAX].map(|merit| raw::Geometric {
            merit_mark,
            merit,
            ..raw::Geometric::default()
        });
        assert_written_alike(geometrics, raw::write_geometric);
    }
}

#[test]
fn numbers_with_marks_of_a_report_are_not_looked_at() {
    for (speed_mark, climb_mark) in [(NONE, NONE), (OVER, OVER), (OVER, BELOW)] {
        let zeros = raw::Report {
            position_mark: NONE,
            altitude_mark: NONE,
            speed_mark,
            climb_mark,
            ..raw::Report::default()
        };
        let others = raw::Report {
            latitude: i32::MIN,
            longitude: i32::MAX,
            altitude: gdl90::PressureSteps(u16::MAX),
            speed: u16::MAX,
            climb: i32::MIN,
            ..zeros
        };
        for write in REPORT_WRITERS {
            assert_written_alike([zeros, others], write);
        }
    }
}

/// Wider than the reference's: the lower 16 or 12 bits of some are in range.
#[test]
fn climbs_of_32_bits_are_refused() {
    for climb in [
        510,
        -510,
        4_096,
        0xFFF,
        32_768,
        -32_769,
        65_536,
        65_537,
        -65_535,
        i32::MIN,
        i32::MAX,
    ] {
        let value = raw::Report {
            longitude: 1,
            climb,
            ..raw::Report::default()
        };
        for write in REPORT_WRITERS {
            let answer = written(ROOM, |out| write(value, out));
            assert_eq!(answer, Err(OUT_OF_RANGE), "climb {climb}");
        }
    }
}

/// 7, then 8, then 9 (RULES 'Numbers'); only an uplink has all three.
#[test]
fn refusals_of_an_uplink_have_their_order() {
    let (last, beyond) = (RECEPTION_MAX, RECEPTION_MAX + 1);
    for (length, reception, room, number) in [
        (431, beyond, 0, WRONG_LENGTH),
        (433, beyond, 436, WRONG_LENGTH),
        (0, last, 435, WRONG_LENGTH),
        (432, beyond, 0, OUT_OF_RANGE),
        (432, beyond, 436, OUT_OF_RANGE),
        (432, last, 0, OUTPUT_TOO_SHORT),
        (432, last, 435, OUTPUT_TOO_SHORT),
    ] {
        let value = raw::Uplink {
            reception_mark: PLAIN,
            reception,
        };
        let payload = vec![0; length];
        let answer = written(room, |out| raw::write_uplink(value, &payload, out));
        assert_eq!(answer, Err(number), "{length}, {reception}, {room}");
    }
}
