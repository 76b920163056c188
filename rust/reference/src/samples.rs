//! Made-up messages of a kind, whole and damaged, the same for the same seed.

use crate::messages::*;
use crate::recording::flip_bits;
use crate::xorshift::Xorshift;

/// A value that can be written, of the kind with this id.
pub fn value(random: &mut Xorshift, id: u8) -> Message {
    match id {
        HEARTBEAT_ID => Message::Heartbeat(heartbeat(random)),
        INITIALIZATION_ID => Message::Initialization(Initialization {
            first: byte(random),
            second: byte(random),
        }),
        UPLINK_ID => Message::Uplink(uplink(random)),
        HEIGHT_ID => Message::Height(height(random)),
        OWNSHIP_ID => Message::Ownship(report(random)),
        GEOMETRIC_ID => Message::Geometric(geometric(random)),
        TRAFFIC_ID => Message::Traffic(report(random)),
        _ => panic!("no kind has the id {id}"),
    }
}

/// The message of a made-up value.
pub fn whole(random: &mut Xorshift, id: u8) -> Vec<u8> {
    let value = value(random, id);
    write(&value).unwrap_or_else(|number| panic!("refused with {number}: {value:?}"))
}

/// A whole message with bits flipped, cut off, grown or under another id. It
/// may be accepted all the same.
pub fn damaged(random: &mut Xorshift, id: u8) -> Vec<u8> {
    let mut message = whole(random, id);
    match random.below(8) {
        0 => message.truncate(random.below(message.len())),
        1 => {
            let more = 1 + random.below(4);
            message.extend(random.message(more));
        }
        2 => message[0] = byte(random),
        _ => flip_bits(random, &mut message[1..]),
    }
    message
}

/// A made-up value with one field of any number, or an uplink's payload of any
/// length: mostly not to be written.
pub fn stretched(random: &mut Xorshift, id: u8) -> Message {
    let mut value = value(random, id);
    match &mut value {
        Message::Heartbeat(heartbeat) => stretch_heartbeat(random, heartbeat),
        // Two bytes of any value (RULES 'Initialization').
        Message::Initialization(_) => {}
        Message::Uplink(uplink) => match random.below(2) {
            0 => uplink.reception = Some(any(random) as u32),
            _ => uplink.payload.resize(random.below(440), 0x55),
        },
        Message::Height(Height(height)) => *height = Some(TerrainFeet(any(random) as i16)),
        Message::Geometric(geometric) => geometric.merit = Merit::Metres(any(random) as u16),
        Message::Ownship(report) | Message::Traffic(report) => stretch_report(random, report),
    }
    value
}

fn stretch_heartbeat(random: &mut Xorshift, heartbeat: &mut Heartbeat) {
    let number = any(random);
    match random.below(4) {
        0 => heartbeat.status_2 = number as u8,
        1 => heartbeat.time = number as u32,
        2 => heartbeat.uplinks = number as u8,
        _ => heartbeat.basic_and_long = number as u16,
    }
}

fn stretch_report(random: &mut Xorshift, report: &mut Report) {
    let number = any(random);
    match random.below(12) {
        0 => report.alert = number as u8,
        1 => report.address_type = number as u8,
        2 => report.address = number as u32,
        3 => report.position = at(number as i32, any(random) as i32),
        4 => report.position = [Position::None, at(0, 0)][random.below(2)],
        5 => report.altitude = Some(AltitudeSteps(number as u16)),
        6 => report.integrity = number as u8,
        7 => report.accuracy = number as u8,
        8 => report.speed = Speed::Knots(number as u16),
        9 => report.climb = Climb::Steps(number as i16),
        10 => report.priority = number as u8,
        _ => report.spare = number as u8,
    }
}

/// Any number, mostly next to a border of some field; its lower bits count.
fn any(random: &mut Xorshift) -> i64 {
    let borders = [
        TIME_MAX.into(),
        RECEPTION_MAX.into(),
        CLIMB_MAX.into(),
        CATEGORY_MAX.into(),
        // Marks of a figure of merit and of a height.
        0x7EEE,
        0x7FFF,
        0x8000,
        1 << random.below(33),
    ];
    let near = borders[random.below(borders.len())] + random.below(5) as i64 - 2;
    match random.below(4) {
        0 => random.next_u64() as i64,
        1 => -near,
        _ => near,
    }
}

fn heartbeat(random: &mut Xorshift) -> Heartbeat {
    Heartbeat {
        status_1: byte(random),
        status_2: byte(random) & 0x7F,
        time: within(random, 0, TIME_MAX as i32) as u32,
        uplinks: within(random, 0, 31) as u8,
        reserved: random.below(2) == 0,
        basic_and_long: within(random, 0, 1023) as u16,
    }
}

fn uplink(random: &mut Xorshift) -> Uplink {
    let steps = within(random, 0, RECEPTION_MAX as i32) as u32;
    Uplink {
        reception: unless_none(random, steps),
        payload: random.message(PAYLOAD_LENGTH),
    }
}

fn height(random: &mut Xorshift) -> Height {
    let feet = within(random, -32_767, 32_767) as i16;
    Height(unless_none(random, TerrainFeet(feet)))
}

fn geometric(random: &mut Xorshift) -> GeometricAltitude {
    GeometricAltitude {
        altitude: FiveFootSteps(within(random, -32_768, 32_767) as i16),
        warning: random.below(2) == 0,
        merit: match random.below(8) {
            0 => Merit::None,
            1 => Merit::Over,
            // Below and above the mark for over.
            2 => Merit::Metres(within(random, 0x7EEF, 0x7FFE) as u16),
            _ => Merit::Metres(within(random, 0, 0x7EED) as u16),
        },
    }
}

fn report(random: &mut Xorshift) -> Report {
    let (position, integrity) = position_and_integrity(random);
    let altitude = AltitudeSteps(within(random, 0, ALTITUDE_MAX.into()) as u16);
    Report {
        alert: byte(random) & 0xF,
        address_type: byte(random) & 0xF,
        address: within(random, 0, 0xFF_FFFF) as u32,
        position,
        altitude: unless_none(random, altitude),
        track_kind: TrackKind::ALL[random.below(4)],
        extrapolated: random.below(2) == 0,
        airborne: random.below(2) == 0,
        integrity,
        accuracy: within(random, 0, CATEGORY_MAX.into()) as u8,
        speed: match random.below(8) {
            0 => Speed::None,
            1 => Speed::Over,
            _ => Speed::Knots(within(random, 0, SPEED_MAX.into()) as u16),
        },
        climb: climb(random),
        track: byte(random),
        emitter: byte(random),
        call_sign: std::array::from_fn(|_| byte(random)),
        priority: byte(random) & 0xF,
        spare: byte(random) & 0xF,
    }
}

fn position_and_integrity(random: &mut Xorshift) -> (Position, u8) {
    let integrity = within(random, 0, CATEGORY_MAX.into()) as u8;
    let latitude = within(random, -LATITUDE_MAX, LATITUDE_MAX);
    let longitude = within(random, -(1 << 23), (1 << 23) - 1);
    match random.below(8) {
        0 => (Position::None, 0),
        1 => (at(0, 0), integrity.max(1)),
        2 => (at(latitude, 0), integrity.max(1)),
        _ => (at(latitude, longitude | 1), integrity),
    }
}

fn at(latitude: i32, longitude: i32) -> Position {
    Position::At {
        latitude,
        longitude,
    }
}

fn climb(random: &mut Xorshift) -> Climb {
    match random.below(8) {
        0 => Climb::None,
        1 => Climb::Above,
        2 => Climb::Below,
        _ => Climb::Steps(within(random, (-CLIMB_MAX).into(), CLIMB_MAX.into()) as i16),
    }
}

fn byte(random: &mut Xorshift) -> u8 {
    random.next_u64() as u8
}

fn unless_none<T>(random: &mut Xorshift, value: T) -> Option<T> {
    (random.below(8) != 0).then_some(value)
}

/// The ends more often than the numbers between them.
fn within(random: &mut Xorshift, low: i32, high: i32) -> i32 {
    match random.below(16) {
        0 => low,
        1 => high,
        _ => low + random.below((high - low) as usize + 1) as i32,
    }
}
