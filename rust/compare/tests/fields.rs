//! Every field of every struct goes to its place and comes back from it, through
//! the C functions, as the reference says: values of which no two bytes are the
//! same, so that no two fields can be taken for each other, and the extremes.

use std::collections::HashSet;
use std::fmt::Debug;

use compare::messages::to_reference;
use gdl90::raw::{self, BELOW, NONE, OVER, PLAIN};
use gdl90::{GeometricSteps, Message, PressureSteps, TerrainFeet, MESSAGE_MAX};

/// Written and read again, field by field; answers the message.
fn assert_fields<Raw, Value>(
    raw: Raw,
    kind: impl Fn(Value) -> Message<'static>,
    write: impl Fn(Raw, &mut [u8]) -> raw::WriteAnswer,
    read: impl Fn(&[u8]) -> raw::Read<Raw>,
) -> Vec<u8>
where
    Raw: Copy + Debug + PartialEq,
    Value: TryFrom<Raw>,
    Value::Error: Debug,
{
    let value = kind(raw.try_into().expect("marks that there are"));
    let expected = reference::messages::write(&to_reference(value)).expect("a good value");
    let mut out = [0; MESSAGE_MAX];
    let written = write(raw, &mut out);
    assert_eq!((written.number, written.length), (0, expected.len()));
    assert_eq!(out[..written.length], expected, "{raw:?}");
    let answer = read(&expected);
    assert_eq!((answer.number, answer.value), (0, raw));
    expected
}

fn assert_distinct(message: &[u8]) {
    let bytes: HashSet<u8> = message.iter().copied().collect();
    assert_eq!(bytes.len(), message.len(), "{message:02X?}");
}

#[test]
fn heartbeats() {
    let check = |raw| {
        assert_fields(
            raw,
            Message::Heartbeat,
            raw::write_heartbeat,
            raw::read_heartbeat,
        )
    };
    let distinct = raw::Heartbeat {
        status1: 0xA1,
        status2: 0x5B,
        time: 0x1_23C4,
        uplinks: 0x16,
        reserved: 1,
        basic_and_long: 0x2E7,
    };
    assert_distinct(&check(distinct));
    check(raw::Heartbeat {
        status1: 0xFF,
        status2: 0x7F,
        time: 86_400,
        uplinks: 31,
        reserved: 0,
        basic_and_long: 1_023,
    });
}

#[test]
fn initializations() {
    let raw = raw::Initialization {
        first: 0xA5,
        second: 0x3C,
    };
    assert_distinct(&assert_fields(
        raw,
        Message::Initialization,
        raw::write_initialization,
        raw::read_initialization,
    ));
}

/// The payload is given beside the struct, and is the message from its fifth byte
/// on.
#[test]
fn uplinks() {
    let payload: Vec<u8> = (0..432).map(|n| (n % 251) as u8).collect();
    for (reception_mark, reception) in [(PLAIN, 0x9A_BCDE), (PLAIN, 12_499_999), (NONE, 0)] {
        let raw = raw::Uplink {
            reception_mark,
            reception,
        };
        let value = reference::messages::Uplink {
            reception: (reception_mark == PLAIN).then_some(reception),
            payload: payload.clone(),
        };
        let expected = reference::messages::write(&reference::messages::Message::Uplink(value));
        let mut out = [0; MESSAGE_MAX];
        let written = raw::write_uplink(raw, &payload, &mut out);
        assert_eq!((written.number, written.length), (0, 436));
        assert_eq!(expected, Ok(out.to_vec()));
        assert_eq!(out[4..], payload);
        let answer = raw::read_uplink(&out);
        assert_eq!((answer.number, answer.value), (0, raw));
    }
}

#[test]
fn heights() {
    let heights = [0x1234, -0x1234, 32_767, -32_767].map(|feet| (PLAIN, feet));
    for (height_mark, feet) in heights.into_iter().chain([(NONE, 0)]) {
        let raw = raw::Height {
            height_mark,
            height: TerrainFeet(feet),
        };
        assert_fields(raw, Message::Height, raw::write_height, raw::read_height);
    }
}

#[test]
fn geometric_altitudes() {
    let check = |steps, warning, merit_mark, merit| {
        let raw = raw::Geometric {
            altitude: GeometricSteps(steps),
            warning,
            merit_mark,
            merit,
        };
        assert_fields(
            raw,
            Message::Geometric,
            raw::write_geometric,
            raw::read_geometric,
        )
    };
    assert_distinct(&check(-0x1234, true, PLAIN, 0x5A6C));
    check(i16::MIN, false, PLAIN, 32_766);
    check(i16::MAX, true, OVER, 0);
    check(-1, false, NONE, 0);
}

fn check_report(raw: raw::Report) {
    let ownship = assert_fields(raw, Message::Ownship, raw::write_ownship, raw::read_ownship);
    let traffic = assert_fields(raw, Message::Traffic, raw::write_traffic, raw::read_traffic);
    assert_eq!((ownship[0], traffic[0]), (10, 20));
    assert_eq!(ownship[1..], traffic[1..]);
}

const DISTINCT: raw::Report = raw::Report {
    alert: 0xA,
    address_type: 5,
    address: 0x3C_71E8,
    position_mark: PLAIN,
    latitude: 0x2B_964D,
    longitude: -0x4E_210C,
    altitude_mark: PLAIN,
    altitude: PressureSteps(0x9C7),
    track_kind: 2,
    extrapolated: true,
    airborne: true,
    integrity: 11,
    accuracy: 6,
    speed_mark: PLAIN,
    speed: 0xD38,
    climb_mark: PLAIN,
    climb: -303,
    track: 0x47,
    emitter: 0x19,
    call_sign: [0x5A, 0x4B, 0x30, 0x58, 0x51, 0x21, 0x6F, 0xF0],
    priority: 0xC,
    spare: 3,
};

#[test]
fn reports() {
    let message = assert_fields(
        DISTINCT,
        Message::Traffic,
        raw::write_traffic,
        raw::read_traffic,
    );
    assert_distinct(&message);
    check_report(DISTINCT);
}

#[test]
fn extremes_of_reports() {
    let most = raw::Report {
        address: 0xFF_FFFF,
        latitude: 4_194_304,
        longitude: 8_388_607,
        altitude: PressureSteps(4_094),
        track_kind: 3,
        extrapolated: false,
        speed: 4_093,
        climb: 509,
        track: 255,
        emitter: 255,
        ..DISTINCT
    };
    check_report(most);
    check_report(raw::Report {
        address: 0,
        latitude: -4_194_304,
        longitude: -8_388_608,
        altitude: PressureSteps(0),
        track_kind: 0,
        extrapolated: true,
        airborne: false,
        speed: 0,
        climb: -509,
        ..most
    });
}

#[test]
fn marks_of_reports() {
    for (speed_mark, climb_mark) in [(NONE, NONE), (OVER, OVER), (NONE, BELOW)] {
        check_report(raw::Report {
            position_mark: NONE,
            latitude: 0,
            longitude: 0,
            altitude_mark: NONE,
            altitude: PressureSteps(0),
            integrity: 0,
            speed_mark,
            speed: 0,
            climb_mark,
            climb: 0,
            ..DISTINCT
        });
    }
}
