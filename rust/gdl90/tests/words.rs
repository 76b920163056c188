//! Values in words, every case of every mark.

use gdl90::{
    CallSign, Climb, GeometricAltitude, GeometricSteps, Heartbeat, HeightAboveTerrain,
    Initialization, Merit, Message, Position, PressureSteps, Report, Speed, TerrainFeet, Text,
    TrackKind, Uplink,
};

fn assert_words<'a>(message: impl Into<Message<'a>>, words: &str) {
    assert_eq!(message.into().to_string(), words);
}

#[test]
fn status() {
    let heartbeat = Heartbeat {
        status_1: 0x81,
        status_2: 0x01,
        time: 0,
        uplinks: 31,
        reserved: true,
        basic_and_long: 1_023,
    };
    for (time, clock) in [
        (0, "00:00:00"),
        (43_259, "12:00:59"),
        (86_399, "23:59:59"),
        (86_400, "23:59:60"),
    ] {
        assert_words(
            Heartbeat { time, ..heartbeat },
            &format!(
                "heartbeat at {clock} UTC, status 0x81 0x01, \
                 received in the last second: 31 uplinks, 1023 basic and long"
            ),
        );
    }
    let initialization = Initialization {
        first: 0x0A,
        second: 0xFF,
    };
    assert_words(initialization, "initialization 0x0A 0xFF");
}

#[test]
fn heights() {
    let height = |feet| HeightAboveTerrain(Some(TerrainFeet(feet)));
    assert_words(height(-12), "height above terrain -12 feet");
    assert_words(HeightAboveTerrain(None), "no height above terrain");
    let geometric = |steps, warning, merit| GeometricAltitude {
        altitude: GeometricSteps(steps),
        warning,
        merit,
    };
    assert_words(
        geometric(i16::MIN, false, Some(Merit::Metres(10))),
        "geometric altitude -163840 feet, figure of merit 10 metres",
    );
    assert_words(
        geometric(200, true, Some(Merit::Over)),
        "geometric altitude 1000 feet, figure of merit over 32766 metres, vertical warning",
    );
    assert_words(
        geometric(0, true, None),
        "geometric altitude 0 feet, no figure of merit, vertical warning",
    );
}

#[test]
fn receptions() {
    let uplink = |reception| Uplink {
        reception,
        payload: &[0; 432],
    };
    assert_words(
        uplink(Some(12_499_999)),
        "uplink, received 0.999999920 s into the second, payload of 432 bytes",
    );
    assert_words(
        uplink(Some(1)),
        "uplink, received 0.000000080 s into the second, payload of 432 bytes",
    );
    assert_words(
        uplink(None),
        "uplink, time of reception not known, payload of 432 bytes",
    );
}

/// With as little as a report can have.
const BARE: Report = Report {
    alert: 0,
    address_type: 0,
    address: 0xA,
    position: None,
    altitude: None,
    track_kind: TrackKind::NotValid,
    extrapolated: false,
    airborne: false,
    integrity: 0,
    accuracy: 0,
    speed: None,
    climb: None,
    track: 7,
    emitter: 0,
    call_sign: CallSign(*b"        "),
    priority: 0,
    spare: 0,
};

#[test]
fn bare_report() {
    let words = Message::Ownship(BARE).to_string();
    assert_eq!(
        words,
        "ownship 00000A \"\"; no position; no pressure altitude; no speed; no climb; \
         track not valid; on ground; integrity 0; accuracy 0; emitter 0; address type 0"
    );
}

#[test]
fn full_report() {
    let report = Report {
        alert: 1,
        address_type: 3,
        address: 0xAB_4549,
        position: Some(Position {
            latitude: -(1 << 22),
            longitude: -1,
        }),
        altitude: Some(PressureSteps(0)),
        track_kind: TrackKind::MagneticHeading,
        extrapolated: true,
        airborne: true,
        integrity: 10,
        accuracy: 9,
        speed: Some(Speed::Knots(4_093)),
        climb: Some(Climb::Steps(-509)),
        track: 255,
        emitter: 14,
        call_sign: CallSign(*b"A\"\x1B\xFF  \0 "),
        priority: 2,
        ..BARE
    };
    assert_eq!(
        Message::Traffic(report).to_string(),
        "traffic AB4549 \"A\\\"\\x1b\\xff\"; position 90.00000 degrees south, \
         0.00002 degrees west; pressure altitude -1000 feet; speed 4093 knots; \
         climb -32576 feet per minute; magnetic heading 358.6 degrees; \
         airborne, extrapolated; integrity 10; accuracy 9; emitter 14; address type 3; \
         alert 1; priority 2"
    );
}

#[test]
fn marks_of_a_report() {
    assert_eq!(Speed::Over.to_string(), "4094 knots or more");
    assert_eq!(Climb::Above.to_string(), "over +32576 feet per minute");
    assert_eq!(Climb::Below.to_string(), "below -32576 feet per minute");
    assert_eq!(Climb::Steps(0).to_string(), "+0 feet per minute");
    assert_eq!(TrackKind::TrueTrack.to_string(), "true track");
    assert_eq!(TrackKind::TrueHeading.to_string(), "true heading");
}

#[test]
fn tracks_in_degrees() {
    let report = |track_kind, track| Report {
        track_kind,
        track,
        ..BARE
    };
    assert_eq!(report(TrackKind::NotValid, 64).track_degrees(), None);
    assert_eq!(report(TrackKind::TrueTrack, 64).track_degrees(), Some(90.0));
}

/// A value that cannot be written has words too.
#[test]
fn positions_out_of_range() {
    let position = Position {
        latitude: 1 << 23,
        longitude: 0,
    };
    let words = "steps 8388608 and 0: a field is outside its range";
    assert_eq!(position.to_string(), words);
}

/// In one line, whatever the characters.
#[test]
fn texts() {
    let text = Text::new(9, 5, 3, "FM0400 \"A\" O'CLOCK=\n\x1E").unwrap();
    assert_eq!(
        text.to_string(),
        "text of 09:05, 21 characters: \"FM0400 \\\"A\\\" O'CLOCK=\\n\\u{1e}\""
    );
    let text = Text::new(31, 63, 15, "").unwrap();
    assert_eq!(text.to_string(), "text of 31:63, 0 characters: \"\"");
}
