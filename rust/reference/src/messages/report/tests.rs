use super::super::{read, write, Message};
use super::*;
use crate::vectors::SALEM;

/// 001 §3.5.2, value 11 of RULES 'Values'.
fn salem() -> Report {
    Report {
        alert: 0,
        address_type: 0,
        // Printed in octal.
        address: 0o52642511,
        position: Position::At {
            latitude: 0x1F_EF15,
            longitude: 0xA8_8978 - 0x100_0000,
        },
        altitude: Some(AltitudeSteps(240)),
        track_kind: TrackKind::TrueTrack,
        extrapolated: false,
        airborne: true,
        integrity: 10,
        accuracy: 9,
        speed: Speed::Knots(123),
        climb: Climb::Steps(1),
        track: 32,
        emitter: 1,
        call_sign: *b"N825V   ",
        priority: 0,
        spare: 0,
    }
}

#[test]
fn example_of_001() {
    let value = Message::Traffic(salem());
    assert_eq!(read(&SALEM), Ok(value.clone()));
    assert_eq!(write(&value), Ok(SALEM.to_vec()));
    assert_eq!(salem().altitude.unwrap().feet(), 5_000);
    let mut ownship = SALEM;
    ownship[0] = 10;
    assert_eq!(read(&ownship), Ok(Message::Ownship(salem())));
    assert_eq!(write(&Message::Ownship(salem())), Ok(ownship.to_vec()));
}

/// The degrees printed in 001 §3.5.2, to the five places given.
#[test]
fn degrees_of_001() {
    let Position::At {
        latitude,
        longitude,
    } = salem().position
    else {
        panic!("no position");
    };
    let degrees = |steps: i32| 180.0 * f64::from(steps) / f64::from(1 << 23);
    assert!((degrees(latitude) - 44.90708).abs() < 2.2e-5);
    assert!((degrees(longitude) + 122.99488).abs() < 2.2e-5);
}

/// Each letter of 001 Figure 2 in its place.
#[test]
fn every_letter_has_its_place() {
    let mut fields: [u8; 27] = std::array::from_fn(|at| 0x11 + at as u8);
    // Integrity, accuracy and climb in range.
    fields[12] = 0x10;
    fields[14] = 0x18;
    fields[15] = 0x00;
    let call_sign = std::array::from_fn(|at| 0x23 + at as u8);
    let expected = Report {
        alert: 0x1,
        address_type: 0x1,
        address: 0x12_1314,
        position: Position::At {
            latitude: 0x15_1617,
            longitude: 0x18_191A,
        },
        altitude: Some(AltitudeSteps(0x1B1)),
        track_kind: TrackKind::NotValid,
        extrapolated: true,
        airborne: true,
        integrity: 1,
        accuracy: 0,
        speed: Speed::Knots(0x1E1),
        climb: Climb::None,
        track: 0x21,
        emitter: 0x22,
        call_sign,
        priority: 0x2,
        spare: 0xB,
    };
    assert_eq!(Report::read(&fields), Ok(expected));
    assert_eq!(expected.write(), Ok(fields));
}

/// 001 §3.5.1.4 and value 9 of RULES 'Values'.
#[test]
fn altitudes() {
    for (bits, feet) in [
        (0x000, Some(-1_000)),
        (0x028, Some(0)),
        (0x050, Some(1_000)),
        (0xFFE, Some(101_350)),
        (0xFFF, None),
    ] {
        assert_eq!(read_altitude(bits).map(AltitudeSteps::feet), feet);
    }
    for bits in 0..=0xFFF {
        assert_eq!(write_altitude(read_altitude(bits)), Ok(bits));
    }
    for steps in [0xFFF, 0x1000, u16::MAX] {
        assert_eq!(
            write_altitude(Some(AltitudeSteps(steps))),
            Err(OUT_OF_RANGE)
        );
    }
}

#[test]
fn speeds() {
    for bits in 0..=0xFFF {
        let expected = match bits {
            0xFFE => Speed::Over,
            0xFFF => Speed::None,
            _ => Speed::Knots(bits),
        };
        assert_eq!(Speed::read(bits), expected);
        assert_eq!(expected.write(), Ok(bits));
    }
    for knots in [0xFFE, 0xFFF, 0x1000, u16::MAX] {
        assert_eq!(Speed::Knots(knots).write(), Err(OUT_OF_RANGE));
    }
}

/// 001 §3.5.1.8, with 0xFFF for the 0xFFFF it prints, and value 8 of
/// RULES 'Values'.
#[test]
fn climb_examples() {
    for (bits, climb) in [
        (0x000, Climb::Steps(0)),
        (0x001, Climb::Steps(1)),
        (0xFFF, Climb::Steps(-1)),
        (0x1FD, Climb::Steps(509)),
        (0x1FE, Climb::Above),
        (0xE03, Climb::Steps(-509)),
        (0xE02, Climb::Below),
        (0x800, Climb::None),
    ] {
        assert_eq!(Climb::read(bits), Ok(climb));
        assert_eq!(climb.write(), Ok(bits));
    }
}

/// "0x1FF through 0x7FF and 0x801 through 0xE01 are not used."
#[test]
fn climbs() {
    for bits in 0..=0xFFF {
        match bits {
            0x1FF..=0x7FF | 0x801..=0xE01 => assert_eq!(Climb::read(bits), Err(OUT_OF_RANGE)),
            _ => assert_eq!(Climb::read(bits).unwrap().write(), Ok(bits)),
        }
    }
    for steps in i16::MIN..=i16::MAX {
        let expected = (-509..=509).contains(&steps);
        assert_eq!(Climb::Steps(steps).write().is_ok(), expected);
    }
}

/// 001 Table 9.
#[test]
fn indicators() {
    for m in 0..=0xF {
        let mut message = SALEM;
        message[12] = message[12] & 0xF0 | m;
        let Ok(Message::Traffic(report)) = read(&message) else {
            panic!("no traffic: {message:02X?}");
        };
        assert_eq!(report.track_kind as u8, m % 4);
        assert_eq!(report.extrapolated, m / 4 % 2 == 1);
        assert_eq!(report.airborne, m / 8 == 1);
        assert_eq!(report.indicators(), m);
    }
    assert_eq!(TrackKind::read(0b1100), TrackKind::NotValid);
    assert_eq!(TrackKind::read(0b1101), TrackKind::TrueTrack);
    assert_eq!(TrackKind::read(0b1110), TrackKind::MagneticHeading);
    assert_eq!(TrackKind::read(0b1111), TrackKind::TrueHeading);
}

#[test]
fn positions_read() {
    let at = |latitude, longitude| {
        Ok(Position::At {
            latitude,
            longitude,
        })
    };
    assert_eq!(Position::read(0, 0, 0), Ok(Position::None));
    assert_eq!(Position::read(0, 0, 1), at(0, 0));
    assert_eq!(Position::read(0, 1, 0), at(0, 1));
    assert_eq!(Position::read(-1, 0, 0), at(-1, 0));
    for integrity in [0, 11] {
        for latitude in [-4_194_304, 4_194_304] {
            assert_eq!(Position::read(latitude, 5, integrity), at(latitude, 5));
            let beyond = latitude + latitude.signum();
            assert_eq!(Position::read(beyond, 5, integrity), Err(OUT_OF_RANGE));
        }
    }
}

#[test]
fn positions_written() {
    let write = |latitude, longitude, integrity| {
        let position = Position::At {
            latitude,
            longitude,
        };
        position.write(integrity)
    };
    assert_eq!(Position::None.write(0), Ok((0, 0)));
    assert_eq!(Position::None.write(1), Err(OUT_OF_RANGE));
    assert_eq!(write(0, 0, 0), Err(OUT_OF_RANGE));
    assert_eq!(write(0, 0, 1), Ok((0, 0)));
    assert_eq!(write(0, 1, 0), Ok((0, 1)));
    assert_eq!(write(4_194_304, 8_388_607, 0), Ok((4_194_304, 8_388_607)));
    let least = (-4_194_304, -8_388_608);
    assert_eq!(write(least.0, least.1, 0), Ok(least));
    for latitude in [-4_194_305, 4_194_305, i32::MIN, i32::MAX] {
        assert_eq!(write(latitude, 5, 5), Err(OUT_OF_RANGE));
    }
    for longitude in [-8_388_609, 8_388_608, i32::MIN, i32::MAX] {
        assert_eq!(write(5, longitude, 5), Err(OUT_OF_RANGE));
    }
}

#[test]
fn categories() {
    for value in 0..=0xF {
        for (integrity, accuracy) in [(value, 9), (10, value)] {
            let mut message = SALEM;
            message[13] = integrity << 4 | accuracy;
            let report = Report {
                integrity,
                accuracy,
                ..salem()
            };
            let allowed = value <= 11;
            assert_eq!(read(&message).is_ok(), allowed);
            assert_eq!(write(&Message::Traffic(report)).is_ok(), allowed);
        }
    }
}

#[test]
fn too_wide() {
    for change in [
        |report: &mut Report| report.alert = 16,
        |report: &mut Report| report.address_type = 16,
        |report: &mut Report| report.address = 0x100_0000,
        |report: &mut Report| report.altitude = Some(AltitudeSteps(0xFFF)),
        |report: &mut Report| report.integrity = 16,
        |report: &mut Report| report.accuracy = 16,
        |report: &mut Report| report.speed = Speed::Knots(0xFFE),
        |report: &mut Report| report.climb = Climb::Steps(510),
        |report: &mut Report| report.position = Position::None,
        |report: &mut Report| report.priority = 16,
        |report: &mut Report| report.spare = 16,
    ] {
        let mut report = salem();
        change(&mut report);
        assert_eq!(report.write(), Err(OUT_OF_RANGE));
    }
}
