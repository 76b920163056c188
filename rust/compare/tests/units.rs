//! Feet and degrees through the C functions, for every value.

use gdl90::raw::{self, DegreesAnswer};
use gdl90::{Error, GeometricSteps, Position, PressureSteps, TerrainFeet};
use reference::messages::{AltitudeSteps, FiveFootSteps, OUT_OF_RANGE};

/// 24 bits, signed (RULES 'Degrees').
const STEPS: std::ops::RangeInclusive<i32> = -8_388_608..=8_388_607;

#[test]
fn every_number_of_feet_agrees() {
    for number in 0..=u16::MAX {
        let (altitude, feet) = (PressureSteps(number), AltitudeSteps(number).feet());
        assert_eq!(raw::pressure_feet(altitude), feet);
        assert_eq!(altitude.feet(), feet);
        let number = number as i16;
        let (altitude, feet) = (GeometricSteps(number), FiveFootSteps(number).feet());
        assert_eq!(raw::geometric_feet(altitude), feet);
        assert_eq!(altitude.feet(), feet);
        let feet = reference::messages::TerrainFeet(number).feet();
        assert_eq!(raw::terrain_feet(TerrainFeet(number)), feet);
        assert_eq!(TerrainFeet(number).feet(), feet);
    }
}

/// Value 9 of RULES 'Values'.
#[test]
fn altitudes_of_01() {
    let feet = [0x000, 0x028, 0xFFE].map(|steps| raw::pressure_feet(PressureSteps(steps)));
    assert_eq!(feet, [-1_000, 0, 101_350]);
}

/// The float's sign, fraction and exponent give 180 times the steps once the
/// exponent is raised by 23, over whole numbers (RULES 'Degrees').
fn assert_exact(degrees: f64, steps: i32) {
    let bits = degrees.to_bits();
    if steps == 0 {
        assert_eq!(bits, 0);
        return;
    }
    let fraction = (bits & ((1 << 52) - 1)) | 1 << 52;
    let exponent = (bits >> 52 & 0x7FF) as i32 - 1023 - 52 + 23;
    let sign = if bits >> 63 == 0 { 1 } else { -1 };
    // Below 2^31, so the fraction's lower bits are zero.
    let places = u32::try_from(-exponent).expect("under 2^52");
    assert_eq!(fraction % (1 << places), 0, "{steps}");
    let whole = sign * (fraction >> places) as i64;
    assert_eq!(whole, 180 * i64::from(steps), "{steps}");
}

/// Latitude and longitude differ, so that neither is taken for the other. The
/// range of a latitude is not checked here (RULES 'Degrees').
#[test]
fn every_number_of_steps_is_exact() {
    for steps in STEPS {
        let other = -1 - steps;
        let answer = raw::degrees(steps, other);
        assert_eq!(answer.number, 0, "{steps}");
        assert_exact(answer.latitude, steps);
        assert_exact(answer.longitude, other);
    }
}

#[test]
fn steps_out_of_range_are_refused() {
    let out = [*STEPS.start() - 1, *STEPS.end() + 1, i32::MIN, i32::MAX];
    for steps in out {
        for good in [0, *STEPS.start(), *STEPS.end()] {
            for (latitude, longitude) in [(steps, good), (good, steps), (steps, steps)] {
                let refused = DegreesAnswer {
                    number: OUT_OF_RANGE,
                    ..DegreesAnswer::default()
                };
                assert_eq!(raw::degrees(latitude, longitude), refused);
                let position = Position {
                    latitude,
                    longitude,
                };
                assert_eq!(position.degrees(), Err(Error::OutOfRange));
            }
        }
    }
}

/// Latitude first, in the safe type as in the answer.
#[test]
fn positions_in_degrees() {
    let position = Position {
        latitude: 1 << 21,
        longitude: *STEPS.start(),
    };
    let degrees = position.degrees().unwrap();
    assert_eq!((degrees.latitude, degrees.longitude), (45.0, -180.0));
}
