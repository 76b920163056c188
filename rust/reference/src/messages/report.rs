//! Ownship and traffic reports, 001 §3.4 and §3.5.

use super::fields::{bytes_24, from_halves, halves, in_range, signed_24};
use super::OUT_OF_RANGE;

/// 90 degrees in steps of 180/2^23.
pub const LATITUDE_MAX: i32 = 1 << 22;
pub const ALTITUDE_MAX: u16 = 0xFFE;
pub const SPEED_MAX: u16 = 0xFFD;
pub const CLIMB_MAX: i16 = 509;
/// Of integrity and of accuracy (001 Table 10).
pub const CATEGORY_MAX: u8 = 11;

const LONGITUDE_MIN: i32 = -(1 << 23);
const LONGITUDE_MAX: i32 = (1 << 23) - 1;
const NO_ALTITUDE: u16 = 0xFFF;
const SPEED_OVER: u16 = 0xFFE;
const NO_SPEED: u16 = 0xFFF;
const CLIMB_ABOVE: i16 = CLIMB_MAX + 1;
const CLIMB_BELOW: i16 = -CLIMB_ABOVE;
const NO_CLIMB: i16 = -0x800;

const EXTRAPOLATED: u8 = 0b0100;
const AIRBORNE: u8 = 0b1000;

#[derive(Debug, PartialEq, Eq, Clone, Copy)]
pub struct Report {
    pub alert: u8,
    pub address_type: u8,
    pub address: u32,
    pub position: Position,
    pub altitude: Option<AltitudeSteps>,
    pub track_kind: TrackKind,
    pub extrapolated: bool,
    pub airborne: bool,
    pub integrity: u8,
    pub accuracy: u8,
    pub speed: Speed,
    pub climb: Climb,
    pub track: u8,
    pub emitter: u8,
    pub call_sign: [u8; 8],
    pub priority: u8,
    pub spare: u8,
}

impl Report {
    /// From the bytes behind the id.
    #[inline]
    pub fn read(fields: &[u8; 27]) -> Result<Self, u8> {
        let [st, a1, a2, a3, l1, l2, l3, n1, n2, n3, others @ ..] = *fields;
        let [dd, dm, ia, hh, hv, vv, track, emitter, call_sign @ .., px] = others;
        let (alert, address_type) = halves(st);
        let (altitude, indicators) = halves(dm);
        let (integrity, accuracy) = halves(ia);
        let (speed, climb) = halves(hv);
        let (priority, spare) = halves(px);
        let (latitude, longitude) = (signed_24([l1, l2, l3]), signed_24([n1, n2, n3]));
        Ok(Self {
            alert,
            address_type,
            address: u32::from_be_bytes([0, a1, a2, a3]),
            position: Position::read(latitude, longitude, integrity)?,
            altitude: read_altitude(u16::from(dd) << 4 | u16::from(altitude)),
            track_kind: TrackKind::read(indicators),
            extrapolated: indicators & EXTRAPOLATED != 0,
            airborne: indicators & AIRBORNE != 0,
            integrity: in_range(integrity, 0..=CATEGORY_MAX)?,
            accuracy: in_range(accuracy, 0..=CATEGORY_MAX)?,
            speed: Speed::read(u16::from(hh) << 4 | u16::from(speed)),
            climb: Climb::read(u16::from_be_bytes([climb, vv]))?,
            track,
            emitter,
            call_sign,
            priority,
            spare,
        })
    }

    /// The bytes behind the id.
    #[inline]
    pub fn write(&self) -> Result<[u8; 27], u8> {
        let st = from_halves(self.alert, self.address_type)?;
        let address = in_range(self.address, 0..=0xFF_FFFF)? as i32;
        let (latitude, longitude) = self.position.write(self.integrity)?;
        let altitude = write_altitude(self.altitude)?;
        let integrity = in_range(self.integrity, 0..=CATEGORY_MAX)?;
        let accuracy = in_range(self.accuracy, 0..=CATEGORY_MAX)?;
        let speed = self.speed.write()?;
        let [climb, vv] = self.climb.write()?.to_be_bytes();
        let px = from_halves(self.priority, self.spare)?;

        let [a1, a2, a3] = bytes_24(address);
        let [l1, l2, l3] = bytes_24(latitude);
        let [n1, n2, n3] = bytes_24(longitude);
        let [dd, dm] = (altitude << 4 | u16::from(self.indicators())).to_be_bytes();
        let ia = integrity << 4 | accuracy;
        let [hh, hv] = (speed << 4 | u16::from(climb)).to_be_bytes();
        let (tt, ee) = (self.track, self.emitter);
        let [c1, c2, c3, c4, c5, c6, c7, c8] = self.call_sign;
        Ok([
            st, a1, a2, a3, l1, l2, l3, n1, n2, n3, dd, dm, ia, hh, hv, vv, tt, ee, c1, c2, c3, c4,
            c5, c6, c7, c8, px,
        ])
    }

    /// 001 Table 9.
    fn indicators(&self) -> u8 {
        let extrapolated = if self.extrapolated { EXTRAPOLATED } else { 0 };
        let airborne = if self.airborne { AIRBORNE } else { 0 };
        self.track_kind as u8 | extrapolated | airborne
    }
}

/// In steps of 180/2^23 degrees.
#[derive(Debug, PartialEq, Eq, Clone, Copy)]
pub enum Position {
    At { latitude: i32, longitude: i32 },
    None,
}

impl Position {
    fn read(latitude: i32, longitude: i32, integrity: u8) -> Result<Self, u8> {
        if (latitude, longitude, integrity) == (0, 0, 0) {
            return Ok(Self::None);
        }
        let latitude = in_range(latitude, -LATITUDE_MAX..=LATITUDE_MAX)?;
        Ok(Self::At {
            latitude,
            longitude,
        })
    }

    /// None and 0, 0 share their steps: the integrity tells them apart
    /// (RULES 'Reports').
    fn write(self, integrity: u8) -> Result<(i32, i32), u8> {
        match (self, integrity) {
            (Self::None, 0) => Ok((0, 0)),
            (Self::None, _) => Err(OUT_OF_RANGE),
            (
                Self::At {
                    latitude: 0,
                    longitude: 0,
                },
                0,
            ) => Err(OUT_OF_RANGE),
            (
                Self::At {
                    latitude,
                    longitude,
                },
                _,
            ) => Ok((
                in_range(latitude, -LATITUDE_MAX..=LATITUDE_MAX)?,
                in_range(longitude, LONGITUDE_MIN..=LONGITUDE_MAX)?,
            )),
        }
    }
}

/// Pressure altitude in steps of 25 feet from -1,000 feet on.
#[derive(Debug, PartialEq, Eq, Clone, Copy)]
pub struct AltitudeSteps(pub u16);

impl AltitudeSteps {
    pub fn feet(self) -> i32 {
        25 * i32::from(self.0) - 1_000
    }
}

fn read_altitude(bits: u16) -> Option<AltitudeSteps> {
    (bits != NO_ALTITUDE).then_some(AltitudeSteps(bits))
}

fn write_altitude(altitude: Option<AltitudeSteps>) -> Result<u16, u8> {
    match altitude {
        None => Ok(NO_ALTITUDE),
        Some(AltitudeSteps(steps)) => in_range(steps, 0..=ALTITUDE_MAX),
    }
}

/// What the track is, 001 Table 9.
#[derive(Debug, PartialEq, Eq, Clone, Copy)]
pub enum TrackKind {
    NotValid = 0,
    TrueTrack = 1,
    MagneticHeading = 2,
    TrueHeading = 3,
}

impl TrackKind {
    pub const ALL: [Self; 4] = [
        Self::NotValid,
        Self::TrueTrack,
        Self::MagneticHeading,
        Self::TrueHeading,
    ];

    fn read(indicators: u8) -> Self {
        Self::ALL[usize::from(indicators & 0b11)]
    }
}

#[derive(Debug, PartialEq, Eq, Clone, Copy)]
pub enum Speed {
    Knots(u16),
    /// 4,094 knots or more.
    Over,
    None,
}

impl Speed {
    fn read(bits: u16) -> Self {
        match bits {
            SPEED_OVER => Self::Over,
            NO_SPEED => Self::None,
            knots => Self::Knots(knots),
        }
    }

    fn write(self) -> Result<u16, u8> {
        match self {
            Self::Knots(knots) => in_range(knots, 0..=SPEED_MAX),
            Self::Over => Ok(SPEED_OVER),
            Self::None => Ok(NO_SPEED),
        }
    }
}

#[derive(Debug, PartialEq, Eq, Clone, Copy)]
pub enum Climb {
    /// Of 64 feet per minute.
    Steps(i16),
    /// More than 509 steps up.
    Above,
    /// More than 509 steps down.
    Below,
    None,
}

impl Climb {
    fn read(bits: u16) -> Result<Self, u8> {
        // Sign of 12 bits, not of 16.
        match (bits << 4) as i16 >> 4 {
            CLIMB_ABOVE => Ok(Self::Above),
            CLIMB_BELOW => Ok(Self::Below),
            NO_CLIMB => Ok(Self::None),
            steps => in_range(steps, -CLIMB_MAX..=CLIMB_MAX).map(Self::Steps),
        }
    }

    fn write(self) -> Result<u16, u8> {
        let steps = match self {
            Self::Steps(steps) => in_range(steps, -CLIMB_MAX..=CLIMB_MAX)?,
            Self::Above => CLIMB_ABOVE,
            Self::Below => CLIMB_BELOW,
            Self::None => NO_CLIMB,
        };
        Ok(steps as u16 & 0xFFF)
    }
}

#[cfg(test)]
mod tests;
