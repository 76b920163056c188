//! Ownship and traffic reports, 001 §3.4 and §3.5.

use std::borrow::Cow;
use std::fmt;

use super::marks::{marked, unmarked};
use crate::raw::{self, BELOW, NONE, OVER, PLAIN};
use crate::{Error, Position, PressureSteps};

/// Where an aircraft is and what it does: the ownship's, or traffic's.
#[derive(Clone, Copy, Debug, PartialEq, Eq, Hash)]
pub struct Report {
    /// Traffic alert status, 001 §3.5.1.1. Can be written: 0 to 15.
    pub alert: u8,
    /// What the address is, 001 §3.5.1.2. Can be written: 0 to 15.
    pub address_type: u8,
    /// Participant address, 24 bits.
    pub address: u32,
    /// With integrity 0 a position of 0, 0 cannot be written, and with any other
    /// none cannot: neither would be read back.
    pub position: Option<Position>,
    /// Pressure altitude.
    pub altitude: Option<PressureSteps>,
    /// What [`track`](Self::track) is.
    pub track_kind: TrackKind,
    /// Worked out from an earlier report, not received anew.
    pub extrapolated: bool,
    /// Not on the ground.
    pub airborne: bool,
    /// Integrity category, 001 Table 10. Can be written: 0 to 11.
    pub integrity: u8,
    /// Accuracy category, 001 Table 10. Can be written: 0 to 11.
    pub accuracy: u8,
    /// Horizontal speed.
    pub speed: Option<Speed>,
    /// Vertical speed.
    pub climb: Option<Climb>,
    /// Track or heading in steps of 360 / 256 degrees.
    pub track: u8,
    /// Emitter category, 001 Table 11.
    pub emitter: u8,
    /// Call sign.
    pub call_sign: CallSign,
    /// Emergency or priority code, 001 §3.5.1.12. Can be written: 0 to 15.
    pub priority: u8,
    /// The spare bits. Can be written: 0 to 15.
    pub spare: u8,
}

/// What the track of a report is, 001 Table 9.
#[derive(Clone, Copy, Debug, PartialEq, Eq, Hash)]
pub enum TrackKind {
    /// The track says nothing.
    NotValid = 0,
    /// True track.
    TrueTrack = 1,
    /// Magnetic heading.
    MagneticHeading = 2,
    /// True heading.
    TrueHeading = 3,
}

/// Horizontal speed.
#[derive(Clone, Copy, Debug, PartialEq, Eq, Hash)]
pub enum Speed {
    /// Can be written: 0 to 4,093.
    Knots(u16),
    /// 4,094 knots or more.
    Over,
}

/// Vertical speed, up positive.
#[derive(Clone, Copy, Debug, PartialEq, Eq, Hash)]
pub enum Climb {
    /// Steps of 64 feet per minute. Can be written: -509 to 509.
    Steps(i16),
    /// More than 509 steps up.
    Above,
    /// More than 509 steps down.
    Below,
}

impl Report {
    /// Track or heading in degrees, 0 north, 90 east; none if it is not valid.
    pub fn track_degrees(&self) -> Option<f64> {
        match self.track_kind {
            TrackKind::NotValid => None,
            _ => Some(f64::from(self.track) * 360.0 / 256.0),
        }
    }
}

impl Climb {
    /// Feet per minute, if it is a number.
    ///
    /// ```
    /// assert_eq!(gdl90::Climb::Steps(-1).feet_per_minute(), Some(-64));
    /// assert_eq!(gdl90::Climb::Above.feet_per_minute(), None);
    /// ```
    pub fn feet_per_minute(self) -> Option<i32> {
        match self {
            Self::Steps(steps) => Some(64 * i32::from(steps)),
            Self::Above | Self::Below => None,
        }
    }
}

/// Eight bytes of call sign, 001 §3.5.1.11. Any bytes can be read and written.
#[derive(Clone, Copy, Debug, PartialEq, Eq, Hash)]
pub struct CallSign(pub [u8; 8]);

impl CallSign {
    /// As text, without the spaces and zero bytes at its end. What is no text is
    /// shown as U+FFFD.
    ///
    /// ```
    /// use gdl90::CallSign;
    ///
    /// assert_eq!(CallSign(*b"N825V   ").text(), "N825V");
    /// assert_eq!(CallSign::try_from("N825V")?, CallSign(*b"N825V   "));
    /// # Ok::<(), gdl90::Error>(())
    /// ```
    pub fn text(&self) -> Cow<'_, str> {
        String::from_utf8_lossy(self.trimmed())
    }

    fn trimmed(&self) -> &[u8] {
        let last = self.0.iter().rposition(|&byte| byte != b' ' && byte != 0);
        &self.0[..last.map_or(0, |last| last + 1)]
    }
}

impl From<[u8; 8]> for CallSign {
    fn from(bytes: [u8; 8]) -> Self {
        Self(bytes)
    }
}

/// With spaces behind it; [`Error::OutOfRange`] for more than eight bytes.
impl TryFrom<&str> for CallSign {
    type Error = Error;

    fn try_from(text: &str) -> Result<Self, Error> {
        let mut bytes = [b' '; 8];
        let place = bytes.get_mut(..text.len()).ok_or(Error::OutOfRange)?;
        place.copy_from_slice(text.as_bytes());
        Ok(Self(bytes))
    }
}

impl From<Report> for raw::Report {
    #[inline]
    fn from(report: Report) -> Self {
        let (position_mark, latitude, longitude) = raw_position(report.position);
        let (altitude_mark, altitude) = marked(report.altitude);
        let (speed_mark, speed) = raw_speed(report.speed);
        let (climb_mark, climb) = raw_climb(report.climb);
        Self {
            alert: report.alert,
            address_type: report.address_type,
            address: report.address,
            position_mark,
            latitude,
            longitude,
            altitude_mark,
            altitude,
            track_kind: report.track_kind as u8,
            extrapolated: report.extrapolated,
            airborne: report.airborne,
            integrity: report.integrity,
            accuracy: report.accuracy,
            speed_mark,
            speed,
            climb_mark,
            climb,
            track: report.track,
            emitter: report.emitter,
            call_sign: report.call_sign.0,
            priority: report.priority,
            spare: report.spare,
        }
    }
}

/// [`Error::OutOfRange`] for a mark or a kind of track that there is not, and for
/// a climb over 16 bits.
impl TryFrom<raw::Report> for Report {
    type Error = Error;

    #[inline]
    fn try_from(raw: raw::Report) -> Result<Self, Error> {
        let (latitude, longitude) = (raw.latitude, raw.longitude);
        let position = Position {
            latitude,
            longitude,
        };
        Ok(Self {
            alert: raw.alert,
            address_type: raw.address_type,
            address: raw.address,
            position: unmarked(raw.position_mark, position)?,
            altitude: unmarked(raw.altitude_mark, raw.altitude)?,
            track_kind: track_kind(raw.track_kind)?,
            extrapolated: raw.extrapolated,
            airborne: raw.airborne,
            integrity: raw.integrity,
            accuracy: raw.accuracy,
            speed: speed(raw.speed_mark, raw.speed)?,
            climb: climb(raw.climb_mark, raw.climb)?,
            track: raw.track,
            emitter: raw.emitter,
            call_sign: CallSign(raw.call_sign),
            priority: raw.priority,
            spare: raw.spare,
        })
    }
}

#[inline]
fn raw_position(position: Option<Position>) -> (u8, i32, i32) {
    match position {
        Some(position) => (PLAIN, position.latitude, position.longitude),
        None => (NONE, 0, 0),
    }
}

#[inline]
fn track_kind(kind: u8) -> Result<TrackKind, Error> {
    match kind {
        0 => Ok(TrackKind::NotValid),
        1 => Ok(TrackKind::TrueTrack),
        2 => Ok(TrackKind::MagneticHeading),
        3 => Ok(TrackKind::TrueHeading),
        _ => Err(Error::OutOfRange),
    }
}

#[inline]
fn raw_speed(speed: Option<Speed>) -> (u8, u16) {
    match speed {
        Some(Speed::Knots(knots)) => (PLAIN, knots),
        Some(Speed::Over) => (OVER, 0),
        None => (NONE, 0),
    }
}

#[inline]
fn speed(mark: u8, knots: u16) -> Result<Option<Speed>, Error> {
    match mark {
        OVER => Ok(Some(Speed::Over)),
        _ => unmarked(mark, Speed::Knots(knots)),
    }
}

#[inline]
fn raw_climb(climb: Option<Climb>) -> (u8, i32) {
    match climb {
        Some(Climb::Steps(steps)) => (PLAIN, steps.into()),
        Some(Climb::Above) => (OVER, 0),
        Some(Climb::Below) => (BELOW, 0),
        None => (NONE, 0),
    }
}

#[inline]
fn climb(mark: u8, steps: i32) -> Result<Option<Climb>, Error> {
    match mark {
        OVER => Ok(Some(Climb::Above)),
        BELOW => Ok(Some(Climb::Below)),
        _ => {
            let steps = i16::try_from(steps).map_err(|_| Error::OutOfRange)?;
            unmarked(mark, Climb::Steps(steps))
        }
    }
}

/// All but the spare bits; alert and priority only where there is one.
impl fmt::Display for Report {
    fn fmt(&self, f: &mut fmt::Formatter<'_>) -> fmt::Result {
        write!(f, "{:06X} \"{}\"", self.address, self.call_sign)?;
        or_none(f, self.position, "position")?;
        or_none(f, self.altitude, "pressure altitude")?;
        or_none(f, self.speed, "speed")?;
        or_none(f, self.climb, "climb")?;
        match self.track_degrees() {
            Some(degrees) => write!(f, "; {} {degrees:.1} degrees", self.track_kind)?,
            None => write!(f, "; {}", self.track_kind)?,
        }
        let place = if self.airborne {
            "airborne"
        } else {
            "on ground"
        };
        let source = if self.extrapolated {
            ", extrapolated"
        } else {
            ""
        };
        write!(f, "; {place}{source}; integrity {}", self.integrity)?;
        write!(f, "; accuracy {}; emitter {}", self.accuracy, self.emitter)?;
        write!(f, "; address type {}", self.address_type)?;
        for (name, code) in [("alert", self.alert), ("priority", self.priority)] {
            if code != 0 {
                write!(f, "; {name} {code}")?;
            }
        }
        Ok(())
    }
}

fn or_none(
    f: &mut fmt::Formatter<'_>,
    value: Option<impl fmt::Display>,
    name: &str,
) -> fmt::Result {
    match value {
        Some(value) => write!(f, "; {name} {value}"),
        None => write!(f, "; no {name}"),
    }
}

impl fmt::Display for TrackKind {
    fn fmt(&self, f: &mut fmt::Formatter<'_>) -> fmt::Result {
        f.write_str(match self {
            Self::NotValid => "track not valid",
            Self::TrueTrack => "true track",
            Self::MagneticHeading => "magnetic heading",
            Self::TrueHeading => "true heading",
        })
    }
}

impl fmt::Display for Speed {
    fn fmt(&self, f: &mut fmt::Formatter<'_>) -> fmt::Result {
        match self {
            Self::Knots(knots) => write!(f, "{knots} knots"),
            Self::Over => write!(f, "4094 knots or more"),
        }
    }
}

impl fmt::Display for Climb {
    fn fmt(&self, f: &mut fmt::Formatter<'_>) -> fmt::Result {
        match self {
            Self::Steps(steps) => write!(f, "{:+} feet per minute", 64 * i32::from(*steps)),
            Self::Above => write!(f, "over +32576 feet per minute"),
            Self::Below => write!(f, "below -32576 feet per minute"),
        }
    }
}

/// Trimmed; bytes that are not printable ASCII as escapes.
impl fmt::Display for CallSign {
    fn fmt(&self, f: &mut fmt::Formatter<'_>) -> fmt::Result {
        self.trimmed().escape_ascii().fmt(f)
    }
}
