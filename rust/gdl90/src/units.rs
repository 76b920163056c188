//! Altitudes in three units, each with its own way to feet, and degrees. The units
//! are laid out as in include/gdl90.h, so that `raw` has no others.

use std::fmt;

use crate::error::{accepted, Error};
use crate::raw;

/// Pressure altitude in steps of 25 feet from -1,000 feet on.
///
/// Can be written: 0 to 4,094.
#[repr(C)]
#[derive(Clone, Copy, Debug, PartialEq, Eq, Hash, PartialOrd, Ord, Default)]
pub struct PressureSteps(pub u16);

/// Geometric altitude in steps of 5 feet.
#[repr(C)]
#[derive(Clone, Copy, Debug, PartialEq, Eq, Hash, PartialOrd, Ord, Default)]
pub struct GeometricSteps(pub i16);

/// Height above terrain in feet.
///
/// Can be written: -32,767 to 32,767.
#[repr(C)]
#[derive(Clone, Copy, Debug, PartialEq, Eq, Hash, PartialOrd, Ord, Default)]
pub struct TerrainFeet(pub i16);

impl PressureSteps {
    /// In feet, for every number of steps.
    ///
    /// ```
    /// assert_eq!(gdl90::PressureSteps(0).feet(), -1_000);
    /// assert_eq!(gdl90::PressureSteps(0xFFE).feet(), 101_350);
    /// ```
    #[inline]
    pub fn feet(self) -> i32 {
        raw::pressure_feet(self)
    }
}

impl GeometricSteps {
    /// In feet, for every number of steps.
    ///
    /// ```
    /// assert_eq!(gdl90::GeometricSteps(-200).feet(), -1_000);
    /// ```
    #[inline]
    pub fn feet(self) -> i32 {
        raw::geometric_feet(self)
    }
}

impl TerrainFeet {
    /// In feet.
    ///
    /// ```
    /// assert_eq!(gdl90::TerrainFeet(256).feet(), 256);
    /// ```
    #[inline]
    pub fn feet(self) -> i32 {
        raw::terrain_feet(self)
    }
}

impl fmt::Display for PressureSteps {
    fn fmt(&self, f: &mut fmt::Formatter<'_>) -> fmt::Result {
        write!(f, "{} feet", self.feet())
    }
}

impl fmt::Display for GeometricSteps {
    fn fmt(&self, f: &mut fmt::Formatter<'_>) -> fmt::Result {
        write!(f, "{} feet", self.feet())
    }
}

impl fmt::Display for TerrainFeet {
    fn fmt(&self, f: &mut fmt::Formatter<'_>) -> fmt::Result {
        write!(f, "{} feet", self.feet())
    }
}

/// Latitude and longitude in steps of 180 / 2^23 degrees.
///
/// Can be written: a latitude of -4,194,304 to 4,194,304, a longitude of
/// -8,388,608 to 8,388,607.
#[derive(Clone, Copy, Debug, PartialEq, Eq, Hash)]
pub struct Position {
    /// North positive.
    pub latitude: i32,
    /// East positive.
    pub longitude: i32,
}

/// Latitude and longitude in degrees.
#[derive(Clone, Copy, Debug, PartialEq, PartialOrd)]
pub struct Degrees {
    /// North positive.
    pub latitude: f64,
    /// East positive.
    pub longitude: f64,
}

impl Position {
    /// In degrees, without any rounding.
    ///
    /// # Errors
    ///
    /// [`Error::OutOfRange`] if 24 bits do not hold one of the step numbers.
    ///
    /// ```
    /// let position = gdl90::Position { latitude: 1 << 21, longitude: -(1 << 23) };
    /// let degrees = position.degrees()?;
    /// assert_eq!((degrees.latitude, degrees.longitude), (45.0, -180.0));
    /// # Ok::<(), gdl90::Error>(())
    /// ```
    #[inline]
    pub fn degrees(self) -> Result<Degrees, Error> {
        let degrees = raw::degrees(self.latitude, self.longitude);
        accepted(
            degrees.number,
            Degrees {
                latitude: degrees.latitude,
                longitude: degrees.longitude,
            },
        )
    }
}

/// In degrees; in steps if there are no degrees.
impl fmt::Display for Position {
    fn fmt(&self, f: &mut fmt::Formatter<'_>) -> fmt::Result {
        match self.degrees() {
            Ok(degrees) => degrees.fmt(f),
            Err(error) => write!(f, "steps {} and {}: {error}", self.latitude, self.longitude),
        }
    }
}

/// To five decimals, which tell neighbouring steps apart.
impl fmt::Display for Degrees {
    fn fmt(&self, f: &mut fmt::Formatter<'_>) -> fmt::Result {
        let (latitude, longitude) = (self.latitude, self.longitude);
        let north = if latitude < 0.0 { "south" } else { "north" };
        let east = if longitude < 0.0 { "west" } else { "east" };
        write!(
            f,
            "{:.5} degrees {north}, {:.5} degrees {east}",
            latitude.abs(),
            longitude.abs()
        )
    }
}
