//! Height above terrain and geometric altitude, 001 §3.7 and §3.8.

use std::fmt;

use super::marks::{marked, unmarked};
use crate::raw::{self, NONE, OVER, PLAIN};
use crate::{Error, GeometricSteps, TerrainFeet};

/// Height above terrain, if there is one, 001 §3.7.
#[derive(Clone, Copy, Debug, PartialEq, Eq, Hash)]
pub struct HeightAboveTerrain(pub Option<TerrainFeet>);

impl From<HeightAboveTerrain> for raw::Height {
    #[inline]
    fn from(HeightAboveTerrain(height): HeightAboveTerrain) -> Self {
        let (height_mark, height) = marked(height);
        Self {
            height_mark,
            height,
        }
    }
}

/// [`Error::OutOfRange`] for a mark that there is not.
impl TryFrom<raw::Height> for HeightAboveTerrain {
    type Error = Error;

    #[inline]
    fn try_from(raw: raw::Height) -> Result<Self, Error> {
        Ok(Self(unmarked(raw.height_mark, raw.height)?))
    }
}

impl fmt::Display for HeightAboveTerrain {
    fn fmt(&self, f: &mut fmt::Formatter<'_>) -> fmt::Result {
        match self.0 {
            Some(height) => write!(f, "height above terrain {height}"),
            None => write!(f, "no height above terrain"),
        }
    }
}

/// The ownship's geometric altitude, 001 §3.8.
#[derive(Clone, Copy, Debug, PartialEq, Eq, Hash)]
pub struct GeometricAltitude {
    /// Above the ellipsoid.
    pub altitude: GeometricSteps,
    /// Vertical warning.
    pub warning: bool,
    /// Vertical figure of merit, if there is one.
    pub merit: Option<Merit>,
}

/// Vertical figure of merit.
#[derive(Clone, Copy, Debug, PartialEq, Eq, Hash)]
pub enum Merit {
    /// Can be written: 0 to 32,766, but for 32,494, whose code means over.
    Metres(u16),
    /// Over 32,766 metres.
    Over,
}

impl From<GeometricAltitude> for raw::Geometric {
    #[inline]
    fn from(geometric: GeometricAltitude) -> Self {
        let (merit_mark, merit) = match geometric.merit {
            Some(Merit::Metres(metres)) => (PLAIN, metres),
            Some(Merit::Over) => (OVER, 0),
            None => (NONE, 0),
        };
        Self {
            altitude: geometric.altitude,
            warning: geometric.warning,
            merit_mark,
            merit,
        }
    }
}

/// [`Error::OutOfRange`] for a mark that there is not.
impl TryFrom<raw::Geometric> for GeometricAltitude {
    type Error = Error;

    #[inline]
    fn try_from(raw: raw::Geometric) -> Result<Self, Error> {
        Ok(Self {
            altitude: raw.altitude,
            warning: raw.warning,
            merit: match raw.merit_mark {
                OVER => Some(Merit::Over),
                mark => unmarked(mark, Merit::Metres(raw.merit))?,
            },
        })
    }
}

impl fmt::Display for GeometricAltitude {
    fn fmt(&self, f: &mut fmt::Formatter<'_>) -> fmt::Result {
        write!(f, "geometric altitude {}", self.altitude)?;
        match self.merit {
            Some(merit) => write!(f, ", figure of merit {merit}")?,
            None => write!(f, ", no figure of merit")?,
        }
        if self.warning {
            write!(f, ", vertical warning")?;
        }
        Ok(())
    }
}

impl fmt::Display for Merit {
    fn fmt(&self, f: &mut fmt::Formatter<'_>) -> fmt::Result {
        match self {
            Self::Metres(metres) => write!(f, "{metres} metres"),
            Self::Over => write!(f, "over 32766 metres"),
        }
    }
}
