//! The seven kinds of message as typed values, 001 §3.

mod heights;
mod marks;
mod report;
mod status;
mod uplink;

use std::fmt;

pub use heights::{GeometricAltitude, HeightAboveTerrain, Merit};
pub use report::{CallSign, Climb, Report, Speed, TrackKind};
pub use status::{Heartbeat, Initialization};
pub use uplink::Uplink;

use crate::raw::{self, id, MESSAGE_MAX};
use crate::Error;

/// A message, with its kind.
///
/// Shown with `{}` it is one line in words. Later versions may have more kinds:
/// match with a last arm `_`.
///
/// ```
/// use gdl90::{Message, Speed};
///
/// // The example of 001 §3.5.2.
/// let bytes = [
///     0x14, 0x00, 0xAB, 0x45, 0x49, 0x1F, 0xEF, 0x15, 0xA8, 0x89, 0x78, 0x0F, 0x09, 0xA9,
///     0x07, 0xB0, 0x01, 0x20, 0x01, 0x4E, 0x38, 0x32, 0x35, 0x56, 0x20, 0x20, 0x20, 0x00,
/// ];
/// let message = Message::read(&bytes)?;
/// let Message::Traffic(report) = message else {
///     panic!("not traffic: {message}");
/// };
/// assert_eq!(report.call_sign.text(), "N825V");
/// assert_eq!(report.altitude.unwrap().feet(), 5_000);
/// assert_eq!(report.speed, Some(Speed::Knots(123)));
/// # Ok::<(), gdl90::Error>(())
/// ```
#[derive(Clone, Copy, Debug, PartialEq, Eq, Hash)]
#[non_exhaustive]
pub enum Message<'a> {
    /// Id 0, 7 bytes.
    Heartbeat(Heartbeat),
    /// Id 2, 3 bytes.
    Initialization(Initialization),
    /// Id 7, 436 bytes.
    Uplink(Uplink<'a>),
    /// Id 9, 3 bytes.
    Height(HeightAboveTerrain),
    /// Id 10, 28 bytes.
    Ownship(Report),
    /// Id 11, 5 bytes.
    Geometric(GeometricAltitude),
    /// Id 20, 28 bytes.
    Traffic(Report),
}

impl<'a> Message<'a> {
    /// Reads a message of whatever kind. An uplink's payload stays a part of the
    /// message.
    ///
    /// # Errors
    ///
    /// [`Error::UnknownId`] for an empty message or an id that is neither a kind's
    /// nor retired, then [`Error::Retired`] for id 30 or 31 with whatever behind it,
    /// then [`Error::WrongLength`], then [`Error::OutOfRange`].
    ///
    /// ```
    /// use gdl90::{Error, Message};
    ///
    /// // A basic pass-through's id, alone.
    /// assert_eq!(Message::read(&[30]), Err(Error::Retired));
    /// ```
    #[inline]
    pub fn read(message: &'a [u8]) -> Result<Self, Error> {
        Ok(match raw::kind(message).result()? {
            id::INITIALIZATION => {
                Self::Initialization(raw::read_initialization(message).result()?.into())
            }
            id::UPLINK => Self::Uplink(Uplink::read(message)?),
            id::HEIGHT => Self::Height(raw::read_height(message).result()?.try_into()?),
            id::OWNSHIP => Self::Ownship(raw::read_ownship(message).result()?.try_into()?),
            id::GEOMETRIC => Self::Geometric(raw::read_geometric(message).result()?.try_into()?),
            id::TRAFFIC => Self::Traffic(raw::read_traffic(message).result()?.try_into()?),
            id::HEARTBEAT => Self::Heartbeat(raw::read_heartbeat(message).result()?.try_into()?),
            other => panic!("the archive knows kind {other}, which this crate does not"),
        })
    }

    /// Writes the message to the start of `out` and answers how many bytes it is.
    /// [`MESSAGE_MAX`] bytes are enough for any.
    ///
    /// # Errors
    ///
    /// [`Error::WrongLength`] for an uplink's payload that is not of 432 bytes,
    /// then [`Error::OutOfRange`] for a field, then [`Error::NoRoom`].
    ///
    /// ```
    /// use gdl90::{HeightAboveTerrain, Message, TerrainFeet};
    ///
    /// let mut out = [0; gdl90::MESSAGE_MAX];
    /// let message = Message::Height(HeightAboveTerrain(Some(TerrainFeet(256))));
    /// let length = message.write(&mut out)?;
    /// assert_eq!(out[..length], [9, 1, 0]);
    /// # Ok::<(), gdl90::Error>(())
    /// ```
    #[inline]
    pub fn write(&self, out: &mut [u8]) -> Result<usize, Error> {
        match *self {
            Self::Heartbeat(heartbeat) => raw::write_heartbeat(heartbeat.into(), out),
            Self::Initialization(bytes) => raw::write_initialization(bytes.into(), out),
            Self::Uplink(uplink) => raw::write_uplink(uplink.into(), uplink.payload, out),
            Self::Height(height) => raw::write_height(height.into(), out),
            Self::Ownship(report) => raw::write_ownship(report.into(), out),
            Self::Geometric(geometric) => raw::write_geometric(geometric.into(), out),
            Self::Traffic(report) => raw::write_traffic(report.into(), out),
        }
        .result()
    }

    /// The message's bytes, as [`write`](Self::write) writes them.
    ///
    /// # Errors
    ///
    /// Those of [`write`](Self::write) but for [`Error::NoRoom`].
    pub fn to_vec(&self) -> Result<Vec<u8>, Error> {
        let mut out = [0; MESSAGE_MAX];
        let length = self.write(&mut out)?;
        Ok(out[..length].to_vec())
    }
}

impl<'a> TryFrom<&'a [u8]> for Message<'a> {
    type Error = Error;

    #[inline]
    fn try_from(message: &'a [u8]) -> Result<Self, Error> {
        Self::read(message)
    }
}

/// Values of which there is one kind of message. A report is an ownship's or of
/// traffic, which the caller has to say.
macro_rules! messages {
    ($($value:ty => $kind:ident;)*) => {
        $(
            impl<'a> From<$value> for Message<'a> {
                #[inline]
                fn from(value: $value) -> Self {
                    Self::$kind(value)
                }
            }
        )*
    };
}

messages! {
    Heartbeat => Heartbeat;
    Initialization => Initialization;
    Uplink<'a> => Uplink;
    HeightAboveTerrain => Height;
    GeometricAltitude => Geometric;
}

impl fmt::Display for Message<'_> {
    fn fmt(&self, f: &mut fmt::Formatter<'_>) -> fmt::Result {
        match self {
            Self::Heartbeat(heartbeat) => heartbeat.fmt(f),
            Self::Initialization(initialization) => initialization.fmt(f),
            Self::Uplink(uplink) => uplink.fmt(f),
            Self::Height(height) => height.fmt(f),
            Self::Ownship(report) => write!(f, "ownship {report}"),
            Self::Geometric(geometric) => geometric.fmt(f),
            Self::Traffic(report) => write!(f, "traffic {report}"),
        }
    }
}
