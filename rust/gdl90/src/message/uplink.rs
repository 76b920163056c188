//! Uplink, 001 §3.3.

use std::fmt;

use super::marks::{marked, unmarked};
use crate::information_frames::{information_frames, InformationFrames};
use crate::{raw, Error};

/// What a ground station sent, 001 §3.3.
#[derive(Clone, Copy, Debug, PartialEq, Eq, Hash)]
pub struct Uplink<'a> {
    /// Steps of 80 ns since the second began, if known. Can be written: 0 to
    /// 12,499,999.
    pub reception: Option<u32>,
    /// 432 bytes; those of a message that was read are a part of it.
    pub payload: &'a [u8],
}

impl<'a> Uplink<'a> {
    /// The payload's information frames; see [`information_frames`].
    ///
    /// # Errors
    ///
    /// Those of [`information_frames`].
    pub fn information_frames(&self) -> Result<InformationFrames<'a>, Error> {
        information_frames(self.payload)
    }

    #[inline]
    pub(super) fn read(message: &'a [u8]) -> Result<Self, Error> {
        let raw = raw::read_uplink(message).result()?;
        Ok(Self {
            reception: unmarked(raw.reception_mark, raw.reception)?,
            payload: &message[4..],
        })
    }
}

impl From<Uplink<'_>> for raw::Uplink {
    #[inline]
    fn from(uplink: Uplink<'_>) -> Self {
        let (reception_mark, reception) = marked(uplink.reception);
        Self {
            reception_mark,
            reception,
        }
    }
}

/// The time of reception in seconds, all decimals.
impl fmt::Display for Uplink<'_> {
    fn fmt(&self, f: &mut fmt::Formatter<'_>) -> fmt::Result {
        match self.reception {
            Some(steps) => {
                let nanoseconds = 80 * u64::from(steps);
                let (seconds, rest) = (nanoseconds / 1_000_000_000, nanoseconds % 1_000_000_000);
                write!(f, "uplink, received {seconds}.{rest:09} s into the second")?;
            }
            None => write!(f, "uplink, time of reception not known")?,
        }
        write!(f, ", payload of {} bytes", self.payload.len())
    }
}
