//! Heartbeat and initialization, 001 §3.1 and §3.2.

use std::fmt;

use crate::{raw, Error};

/// What the receiver says once a second, 001 §3.1.
#[derive(Clone, Copy, Debug, PartialEq, Eq, Hash)]
pub struct Heartbeat {
    /// Status byte 1, 001 §3.1.1.
    pub status_1: u8,
    /// Bits 6 to 0 of status byte 2, 001 §3.1.2.
    pub status_2: u8,
    /// Seconds since midnight, UTC. Can be written: 0 to 86,400, which is the leap
    /// second of a day that has one, 23:59:60.
    pub time: u32,
    /// Uplinks received in the last second. Can be written: 0 to 31.
    pub uplinks: u8,
    /// The reserved bit.
    pub reserved: bool,
    /// Basic and long messages together that were received in the last second.
    /// Can be written: 0 to 1,023.
    pub basic_and_long: u16,
}

impl From<Heartbeat> for raw::Heartbeat {
    #[inline]
    fn from(heartbeat: Heartbeat) -> Self {
        Self {
            status1: heartbeat.status_1,
            status2: heartbeat.status_2,
            time: heartbeat.time,
            uplinks: heartbeat.uplinks,
            reserved: heartbeat.reserved.into(),
            basic_and_long: heartbeat.basic_and_long,
        }
    }
}

/// [`Error::OutOfRange`] if the reserved bit is neither 0 nor 1.
impl TryFrom<raw::Heartbeat> for Heartbeat {
    type Error = Error;

    #[inline]
    fn try_from(raw: raw::Heartbeat) -> Result<Self, Error> {
        Ok(Self {
            status_1: raw.status1,
            status_2: raw.status2,
            time: raw.time,
            uplinks: raw.uplinks,
            reserved: match raw.reserved {
                0 => false,
                1 => true,
                _ => return Err(Error::OutOfRange),
            },
            basic_and_long: raw.basic_and_long,
        })
    }
}

impl fmt::Display for Heartbeat {
    fn fmt(&self, f: &mut fmt::Formatter<'_>) -> fmt::Result {
        // A leap second is one more of the day's last minute.
        let minute = (self.time / 60).min(24 * 60 - 1);
        let (hours, minutes, seconds) = (minute / 60, minute % 60, self.time - minute * 60);
        write!(
            f,
            "heartbeat at {hours:02}:{minutes:02}:{seconds:02} UTC, status 0x{:02X} 0x{:02X}, \
             received in the last second: {} uplinks, {} basic and long",
            self.status_1, self.status_2, self.uplinks, self.basic_and_long
        )
    }
}

/// Two configuration bytes that a display sends, 001 §3.2.
#[derive(Clone, Copy, Debug, PartialEq, Eq, Hash)]
pub struct Initialization {
    /// Configuration byte 1, 001 §3.2.1.
    pub first: u8,
    /// Configuration byte 2, 001 §3.2.2.
    pub second: u8,
}

impl From<Initialization> for raw::Initialization {
    #[inline]
    fn from(Initialization { first, second }: Initialization) -> Self {
        Self { first, second }
    }
}

impl From<raw::Initialization> for Initialization {
    #[inline]
    fn from(raw::Initialization { first, second }: raw::Initialization) -> Self {
        Self { first, second }
    }
}

impl fmt::Display for Initialization {
    fn fmt(&self, f: &mut fmt::Formatter<'_>) -> fmt::Result {
        write!(
            f,
            "initialization 0x{:02X} 0x{:02X}",
            self.first, self.second
        )
    }
}
