//! Heartbeat and initialization, 001 §3.1 and §3.2.

use super::fields::in_range;

/// The last second of a day, which a leap second adds to some (RULES 'Time of day').
pub const TIME_MAX: u32 = 86_400;

#[derive(Debug, PartialEq, Eq, Clone, Copy)]
pub struct Heartbeat {
    pub status_1: u8,
    /// Bits 6 to 0: bit 7 of the byte belongs to the time.
    pub status_2: u8,
    /// Seconds since midnight.
    pub time: u32,
    pub uplinks: u8,
    pub reserved: bool,
    pub basic_and_long: u16,
}

impl Heartbeat {
    /// From the bytes behind the id.
    #[inline]
    pub fn read(fields: &[u8; 6]) -> Result<Self, u8> {
        let [status_1, second, time_low, time_middle, counts, counts_low] = *fields;
        let time = u32::from_le_bytes([time_low, time_middle, second >> 7, 0]);
        Ok(Self {
            status_1,
            status_2: second & 0x7F,
            time: in_range(time, 0..=TIME_MAX)?,
            uplinks: counts >> 3,
            reserved: counts & 0x04 != 0,
            basic_and_long: u16::from_be_bytes([counts & 0x03, counts_low]),
        })
    }

    /// The bytes behind the id.
    #[inline]
    pub fn write(&self) -> Result<[u8; 6], u8> {
        let status_2 = in_range(self.status_2, 0..=0x7F)?;
        let [low, middle, high, _] = in_range(self.time, 0..=TIME_MAX)?.to_le_bytes();
        let uplinks = in_range(self.uplinks, 0..=31)?;
        let [both_high, both_low] = in_range(self.basic_and_long, 0..=1023)?.to_be_bytes();
        let counts = uplinks << 3 | u8::from(self.reserved) << 2 | both_high;
        Ok([
            self.status_1,
            high << 7 | status_2,
            low,
            middle,
            counts,
            both_low,
        ])
    }
}

/// Configuration bytes, carried (RULES 'Initialization').
#[derive(Debug, PartialEq, Eq, Clone, Copy)]
pub struct Initialization {
    pub first: u8,
    pub second: u8,
}

impl Initialization {
    pub(super) fn read(&[first, second]: &[u8; 2]) -> Result<Self, u8> {
        Ok(Self { first, second })
    }

    pub(super) fn write(&self) -> [u8; 2] {
        [self.first, self.second]
    }
}

#[cfg(test)]
mod tests {
    use super::super::{read, write, Message, OUT_OF_RANGE};
    use super::*;
    use crate::vectors::HEARTBEAT;

    /// 001 §2.2.4, value 1 of RULES 'Values'.
    const EXAMPLE: Heartbeat = Heartbeat {
        status_1: 0x81,
        status_2: 0x41,
        time: 53_467,
        uplinks: 1,
        reserved: false,
        basic_and_long: 2,
    };

    fn check(heartbeat: Heartbeat, message: [u8; 7]) {
        assert_eq!(read(&message), Ok(Message::Heartbeat(heartbeat)));
        assert_eq!(write(&Message::Heartbeat(heartbeat)), Ok(message.to_vec()));
    }

    #[test]
    fn example_of_001() {
        check(EXAMPLE, HEARTBEAT);
    }

    #[test]
    fn counts_of_001() {
        let heartbeat = Heartbeat {
            uplinks: 4,
            basic_and_long: 567,
            ..EXAMPLE
        };
        check(heartbeat, [0x00, 0x81, 0x41, 0xDB, 0xD0, 0x22, 0x37]);
    }

    #[test]
    fn every_bit_has_its_place() {
        let zero = Heartbeat {
            status_1: 0,
            status_2: 0,
            time: 0,
            uplinks: 0,
            reserved: false,
            basic_and_long: 0,
        };
        let (status_1, status_2, uplinks) = (0xFF, 0x7F, 31);
        check(zero, [0; 7]);
        check(Heartbeat { status_1, ..zero }, [0, 0xFF, 0, 0, 0, 0, 0]);
        check(Heartbeat { status_2, ..zero }, [0, 0, 0x7F, 0, 0, 0, 0]);
        check(Heartbeat { uplinks, ..zero }, [0, 0, 0, 0, 0, 0xF8, 0]);
        let (time, reserved, basic_and_long) = (65_536, true, 1023);
        check(Heartbeat { time, ..zero }, [0, 0, 0x80, 0, 0, 0, 0]);
        check(Heartbeat { reserved, ..zero }, [0, 0, 0, 0, 0, 0x04, 0]);
        let both = Heartbeat {
            basic_and_long,
            ..zero
        };
        check(both, [0, 0, 0, 0, 0, 0x03, 0xFF]);
    }

    /// Value 7 of RULES 'Values'.
    #[test]
    fn last_second_of_a_day() {
        let last = Heartbeat {
            time: 86_400,
            ..EXAMPLE
        };
        check(last, [0x00, 0x81, 0xC1, 0x80, 0x51, 0x08, 0x02]);
        let next = [0x00, 0x81, 0xC1, 0x81, 0x51, 0x08, 0x02];
        assert_eq!(read(&next), Err(OUT_OF_RANGE));
    }

    #[test]
    fn too_wide() {
        for change in [
            |heartbeat: &mut Heartbeat| heartbeat.status_2 = 0x80,
            |heartbeat: &mut Heartbeat| heartbeat.time = 86_401,
            |heartbeat: &mut Heartbeat| heartbeat.time = u32::MAX,
            |heartbeat: &mut Heartbeat| heartbeat.uplinks = 32,
            |heartbeat: &mut Heartbeat| heartbeat.basic_and_long = 1024,
        ] {
            let mut heartbeat = EXAMPLE;
            change(&mut heartbeat);
            assert_eq!(write(&Message::Heartbeat(heartbeat)), Err(OUT_OF_RANGE));
        }
    }

    #[test]
    fn initialization_is_carried() {
        for first in 0..=255 {
            let second = first ^ 0x5A;
            let value = Message::Initialization(Initialization { first, second });
            assert_eq!(read(&[2, first, second]), Ok(value.clone()));
            assert_eq!(write(&value), Ok(vec![2, first, second]));
        }
    }
}
