//! Height above terrain and geometric altitude, 001 §3.7 and §3.8.

use super::fields::in_range;
use super::OUT_OF_RANGE;

const NO_HEIGHT: i16 = i16::MIN;

const NO_MERIT: u16 = 0x7FFF;
/// As RULES 'Geometric altitude' has it; 0x7FFE is an ordinary 32,766.
const MERIT_OVER: u16 = 0x7EEE;
const WARNING: u16 = 0x8000;

/// The units of RULES 'Units', of which each has feet of its own.
#[derive(Debug, PartialEq, Eq, Clone, Copy)]
pub struct TerrainFeet(pub i16);

impl TerrainFeet {
    pub fn feet(self) -> i32 {
        i32::from(self.0)
    }
}

#[derive(Debug, PartialEq, Eq, Clone, Copy)]
pub struct FiveFootSteps(pub i16);

impl FiveFootSteps {
    pub fn feet(self) -> i32 {
        5 * i32::from(self.0)
    }
}

/// Height above terrain.
#[derive(Debug, PartialEq, Eq, Clone, Copy)]
pub struct Height(pub Option<TerrainFeet>);

impl Height {
    pub(super) fn read(fields: &[u8; 2]) -> Result<Self, u8> {
        Ok(Self(match i16::from_be_bytes(*fields) {
            NO_HEIGHT => None,
            feet => Some(TerrainFeet(feet)),
        }))
    }

    pub(super) fn write(&self) -> Result<[u8; 2], u8> {
        match self.0 {
            None => Ok(NO_HEIGHT.to_be_bytes()),
            Some(TerrainFeet(NO_HEIGHT)) => Err(OUT_OF_RANGE),
            Some(TerrainFeet(feet)) => Ok(feet.to_be_bytes()),
        }
    }
}

/// Vertical figure of merit.
#[derive(Debug, PartialEq, Eq, Clone, Copy)]
pub enum Merit {
    Metres(u16),
    /// Over 32,766 metres.
    Over,
    None,
}

impl Merit {
    /// Of the lower 15 bits.
    fn read(bits: u16) -> Self {
        match bits {
            NO_MERIT => Self::None,
            MERIT_OVER => Self::Over,
            metres => Self::Metres(metres),
        }
    }

    fn write(self) -> Result<u16, u8> {
        match self {
            Self::None => Ok(NO_MERIT),
            Self::Over => Ok(MERIT_OVER),
            Self::Metres(MERIT_OVER) => Err(OUT_OF_RANGE),
            Self::Metres(metres) => in_range(metres, 0..=NO_MERIT - 1),
        }
    }
}

#[derive(Debug, PartialEq, Eq, Clone, Copy)]
pub struct GeometricAltitude {
    pub altitude: FiveFootSteps,
    pub warning: bool,
    pub merit: Merit,
}

impl GeometricAltitude {
    pub(super) fn read(&[high, low, metrics, metrics_low]: &[u8; 4]) -> Result<Self, u8> {
        let metrics = u16::from_be_bytes([metrics, metrics_low]);
        Ok(Self {
            altitude: FiveFootSteps(i16::from_be_bytes([high, low])),
            warning: metrics & WARNING != 0,
            merit: Merit::read(metrics & !WARNING),
        })
    }

    pub(super) fn write(&self) -> Result<[u8; 4], u8> {
        let warning = if self.warning { WARNING } else { 0 };
        let [high, low] = self.altitude.0.to_be_bytes();
        let [metrics, metrics_low] = (warning | self.merit.write()?).to_be_bytes();
        Ok([high, low, metrics, metrics_low])
    }
}

#[cfg(test)]
mod tests {
    use super::super::{read, write, Message};
    use super::*;

    fn check_height(bytes: [u8; 2], feet: Option<i16>) {
        let value = Message::Height(Height(feet.map(TerrainFeet)));
        let message = [&[9], &bytes[..]].concat();
        assert_eq!(read(&message), Ok(value.clone()));
        assert_eq!(write(&value), Ok(message));
    }

    #[test]
    fn heights() {
        // The example of 001 §3.7.
        check_height([0x01, 0x00], Some(256));
        check_height([0x00, 0x00], Some(0));
        check_height([0xFF, 0xFF], Some(-1));
        check_height([0x7F, 0xFF], Some(32_767));
        check_height([0x80, 0x01], Some(-32_767));
        check_height([0x80, 0x00], None);
        let mark = Message::Height(Height(Some(TerrainFeet(-32_768))));
        assert_eq!(write(&mark), Err(OUT_OF_RANGE));
    }

    fn check(bytes: [u8; 4], feet: i32, warning: bool, merit: Merit) {
        let message = [&[11], &bytes[..]].concat();
        let Ok(Message::Geometric(geometric)) = read(&message) else {
            panic!("no geometric altitude: {message:02X?}");
        };
        assert_eq!(geometric.altitude.feet(), feet);
        assert_eq!((geometric.warning, geometric.merit), (warning, merit));
        assert_eq!(write(&Message::Geometric(geometric)), Ok(message));
    }

    /// Examples of 001 §3.8.
    #[test]
    fn geometric_altitudes() {
        let merit = Merit::Metres(0);
        check([0xFF, 0x38, 0, 0], -1_000, false, merit);
        check([0x00, 0x00, 0, 0], 0, false, merit);
        check([0x00, 0xC8, 0, 0], 1_000, false, merit);
        check([0x7F, 0xFF, 0, 0], 163_835, false, merit);
        check([0x80, 0x00, 0, 0], -163_840, false, merit);
    }

    /// Examples of 001 §3.8; RULES 'Geometric altitude' decides on 0x7FFE and
    /// 0x7EEE.
    #[test]
    fn figures_of_merit() {
        check([0, 0, 0xFF, 0xFF], 0, true, Merit::None);
        check([0, 0, 0x7F, 0xFE], 0, false, Merit::Metres(32_766));
        check([0, 0, 0x00, 0x0A], 0, false, Merit::Metres(10));
        check([0, 0, 0x80, 0x32], 0, true, Merit::Metres(50));
        check([0, 0, 0x7F, 0xFF], 0, false, Merit::None);
        check([0, 0, 0xFF, 0xFE], 0, true, Merit::Metres(32_766));
        for (high, warning) in [(0x7E, false), (0xFE, true)] {
            check([0, 0, high, 0xED], 0, warning, Merit::Metres(0x7EED));
            check([0, 0, high, 0xEE], 0, warning, Merit::Over);
            check([0, 0, high, 0xEF], 0, warning, Merit::Metres(0x7EEF));
        }
    }

    #[test]
    fn merit_marks_as_numbers() {
        for metres in 0..=u16::MAX {
            let expected = match metres {
                0x7EEE | 0x7FFF.. => Err(OUT_OF_RANGE),
                _ => Ok(metres),
            };
            assert_eq!(Merit::Metres(metres).write(), expected);
        }
    }
}
