//! Uplink messages: a time of reception and a payload, 001 §3.3.

use super::fields::{exactly, in_range};

/// The last step of a second (001 §3.3.1).
pub const RECEPTION_MAX: u32 = 12_499_999;
const NO_RECEPTION: u32 = 0xFF_FFFF;

pub const PAYLOAD_LENGTH: usize = 432;
/// The time of reception and the payload.
const FIELDS_LENGTH: usize = 3 + PAYLOAD_LENGTH;

#[derive(Debug, PartialEq, Eq, Clone)]
pub struct Uplink {
    /// Steps of 80 ns.
    pub reception: Option<u32>,
    pub payload: Vec<u8>,
}

impl Uplink {
    pub(super) fn read(fields: &[u8; FIELDS_LENGTH]) -> Result<Self, u8> {
        let [low, middle, high, payload @ ..] = fields;
        Ok(Self {
            reception: read_reception([*low, *middle, *high])?,
            payload: payload.to_vec(),
        })
    }

    pub(super) fn write(&self) -> Result<[u8; FIELDS_LENGTH], u8> {
        let payload: &[u8; PAYLOAD_LENGTH] = exactly(&self.payload)?;
        let mut fields = [0; FIELDS_LENGTH];
        fields[..3].copy_from_slice(&write_reception(self.reception)?);
        fields[3..].copy_from_slice(payload);
        Ok(fields)
    }
}

fn read_reception([low, middle, high]: [u8; 3]) -> Result<Option<u32>, u8> {
    match u32::from_le_bytes([low, middle, high, 0]) {
        NO_RECEPTION => Ok(None),
        steps => in_range(steps, 0..=RECEPTION_MAX).map(Some),
    }
}

fn write_reception(reception: Option<u32>) -> Result<[u8; 3], u8> {
    let steps = match reception {
        None => NO_RECEPTION,
        Some(steps) => in_range(steps, 0..=RECEPTION_MAX)?,
    };
    let [bytes @ .., _] = steps.to_le_bytes();
    Ok(bytes)
}

#[cfg(test)]
mod tests {
    use super::super::{read, write, Message, OUT_OF_RANGE, WRONG_LENGTH};
    use super::*;

    #[test]
    fn reception_bounds() {
        for (bytes, expected) in [
            ([0, 0, 0], Ok(Some(0))),
            ([1, 0, 0], Ok(Some(1))),
            ([0, 1, 0], Ok(Some(256))),
            ([0, 0, 1], Ok(Some(65_536))),
            ([0x1F, 0xBC, 0xBE], Ok(Some(12_499_999))),
            ([0x20, 0xBC, 0xBE], Err(OUT_OF_RANGE)),
            ([0xFE, 0xFF, 0xFF], Err(OUT_OF_RANGE)),
            ([0xFF, 0xFF, 0xFF], Ok(None)),
        ] {
            assert_eq!(read_reception(bytes), expected);
            if let Ok(reception) = expected {
                assert_eq!(write_reception(reception), Ok(bytes));
            }
        }
    }

    #[test]
    fn reception_too_large() {
        for steps in [12_500_000, 0xFF_FFFE, 0xFF_FFFF, 0x100_0000, u32::MAX] {
            assert_eq!(write_reception(Some(steps)), Err(OUT_OF_RANGE));
        }
    }

    #[test]
    fn payload_starts_at_the_fifth_byte() {
        let message: Vec<u8> = (0..436).map(|place| place as u8 ^ 7).collect();
        let Ok(Message::Uplink(uplink)) = read(&message) else {
            panic!("no uplink");
        };
        assert_eq!(uplink.reception, Some(0x04_05_06));
        assert_eq!(uplink.payload, message[4..]);
    }

    /// 7 comes before 8.
    #[test]
    fn uplink_payload_length() {
        for length in [0, 1, 431, 433, 436] {
            for reception in [None, Some(0), Some(12_500_000)] {
                let payload = vec![0; length];
                let uplink = Message::Uplink(Uplink { reception, payload });
                assert_eq!(write(&uplink), Err(WRONG_LENGTH));
            }
        }
        let reception = Some(12_500_000);
        let payload = vec![0; 432];
        let uplink = Message::Uplink(Uplink { reception, payload });
        assert_eq!(write(&uplink), Err(OUT_OF_RANGE));
    }
}
