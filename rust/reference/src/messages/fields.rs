//! Cutting bytes into fields and putting them together.

use std::ops::RangeInclusive;

use super::{OUT_OF_RANGE, WRONG_LENGTH};

/// The fields behind the id, if they are as many bytes as the kind has.
pub fn exactly<const N: usize>(fields: &[u8]) -> Result<&[u8; N], u8> {
    fields.try_into().map_err(|_| WRONG_LENGTH)
}

pub fn in_range<T: PartialOrd>(value: T, range: RangeInclusive<T>) -> Result<T, u8> {
    if range.contains(&value) {
        Ok(value)
    } else {
        Err(OUT_OF_RANGE)
    }
}

/// The half bytes, high first.
pub fn halves(byte: u8) -> (u8, u8) {
    (byte >> 4, byte & 0xF)
}

pub fn from_halves(high: u8, low: u8) -> Result<u8, u8> {
    Ok(in_range(high, 0..=0xF)? << 4 | in_range(low, 0..=0xF)?)
}

/// Two's complement of 24 bits, high byte first.
pub fn signed_24([high, middle, low]: [u8; 3]) -> i32 {
    // The lowest byte is shifted out again, which spreads the sign.
    i32::from_be_bytes([high, middle, low, 0]) >> 8
}

/// The caller checks that the value fits.
pub fn bytes_24(value: i32) -> [u8; 3] {
    let [_, bytes @ ..] = value.to_be_bytes();
    bytes
}

#[cfg(test)]
mod tests {
    use super::*;

    /// Table of 001 §3.5.1.3 in steps of 180/2^23 degrees.
    #[test]
    fn latitude_and_longitude_examples() {
        let degrees_45 = 45 * (1 << 23) / 180;
        for (bytes, steps) in [
            ([0x00, 0x00, 0x00], 0),
            ([0x00, 0x00, 0x01], 1),
            ([0xFF, 0xFF, 0xFF], -1),
            ([0x20, 0x00, 0x00], degrees_45),
            ([0xE0, 0x00, 0x00], -degrees_45),
            ([0x40, 0x00, 0x00], 2 * degrees_45),
            ([0x80, 0x00, 0x00], -4 * degrees_45),
            ([0x7F, 0xFF, 0xFF], 4 * degrees_45 - 1),
        ] {
            assert_eq!(signed_24(bytes), steps);
            assert_eq!(bytes_24(steps), bytes);
        }
    }

    #[test]
    fn half_bytes() {
        for byte in 0..=255 {
            let (high, low) = halves(byte);
            assert_eq!(from_halves(high, low), Ok(byte));
        }
        assert_eq!(from_halves(16, 0), Err(OUT_OF_RANGE));
        assert_eq!(from_halves(0, 16), Err(OUT_OF_RANGE));
    }
}
