//! Frame check sequence, as in the C code of 001 §2.2.3.

/// x^16 + x^12 + x^5 + 1 without its highest term.
const POLYNOMIAL: u16 = 0x1021;

static TABLE: [u16; 256] = table();

/// `crcInit` of 001 §2.2.3.
const fn table() -> [u16; 256] {
    let mut table = [0; 256];
    let mut i = 0;
    while i < 256 {
        let mut crc = (i as u16) << 8;
        let mut bit = 0;
        while bit < 8 {
            crc = (crc << 1) ^ if crc & 0x8000 != 0 { POLYNOMIAL } else { 0 };
            bit += 1;
        }
        table[i] = crc;
        i += 1;
    }
    table
}

/// `crcCompute` of 001 §2.2.3: from zero, and no sixteen zero bits appended,
/// which sets it apart from the usual CRC-CCITT.
pub fn check_sequence(message: &[u8]) -> u16 {
    let mut crc: u16 = 0;
    for &byte in message {
        crc = TABLE[usize::from(crc >> 8)] ^ (crc << 8) ^ u16::from(byte);
    }
    crc
}

#[cfg(test)]
mod tests {
    use super::*;
    use crate::xorshift::Xorshift;

    /// The remainder worked out one bit at a time, without a table.
    fn long_division(message: &[u8]) -> u16 {
        let mut remainder: u32 = 0;
        for &byte in message {
            for bit in (0..8).rev() {
                remainder = remainder << 1 | u32::from(byte >> bit & 1);
                if remainder & 0x1_0000 != 0 {
                    remainder ^= 0x1_1021;
                }
            }
        }
        remainder as u16
    }

    #[test]
    fn up_to_two_bytes_are_their_own_remainder() {
        assert_eq!(check_sequence(&[]), 0);
        for a in 0..=255 {
            assert_eq!(check_sequence(&[a]), u16::from(a));
            for b in 0..=255 {
                assert_eq!(check_sequence(&[a, b]), 256 * u16::from(a) + u16::from(b));
            }
        }
    }

    #[test]
    fn known_values() {
        let heartbeat = [0x00, 0x81, 0x41, 0xDB, 0xD0, 0x08, 0x02];
        assert_eq!(check_sequence(&heartbeat), 0x8BB3);
        assert_eq!(check_sequence(&[0x01, 0x00, 0x00]), 0x1021);
        assert_eq!(check_sequence(&[0x01, 0x10, 0x21]), 0);
        assert_eq!(check_sequence(&[0x23, 0x14, 0x01]), 0);
    }

    /// The first 16 are the words of RULES 'Check sequence'.
    #[test]
    fn word_i_is_the_sequence_of_i_and_two_zero_bytes() {
        for i in 0..=255 {
            assert_eq!(TABLE[usize::from(i)], long_division(&[i, 0, 0]));
        }
    }

    #[test]
    fn table_agrees_with_long_division() {
        let mut random = Xorshift::new(1);
        for length in 0..=1000 {
            let message = random.message(length);
            assert_eq!(check_sequence(&message), long_division(&message));
        }
    }
}
