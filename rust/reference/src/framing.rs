//! Framing of a message between two flags, 001 §2.2.1.

use crate::fcs::check_sequence;

pub const FLAG: u8 = 0x7E;
pub const ESCAPE: u8 = 0x7D;
pub(crate) const ESCAPE_FLIP: u8 = 0x20;

/// The longest message, 436 bytes (RULES 'Framing').
pub const MESSAGE_MAX: usize = 436;

/// The numbers of RULES 'Numbers'.
pub const OUTPUT_TOO_SHORT: u8 = 9;
pub const NOT_A_MESSAGE_LENGTH: u8 = 10;

#[derive(Debug, PartialEq, Eq, Clone, Copy)]
pub enum Framed {
    /// Length of the frame written at the start of the output.
    Bytes(usize),
    /// Refused with this number; the output is unchanged.
    Refused(u8),
}

/// Writes flag, stuffed message, stuffed check sequence (low byte first), flag.
pub fn frame(message: &[u8], out: &mut [u8]) -> Framed {
    if message.is_empty() || message.len() > MESSAGE_MAX {
        return Framed::Refused(NOT_A_MESSAGE_LENGTH);
    }
    let sequence = check_sequence(message).to_le_bytes();
    // The length comes first: a refusal must leave the output unchanged.
    let length = 1 + stuffed_length(message) + stuffed_length(&sequence) + 1;
    let Some(frame) = out.get_mut(..length) else {
        return Framed::Refused(OUTPUT_TOO_SHORT);
    };
    frame[0] = FLAG;
    let at = stuff(message, frame, 1);
    let at = stuff(&sequence, frame, at);
    frame[at] = FLAG;
    Framed::Bytes(length)
}

fn needs_escape(byte: u8) -> bool {
    byte == FLAG || byte == ESCAPE
}

fn stuffed_length(bytes: &[u8]) -> usize {
    bytes.len() + bytes.iter().filter(|&&byte| needs_escape(byte)).count()
}

/// Writes the stuffed bytes from `at` on and answers the place behind them.
pub(crate) fn stuff(bytes: &[u8], frame: &mut [u8], mut at: usize) -> usize {
    for &byte in bytes {
        if needs_escape(byte) {
            frame[at] = ESCAPE;
            frame[at + 1] = byte ^ ESCAPE_FLIP;
            at += 2;
        } else {
            frame[at] = byte;
            at += 1;
        }
    }
    at
}

#[cfg(test)]
mod tests {
    use super::*;
    use crate::xorshift::Xorshift;

    /// Checks one message against the frame expected, with exact room, with
    /// room behind it and with every room that is too short.
    fn check(message: &[u8], expected: &[u8]) {
        let length = expected.len();
        for room in length..length + 4 {
            let mut out = vec![0xAA; room];
            assert_eq!(frame(message, &mut out), Framed::Bytes(length));
            assert_eq!(&out[..length], expected);
            assert!(out[length..].iter().all(|&byte| byte == 0xAA));
        }
        for room in 0..length {
            check_refused(message, room, OUTPUT_TOO_SHORT);
        }
    }

    fn check_refused(message: &[u8], room: usize, number: u8) {
        let mut out = vec![0xAA; room];
        assert_eq!(frame(message, &mut out), Framed::Refused(number));
        assert!(out.iter().all(|&byte| byte == 0xAA));
    }

    /// The reading side of 001 §2.2.1, steps 1 to 3.
    fn unstuff(frame: &[u8]) -> Vec<u8> {
        let [FLAG, stuffed @ .., FLAG] = frame else {
            panic!("no flags around {frame:02X?}");
        };
        let mut clear = Vec::new();
        let mut bytes = stuffed.iter();
        while let Some(&byte) = bytes.next() {
            assert_ne!(byte, FLAG);
            clear.push(match byte {
                ESCAPE => bytes.next().expect("byte behind an escape") ^ 0x20,
                _ => byte,
            });
        }
        clear
    }

    #[test]
    fn known_frames() {
        check(&[0x7E], &[0x7E, 0x7D, 0x5E, 0x7D, 0x5E, 0x00, 0x7E]);
        check(
            &[0x7E, 0x7D],
            &[0x7E, 0x7D, 0x5E, 0x7D, 0x5D, 0x7D, 0x5D, 0x7D, 0x5E, 0x7E],
        );
        check(
            &[0x00, 0x81, 0x41, 0xDB, 0xD0, 0x08, 0x02],
            &[
                0x7E, 0x00, 0x81, 0x41, 0xDB, 0xD0, 0x08, 0x02, 0xB3, 0x8B, 0x7E,
            ],
        );
    }

    #[test]
    fn message_length_is_checked_before_the_output() {
        for room in [0, 1, 1024] {
            check_refused(&[], room, NOT_A_MESSAGE_LENGTH);
            check_refused(&[0; 437], room, NOT_A_MESSAGE_LENGTH);
        }
        check_refused(&[0], 4, OUTPUT_TOO_SHORT);
        check_refused(&[0; 436], 439, OUTPUT_TOO_SHORT);
        assert_eq!(frame(&[0], &mut [0; 5]), Framed::Bytes(5));
        assert_eq!(frame(&[0; 436], &mut [0; 440]), Framed::Bytes(440));
    }

    #[test]
    fn frames_unstuff_to_message_and_sequence() {
        let mut random = Xorshift::new(2);
        for length in 1..=MESSAGE_MAX {
            for eighths in [0, 1, 4, 8] {
                let message = random.message_with_escapes(length, eighths);
                let mut out = [0; 2 * MESSAGE_MAX + 6];
                let Framed::Bytes(written) = frame(&message, &mut out) else {
                    panic!("refused {message:02X?}");
                };
                let sequence = check_sequence(&message).to_le_bytes();
                assert_eq!(unstuff(&out[..written]), [&message[..], &sequence].concat());
            }
        }
    }
}
