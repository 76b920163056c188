//! The library's refusals.

use std::fmt;

/// Why the library refused, one case for each number (RULES 'Numbers').
///
/// A refusal leaves memory that was lent for output as it was. Collecting's, the
/// first five, come with a position, as a [`Refusal`](crate::Refusal).
///
/// The numbers are fixed and none is used twice, but later ones will come:
/// match with a last arm `_`. 12 is not used, and will not be.
///
/// ```
/// use gdl90::{Error, Message};
///
/// let error = Message::read(&[0xFF, 1, 2]).unwrap_err();
/// assert_eq!(error, Error::UnknownId);
/// assert_eq!(error.number(), 6);
/// assert_eq!(error.to_string(), "the message is empty, or of an unknown kind");
/// ```
#[derive(Clone, Copy, Debug, PartialEq, Eq, Hash, PartialOrd, Ord)]
#[non_exhaustive]
#[repr(u8)]
pub enum Error {
    /// 0x7D followed by a byte other than 0x5D, 0x5E, 0x7E.
    BadEscape = 1,
    /// 0x7D directly before the closing flag.
    EscapeBeforeFlag = 2,
    /// More than 438 bytes between two flags.
    FrameTooLong = 3,
    /// One or two bytes between two flags.
    FrameTooShort = 4,
    /// The check sequence differs.
    CheckSequence = 5,
    /// An empty message, or one with an id that is not known.
    UnknownId = 6,
    /// A message not of its kind's length, or a payload not of 432 bytes.
    WrongLength = 7,
    /// A field outside its range.
    OutOfRange = 8,
    /// The output is too short, or the payload has no room for another frame.
    NoRoom = 9,
    /// A message to be framed that is not of 1 to 436 bytes.
    Unframable = 10,
    /// An information frame runs past the application data.
    PastTheData = 11,
    /// No information frame has that number.
    NoSuchFrame = 13,
    /// Data of fewer bytes than a text's header has, four.
    NoTextHeader = 14,
    /// A header that is not a weather text's: another product, a flag, segmented,
    /// or another time option.
    NotText = 15,
    /// A code that is no character of a text, a tab with no count behind it, as in
    /// data that were cut off, or a character to be written that has no code.
    NoCharacter = 16,
    /// A message with a retired id: 30 or 31, once basic and long pass-through.
    Retired = 17,
}

impl Error {
    /// The case with this number.
    pub fn from_number(number: u8) -> Option<Self> {
        Some(match number {
            1 => Self::BadEscape,
            2 => Self::EscapeBeforeFlag,
            3 => Self::FrameTooLong,
            4 => Self::FrameTooShort,
            5 => Self::CheckSequence,
            6 => Self::UnknownId,
            7 => Self::WrongLength,
            8 => Self::OutOfRange,
            9 => Self::NoRoom,
            10 => Self::Unframable,
            11 => Self::PastTheData,
            13 => Self::NoSuchFrame,
            14 => Self::NoTextHeader,
            15 => Self::NotText,
            16 => Self::NoCharacter,
            17 => Self::Retired,
            _ => return None,
        })
    }

    /// The number of RULES 'Numbers'.
    #[inline]
    pub fn number(self) -> u8 {
        self as u8
    }
}

/// The value that the library answered, or why it refused, by the answer's number.
#[inline]
pub(crate) fn accepted<T>(number: u8, value: T) -> Result<T, Error> {
    match number {
        0 => Ok(value),
        _ => Err(Error::from_number(number).unwrap_or_else(|| unknown(number))),
    }
}

/// Only an archive of another version answers what this crate does not know.
#[cold]
pub(crate) fn unknown(answer: impl fmt::Display) -> ! {
    panic!("libgdl90.a answered {answer}: it and the crate gdl90 are of different versions")
}

impl fmt::Display for Error {
    fn fmt(&self, f: &mut fmt::Formatter<'_>) -> fmt::Result {
        f.write_str(match self {
            Self::BadEscape => "an escape stands before a byte that is never escaped",
            Self::EscapeBeforeFlag => "an escape stands directly before the closing flag",
            Self::FrameTooLong => "the frame has more than 438 bytes",
            Self::FrameTooShort => "the frame has only one or two bytes",
            Self::CheckSequence => "the check sequence differs",
            Self::UnknownId => "the message is empty, or of an unknown kind",
            Self::WrongLength => "the message or the payload has a wrong length",
            Self::OutOfRange => "a field is outside its range",
            Self::NoRoom => "there is too little room",
            Self::Unframable => "a message to be framed has 1 to 436 bytes",
            Self::PastTheData => "an information frame runs past the application data",
            Self::NoSuchFrame => "no information frame has that number",
            Self::NoTextHeader => "the data are shorter than a text's header",
            Self::NotText => "the data are not a weather text",
            Self::NoCharacter => {
                "a code is no character of a text, a tab has no count, or a character has no code"
            }
            Self::Retired => "the message has a retired id",
        })
    }
}

impl std::error::Error for Error {}

#[cfg(test)]
mod tests {
    use super::*;

    #[test]
    fn numbers_there_and_back() {
        for number in 0..=255 {
            let error = Error::from_number(number);
            let used = (1..=17).contains(&number) && number != 12;
            assert_eq!(error.is_some(), used, "{number}");
            assert_eq!(error.map_or(number, Error::number), number);
        }
    }

    #[test]
    fn every_number_has_words_of_its_own() {
        let errors = || (1..=17).filter_map(Error::from_number);
        let words: std::collections::HashSet<String> = errors().map(|e| e.to_string()).collect();
        assert_eq!(words.len(), 16);
    }

    #[test]
    fn zero_is_no_refusal() {
        assert_eq!(accepted(0, "value"), Ok("value"));
        assert_eq!(accepted(5, "value"), Err(Error::CheckSequence));
    }

    #[test]
    #[should_panic(expected = "different versions")]
    fn unknown_numbers_are_not_taken_for_others() {
        accepted(12, ()).unwrap_err();
    }
}
