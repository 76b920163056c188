//! Collecting messages from a stream of bytes, 001 §2.2.1 and RULES 'Collecting'.

use crate::fcs::check_sequence;
use crate::framing::{ESCAPE, ESCAPE_FLIP, FLAG, MESSAGE_MAX};

/// The longest message and its check sequence (RULES 'Collecting').
pub const ROOM: usize = MESSAGE_MAX + 2;

/// The numbers of RULES 'Numbers'.
pub const BAD_ESCAPE: u8 = 1;
pub const ESCAPE_BEFORE_FLAG: u8 = 2;
pub const TOO_LONG: u8 = 3;
pub const TOO_SHORT: u8 = 4;
pub const SEQUENCE_DIFFERS: u8 = 5;

const ESCAPED_ESCAPE: u8 = ESCAPE ^ ESCAPE_FLIP;
const ESCAPED_FLAG: u8 = FLAG ^ ESCAPE_FLIP;

#[derive(Debug, PartialEq, Eq, Clone, Copy)]
pub enum Answer<'a> {
    /// Nothing to say yet.
    None,
    /// Accepted: the message without its check sequence.
    Message(&'a [u8]),
    /// Refused with this number. The position is how many bytes since the opening
    /// flag, escapes counted, had been taken when the fault was met.
    Refused { number: u8, position: usize },
}

#[derive(Clone, Copy)]
enum Phase {
    LeadIn,
    Clear,
    /// The last byte was a control escape.
    Escape,
    /// This number was met: the bytes up to the flag do not count.
    Fault(u8),
}

pub struct Collector {
    room: [u8; ROOM],
    count: usize,
    /// Bytes since the opening flag as they came, up to a fault that was met.
    stuffed: usize,
    phase: Phase,
}

impl Collector {
    pub fn new() -> Self {
        Self {
            room: [0; ROOM],
            count: 0,
            stuffed: 0,
            phase: Phase::LeadIn,
        }
    }

    /// Takes the next byte of the stream; only a flag is answered.
    #[inline]
    pub fn push(&mut self, byte: u8) -> Answer<'_> {
        if byte == FLAG {
            return self.close();
        }
        match (self.phase, byte) {
            (Phase::LeadIn | Phase::Fault(_), _) => return Answer::None,
            (Phase::Clear, ESCAPE) => self.phase = Phase::Escape,
            (Phase::Clear, _) => self.collect(byte),
            (Phase::Escape, ESCAPED_ESCAPE | ESCAPED_FLAG) => {
                self.phase = Phase::Clear;
                self.collect(byte ^ ESCAPE_FLIP);
            }
            (Phase::Escape, _) => self.phase = Phase::Fault(BAD_ESCAPE),
        }
        self.stuffed += 1;
        Answer::None
    }

    /// Takes bytes until one is answered: how many, and the answer. As `push` for
    /// each, but what stands between two flags or escapes is copied whole.
    pub fn feed(&mut self, bytes: &[u8]) -> (usize, Answer<'_>) {
        let mut taken = 0;
        loop {
            taken += self.fill(&bytes[taken..]);
            if taken == bytes.len() {
                return (taken, Answer::None);
            }
            taken += 1;
            // Asked beforehand: an answer that is lent cannot be looked at and let go.
            if self.is_quiet() {
                self.phase = Phase::Clear;
            } else {
                return (taken, self.close());
            }
        }
    }

    /// Whether a flag is not answered.
    fn is_quiet(&self) -> bool {
        matches!(
            (self.phase, self.count),
            (Phase::LeadIn, _) | (Phase::Clear, 0)
        )
    }

    /// Takes the bytes before the first flag, or all where there is none: how
    /// many. None of them is answered.
    pub fn fill(&mut self, bytes: &[u8]) -> usize {
        let mut rest = bytes;
        while let [first, behind @ ..] = rest {
            match (self.phase, *first) {
                (_, FLAG) => break,
                (Phase::LeadIn | Phase::Fault(_), _) => {
                    let flag = rest.iter().position(|&byte| byte == FLAG);
                    rest = &rest[flag.unwrap_or(rest.len())..];
                }
                (Phase::Clear, ESCAPE) | (Phase::Escape, _) => {
                    self.push(*first);
                    rest = behind;
                }
                (Phase::Clear, _) => {
                    let special = rest.iter().position(|&byte| byte == FLAG || byte == ESCAPE);
                    let (plain, others) = rest.split_at(special.unwrap_or(rest.len()));
                    self.collect_all(plain);
                    rest = others;
                }
            }
        }
        bytes.len() - rest.len()
    }

    /// Of bytes that do not fit, the one behind the last that does is the fault.
    fn collect_all(&mut self, bytes: &[u8]) {
        let places = &mut self.room[self.count..];
        if let Some(places) = places.get_mut(..bytes.len()) {
            places.copy_from_slice(bytes);
            self.count += bytes.len();
            self.stuffed += bytes.len();
        } else {
            self.stuffed += places.len() + 1;
            self.phase = Phase::Fault(TOO_LONG);
        }
    }

    #[inline]
    fn collect(&mut self, byte: u8) {
        match self.room.get_mut(self.count) {
            Some(place) => {
                *place = byte;
                self.count += 1;
            }
            None => self.phase = Phase::Fault(TOO_LONG),
        }
    }

    /// Answers what came before the flag and opens the next.
    fn close(&mut self) -> Answer<'_> {
        let phase = std::mem::replace(&mut self.phase, Phase::Clear);
        let count = std::mem::take(&mut self.count);
        let position = std::mem::take(&mut self.stuffed);
        let refused = |number| Answer::Refused { number, position };
        match phase {
            Phase::LeadIn => Answer::None,
            Phase::Clear => check(&self.room[..count]).unwrap_or_else(refused),
            Phase::Escape => refused(ESCAPE_BEFORE_FLAG),
            Phase::Fault(number) => refused(number),
        }
    }
}

impl Default for Collector {
    fn default() -> Self {
        Self::new()
    }
}

/// Checks 4, then 5; nothing between two flags is no answer.
pub(crate) fn check(unstuffed: &[u8]) -> Result<Answer<'_>, u8> {
    match unstuffed {
        [] => Ok(Answer::None),
        [_] | [_, _] => Err(TOO_SHORT),
        [message @ .., low, high] => {
            if check_sequence(message) == u16::from_le_bytes([*low, *high]) {
                Ok(Answer::Message(message))
            } else {
                Err(SEQUENCE_DIFFERS)
            }
        }
    }
}

/// An answer kept, with the offset of its closing flag in the stream.
#[derive(Debug, PartialEq, Eq, Clone)]
pub struct Kept {
    pub at: usize,
    pub number: u8,
    /// Empty unless the number is 0.
    pub message: Vec<u8>,
    /// That of a refusal, else 0.
    pub position: usize,
}

impl Kept {
    pub fn new(at: usize, answer: Answer) -> Option<Self> {
        let (number, message, position) = match answer {
            Answer::None => return None,
            Answer::Message(message) => (0, message.to_vec(), 0),
            Answer::Refused { number, position } => (number, Vec::new(), position),
        };
        Some(Self {
            at,
            number,
            message,
            position,
        })
    }
}

/// Every answer that a whole stream gives.
pub fn answers(stream: &[u8]) -> Vec<Kept> {
    let mut collector = Collector::new();
    stream
        .iter()
        .enumerate()
        .filter_map(|(at, &byte)| Kept::new(at, collector.push(byte)))
        .collect()
}

#[cfg(test)]
mod tests;
