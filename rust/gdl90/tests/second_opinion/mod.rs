//! Frames and their answers, written out by hand; and a second opinion on what a
//! test feeds from a fresh state: read as a whole recording, the same bytes have the
//! same answers (RULES 'Recordings').

use gdl90::{Error, Recording, Refusal};

pub type Answer<'a> = Result<&'a [u8], Refusal>;

pub const fn refused(error: Error, position: usize) -> Answer<'static> {
    Err(Refusal { error, position })
}

/// The message and check sequence of 001 §2.2.4.
pub const HEARTBEAT: [u8; 9] = [0x00, 0x81, 0x41, 0xDB, 0xD0, 0x08, 0x02, 0xB3, 0x8B];
pub const LEAD_IN: [u8; 3] = [0x07, 0x7D, 0x00];

/// What stands between two flags, and its answer: each number, and each place that
/// a position can say (RULES 'Collecting').
pub const FRAMES: [(&[u8], Answer); 14] = [
    (&HEARTBEAT, Ok(&[0x00, 0x81, 0x41, 0xDB, 0xD0, 0x08, 0x02])),
    (&[0x02, 0x7D, 0x00, 0x01], refused(Error::BadEscape, 3)),
    (&[0x7D, 0x7D, 0x5E, 0x7D], refused(Error::BadEscape, 2)),
    (&[0x7D, 0x5E, 0x7D, 0x5E, 0x00], Ok(&[0x7E])),
    (&[0x7D], refused(Error::EscapeBeforeFlag, 1)),
    (&[0x7D, 0x5D, 0x7D], refused(Error::EscapeBeforeFlag, 3)),
    (&[0x55; 441], refused(Error::FrameTooLong, 439)),
    (&[0x00; 438], Ok(&[0x00; 436])),
    (&[0x07], refused(Error::FrameTooShort, 1)),
    (&[0x07, 0x07], refused(Error::FrameTooShort, 2)),
    (&[0x7D, 0x5E, 0x7D, 0x5E], refused(Error::FrameTooShort, 4)),
    (&[0x7D, 0x5E, 0x01, 0x00], refused(Error::CheckSequence, 4)),
    (&[0x55; 438], refused(Error::CheckSequence, 438)),
    (&[0x07, 0x07, 0x00], Ok(&[0x07])),
];

/// The answers of these frames.
pub fn expected() -> Vec<Answer<'static>> {
    FRAMES.map(|(_, answer)| answer).to_vec()
}

/// These frames, with so many flags before the first, between two, and behind the
/// last.
pub fn recording(flags: usize) -> Vec<u8> {
    let flags = [0x7E].repeat(flags);
    let frames = FRAMES.map(|(bytes, _)| [bytes, &flags].concat());
    [&flags[..], &frames.concat()].concat()
}

/// The same answers, each message as a slice.
pub fn lent<M: AsRef<[u8]>>(answers: &[Result<M, Refusal>]) -> Vec<Answer<'_>> {
    let answers = answers.iter().map(Result::as_ref);
    answers
        .map(|answer| answer.map(M::as_ref).map_err(|refusal| *refusal))
        .collect()
}

/// Holds the answers to all bytes that were fed against it.
#[track_caller]
pub fn assert_second_opinion<M: AsRef<[u8]>>(fed: &[u8], answers: &[Result<M, Refusal>]) {
    let recording = Recording::read(fed);
    let second: Vec<_> = recording.answers().collect();
    assert_eq!(lent(answers), second, "{fed:02X?}");
}
