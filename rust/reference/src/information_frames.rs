//! Information frames in an uplink's payload, 001 §4 and RULES 'Uplink payloads'.

use std::ops::Range;

use crate::messages::{OUT_OF_RANGE, PAYLOAD_LENGTH, WRONG_LENGTH};

/// Bytes in front of the application data (001 §4.1.1).
pub const HEADER_LENGTH: usize = 8;
/// Application data (001 §4.1.2).
pub const DATA_LENGTH: usize = PAYLOAD_LENGTH - HEADER_LENGTH;
/// Length and type of a frame, in front of its data (001 Table 17).
pub const FRAME_HEADER_LENGTH: usize = 2;
/// The longest data of a frame (001 §4.2.1).
pub const FRAME_DATA_MAX: usize = DATA_LENGTH - FRAME_HEADER_LENGTH;
pub const FRAME_TYPE_MAX: u8 = 15;

/// Where the header says whether the application data is valid
/// (RULES 'Uplink payloads').
pub const VALID_AT: usize = 6;
pub const VALID: u8 = 1 << 5;

/// The numbers of RULES 'Numbers'.
pub const NO_ROOM: u8 = 9;
pub const PAST_THE_DATA: u8 = 11;
pub const NO_SUCH_FRAME: u8 = 13;

#[derive(Debug, PartialEq, Eq, Clone)]
pub struct Frame {
    pub frame_type: u8,
    pub reserved: u8,
    /// Where the payload has the frame's data.
    pub data: Range<usize>,
}

/// The payload's frames in order. Checks 7, then 11 at each header
/// (RULES 'Uplink payloads').
pub fn list(payload: &[u8]) -> Result<Vec<Frame>, u8> {
    let mut frames = Vec::new();
    walk(payload, |frame| frames.push(frame))?;
    Ok(frames)
}

/// How many frames, and where in the application data their list ends.
pub fn count(payload: &[u8]) -> Result<(usize, usize), u8> {
    let mut count = 0;
    let end = walk(payload, |_| count += 1)?;
    Ok((count, end))
}

/// Hands out each frame, and answers where the list ends.
fn walk(payload: &[u8], mut each: impl FnMut(Frame)) -> Result<usize, u8> {
    if payload.len() != PAYLOAD_LENGTH {
        return Err(WRONG_LENGTH);
    }
    let mut end = 0;
    if payload[VALID_AT] & VALID != 0 {
        while let Some(frame) = frame_at(payload, end)? {
            end = frame.data.end - HEADER_LENGTH;
            each(frame);
        }
    }
    Ok(end)
}

/// Where in the application data the list ends.
pub fn end(frames: &[Frame]) -> usize {
    frames
        .last()
        .map_or(0, |frame| frame.data.end - HEADER_LENGTH)
}

/// The n-th frame, from 0. Checks 13 behind those of the list (RULES 'Numbers').
pub fn nth(payload: &[u8], n: usize) -> Result<Frame, u8> {
    let (mut number, mut found) = (0, None);
    walk(payload, |frame| {
        if number == n {
            found = Some(frame);
        }
        number += 1;
    })?;
    found.ok_or(NO_SUCH_FRAME)
}

/// Adds a frame behind the others. Checks 8, then 9, behind those of the list;
/// a refusal leaves the payload unchanged (RULES 'Adding a frame').
pub fn add(payload: &mut [u8], frame_type: u8, data: &[u8]) -> Result<(), u8> {
    let end = walk(payload, |_| ())?;
    if frame_type > FRAME_TYPE_MAX || !(1..=FRAME_DATA_MAX).contains(&data.len()) {
        return Err(OUT_OF_RANGE);
    }
    if end + FRAME_HEADER_LENGTH + data.len() > DATA_LENGTH {
        return Err(NO_ROOM);
    }
    payload[VALID_AT] |= VALID;
    let (header, rest) = payload[HEADER_LENGTH + end..].split_at_mut(FRAME_HEADER_LENGTH);
    header.copy_from_slice(&frame_header(frame_type, data.len()));
    let (place, behind) = rest.split_at_mut(data.len());
    place.copy_from_slice(data);
    behind.fill(0);
    Ok(())
}

/// The frame at this byte of the application data. Fewer than two bytes or
/// length 0 end the list (001 §4.1.2).
fn frame_at(payload: &[u8], at: usize) -> Result<Option<Frame>, u8> {
    let [length_high, others, ..] = payload[HEADER_LENGTH + at..] else {
        return Ok(None);
    };
    let length = usize::from(length_high) << 1 | usize::from(others >> 7);
    if length == 0 {
        return Ok(None);
    }
    if at + FRAME_HEADER_LENGTH + length > DATA_LENGTH {
        return Err(PAST_THE_DATA);
    }
    let start = HEADER_LENGTH + at + FRAME_HEADER_LENGTH;
    Ok(Some(Frame {
        frame_type: others & 0xF,
        reserved: others >> 4 & 0b111,
        data: start..start + length,
    }))
}

/// Nine bits of length, three reserved, four of type (001 Table 17).
fn frame_header(frame_type: u8, length: usize) -> [u8; FRAME_HEADER_LENGTH] {
    ((length as u16) << 7 | u16::from(frame_type)).to_be_bytes()
}

#[cfg(test)]
mod tests;
