//! Collecting from a whole recording, without a state: cut at the flags, each part
//! unstuffed and checked (RULES 'Recordings').

use std::slice::Iter;

use crate::collecting::{check, Answer, BAD_ESCAPE, ESCAPE_BEFORE_FLAG, ROOM, TOO_LONG};
use crate::framing::{ESCAPE, ESCAPE_FLIP, FLAG, OUTPUT_TOO_SHORT};

/// How many numbers an entry has in the list: its number, its position, its
/// message's length.
pub const ENTRY_LENGTH: usize = 3;

/// What one part is answered.
#[derive(Debug, PartialEq, Eq, Clone, Copy)]
pub struct Entry {
    pub number: u8,
    /// That of a refusal, else 0 (RULES 'Collecting').
    pub position: usize,
    /// That of the message, 0 with a refusal.
    pub length: usize,
}

impl Entry {
    pub fn numbers(&self) -> [usize; ENTRY_LENGTH] {
        [self.number.into(), self.position, self.length]
    }
}

#[derive(Debug, PartialEq, Eq, Clone, Copy)]
pub enum Read {
    /// How many entries stand at the start of the list.
    Entries(usize),
    /// Refused with this number; list and messages are unchanged.
    Refused(u8),
}

/// Writes the entries from the start of the list on, and the messages, each behind
/// the one before, from the start of `messages` on. 9 for fewer places than entries,
/// or fewer bytes than the messages have.
pub fn read(recording: &[u8], list: &mut [usize], messages: &mut [u8]) -> Read {
    let places = list.len() / ENTRY_LENGTH;
    // So much is enough for every recording of this length (RULES 'Recordings').
    let surely_fits = places >= recording.len() / 2 && messages.len() >= recording.len();
    // The need comes first: a refusal must leave what is lent unchanged.
    if !surely_fits {
        let (entries, bytes) = need(recording);
        if entries > places || bytes > messages.len() {
            return Read::Refused(OUTPUT_TOO_SHORT);
        }
    }
    Read::Entries(write(recording, list, messages))
}

/// The entries of a recording in order, and its messages, each behind the one
/// before.
pub fn collected(recording: &[u8]) -> (Vec<Entry>, Vec<u8>) {
    let (mut entries, mut messages) = (Vec::new(), Vec::new());
    for_each(recording, |entry, message| {
        entries.push(entry);
        messages.extend_from_slice(message);
    });
    (entries, messages)
}

/// How many entries a recording has, and how many bytes its messages.
fn need(recording: &[u8]) -> (usize, usize) {
    let (mut entries, mut bytes) = (0, 0);
    for_each(recording, |_, message| {
        entries += 1;
        bytes += message.len();
    });
    (entries, bytes)
}

/// Takes memory that is enough; answers how many entries were written.
fn write(recording: &[u8], list: &mut [usize], messages: &mut [u8]) -> usize {
    let (mut entries, mut bytes) = (0, 0);
    let mut places = list.chunks_exact_mut(ENTRY_LENGTH);
    for_each(recording, |entry, message| {
        let place = places.next().expect("a place for each entry");
        place.copy_from_slice(&entry.numbers());
        entries += 1;
        messages[bytes..bytes + message.len()].copy_from_slice(message);
        bytes += message.len();
    });
    entries
}

/// Hands on each entry with its message, which is empty with a refusal.
fn for_each(recording: &[u8], mut take: impl FnMut(Entry, &[u8])) {
    let mut room = [0; ROOM];
    for part in parts(recording) {
        let (number, position, message) = match answer(part, &mut room) {
            Answer::None => continue,
            Answer::Message(message) => (0, 0, message),
            Answer::Refused { number, position } => (number, position, &[][..]),
        };
        let entry = Entry {
            number,
            position,
            length: message.len(),
        };
        take(entry, message);
    }
}

/// What stands between two flags. The lead-in has no flag before it, and what
/// comes last none behind it.
fn parts(recording: &[u8]) -> impl Iterator<Item = &[u8]> {
    let mut parts = recording.split(|&byte| byte == FLAG);
    parts.next();
    parts.next_back();
    parts
}

/// What a part is answered, its bytes unstuffed in the room.
fn answer<'a>(part: &[u8], room: &'a mut [u8; ROOM]) -> Answer<'a> {
    let mut bytes = part.iter();
    let unstuffed = unstuff(&mut bytes, room);
    // With 1 and 3 those behind the fault are left; with 2, 4 and 5 all are taken.
    let position = part.len() - bytes.len();
    let refused = |number| Answer::Refused { number, position };
    unstuffed.and_then(check).unwrap_or_else(refused)
}

/// Takes bytes up to the first fault: 1, 2 or 3.
fn unstuff<'a>(bytes: &mut Iter<u8>, room: &'a mut [u8; ROOM]) -> Result<&'a [u8], u8> {
    let mut count = 0;
    while let Some(&byte) = bytes.next() {
        let clear = match byte {
            ESCAPE => match bytes.next() {
                Some(escaped @ (0x5D | 0x5E)) => escaped ^ ESCAPE_FLIP,
                Some(_) => return Err(BAD_ESCAPE),
                None => return Err(ESCAPE_BEFORE_FLAG),
            },
            _ => byte,
        };
        *room.get_mut(count).ok_or(TOO_LONG)? = clear;
        count += 1;
    }
    Ok(&room[..count])
}

#[cfg(test)]
mod tests;
