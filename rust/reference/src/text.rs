//! Weather texts in an information frame's data, 001 §5.2 and RULES 'Weather texts'.

use crate::messages::{OUTPUT_TOO_SHORT, OUT_OF_RANGE};

/// Bytes in front of the packed codes (001 §5.2.2.1).
pub const HEADER_LENGTH: usize = 4;
/// The product that is text (001 §5.2.2.1).
pub const PRODUCT: u32 = 413;
/// What five, six and four bits hold at most (001 §5.2.2.1).
pub const HOURS_MAX: u8 = 31;
pub const MINUTES_MAX: u8 = 63;
pub const PADDING_MAX: u8 = 15;

/// The code that ends a text (RULES 'Weather texts').
pub const END: u8 = 0;
/// The code whose next six bits count spaces (RULES 'Weather texts').
pub const TAB: u8 = 28;
/// The character of each code, 0 for one that has none: the end, the tab and the
/// two that are not text (RULES 'Weather texts').
static CHARACTERS: [u8; 64] =
    *b"\0ABCDEFGHIJKLMNOPQRSTUVWXYZ\0\0\x1E\n\0 !\"#$%&'()*+,-./0123456789:;<=>?";
/// The code of each character, 0 for one that the list lacks.
static CODES: [u8; 256] = codes();

/// The numbers of RULES 'Numbers'.
pub const NO_HEADER: u8 = 14;
pub const NOT_TEXT: u8 = 15;
pub const NO_CHARACTER: u8 = 16;

/// What the header carries, and how many bytes of text stand in the room.
#[derive(Debug, PartialEq, Eq, Clone, Copy)]
pub struct Text {
    pub hours: u8,
    pub minutes: u8,
    pub padding: u8,
    pub length: usize,
}

/// Reads the text of an information frame's data to the start of `out`. Checks
/// 14, 15, 16, 9 in this order (RULES 'Weather texts'); on a refusal `out` is left
/// as it was, on success only the first `length` bytes of `out` change.
pub fn read(data: &[u8], out: &mut [u8]) -> Result<Text, u8> {
    let (header, packed) = data.split_first_chunk().ok_or(NO_HEADER)?;
    let header = u32::from_be_bytes(*header);
    // Flags, product, segmentation bit and time option (001 §5.2.2.1).
    if header >> 15 != PRODUCT << 3 {
        return Err(NOT_TEXT);
    }
    // The length comes first: a refusal must leave the room unchanged.
    let length = expanded_length(packed)?;
    let room = out.get_mut(..length).ok_or(OUTPUT_TOO_SHORT)?;
    expand(packed, room);
    Ok(Text {
        hours: (header >> 10) as u8 & HOURS_MAX,
        minutes: (header >> 4) as u8 & MINUTES_MAX,
        padding: header as u8 & PADDING_MAX,
        length,
    })
}

/// Writes a text with its header to the start of `out`: how many bytes. Checks 8,
/// 16, 9 in this order (RULES 'Weather texts'); on a refusal `out` is left as it
/// was, on success nothing behind the written bytes changes.
pub fn write(
    hours: u8,
    minutes: u8,
    padding: u8,
    text: &[u8],
    out: &mut [u8],
) -> Result<usize, u8> {
    if hours > HOURS_MAX || minutes > MINUTES_MAX || padding > PADDING_MAX {
        return Err(OUT_OF_RANGE);
    }
    if text.iter().any(|&character| code(character) == END) {
        return Err(NO_CHARACTER);
    }
    // One code more, the end. Four codes are three bytes, fewer a byte each.
    let codes = text.len() + 1;
    let length = HEADER_LENGTH + codes - codes / 4;
    let out = out.get_mut(..length).ok_or(OUTPUT_TOO_SHORT)?;
    let (header, packed) = out.split_at_mut(HEADER_LENGTH);
    let time = u32::from(hours) << 10 | u32::from(minutes) << 4;
    let word = PRODUCT << 18 | time | u32::from(padding);
    header.copy_from_slice(&word.to_be_bytes());
    let fours = text.chunks_exact(4);
    let (threes, last) = packed.split_at_mut(text.len() / 4 * 3);
    last.copy_from_slice(&pack(fours.remainder())[..last.len()]);
    for (three, four) in threes.chunks_exact_mut(3).zip(fours) {
        three.copy_from_slice(&pack(four));
    }
    Ok(length)
}

/// Whether data are of the closed form: a text's header, codes of characters
/// without tabs, one code 0, and zero bits up to the byte's end
/// (RULES 'Weather texts'). Looks at the bits itself, without `read` and `write`.
pub fn is_closed(data: &[u8]) -> bool {
    // No flag, product 413, not segmented, time option 0 (001 §5.2.2.1).
    let [0x06, 0x74, 0x00..=0x7F, _, packed @ ..] = data else {
        return false;
    };
    let eight = |byte: &u8| [7, 6, 5, 4, 3, 2, 1, 0].map(|place| byte >> place & 1);
    let mut bits = packed.iter().flat_map(eight);
    loop {
        let mut code = 0;
        for _ in 0..6 {
            let Some(bit) = bits.next() else {
                return false;
            };
            code = code << 1 | bit;
        }
        match code {
            0 => break,
            27 | 28 | 31 => return false,
            _ => {}
        }
    }
    // With eight bits left there would be a byte too many.
    bits.by_ref().take(7).all(|bit| bit == 0) && bits.next().is_none()
}

/// How long the text is with its tabs expanded. Checks 16.
fn expanded_length(packed: &[u8]) -> Result<usize, u8> {
    // A length that is too much for the type is too much for any room.
    let mut length: usize = 0;
    let mut codes = Codes::of(packed);
    loop {
        if codes.held == 0 {
            let count = codes.fours().count();
            codes.skip_fours(count);
            length = length.saturating_add(4 * count);
        }
        let more = match codes.next() {
            None | Some(END) => return Ok(length),
            Some(TAB) => codes.next().ok_or(NO_CHARACTER)?,
            Some(code) if character(code) == 0 => return Err(NO_CHARACTER),
            Some(_) => 1,
        };
        length = length.saturating_add(more.into());
    }
}

/// Writes the text to a room of exactly its length.
fn expand(packed: &[u8], room: &mut [u8]) {
    let mut at = 0;
    let mut codes = Codes::of(packed);
    loop {
        if codes.held == 0 {
            let mut count = 0;
            for (place, four) in room[at..].chunks_exact_mut(4).zip(codes.fours()) {
                place.copy_from_slice(&four);
                count += 1;
            }
            codes.skip_fours(count);
            at += 4 * count;
        }
        match codes.next() {
            None | Some(END) => return,
            Some(TAB) => {
                let spaces = codes.next().map_or(0, usize::from);
                room[at..at + spaces].fill(b' ');
                at += spaces;
            }
            Some(code) => {
                room[at] = character(code);
                at += 1;
            }
        }
    }
}

/// The codes of packed bytes one by one, high bit first (001 §5.2.2.2). Leftover
/// bits are not read.
struct Codes<'a> {
    bytes: &'a [u8],
    /// The last `held` bits of these are still to be read.
    bits: u32,
    held: u32,
}

impl<'a> Codes<'a> {
    fn of(bytes: &'a [u8]) -> Self {
        let (bits, held) = (0, 0);
        Self { bytes, bits, held }
    }

    /// At a byte's start: the characters from here on, four of every three bytes,
    /// as long as each code has one.
    fn fours(&self) -> impl Iterator<Item = [u8; 4]> + 'a {
        let fours = self.bytes.chunks_exact(3).map(four_characters);
        fours.take_while(|four| !four.contains(&0))
    }

    /// Goes on behind so many of them.
    fn skip_fours(&mut self, count: usize) {
        self.bytes = &self.bytes[3 * count..];
    }
}

impl Iterator for Codes<'_> {
    type Item = u8;

    fn next(&mut self) -> Option<u8> {
        if self.held < 6 {
            let (&byte, rest) = self.bytes.split_first()?;
            self.bytes = rest;
            self.bits = self.bits << 8 | u32::from(byte);
            self.held += 8;
        }
        self.held -= 6;
        Some((self.bits >> self.held) as u8 & 0x3F)
    }
}

/// The characters of the four codes in three bytes, 0 for a code that has none.
fn four_characters(three: &[u8]) -> [u8; 4] {
    let word = u32::from_be_bytes([0, three[0], three[1], three[2]]);
    [18, 12, 6, 0].map(|place| character((word >> place) as u8 & 0x3F))
}

/// Packs up to four characters' codes, zero bits behind them.
fn pack(characters: &[u8]) -> [u8; 3] {
    let mut word = 0;
    for (&character, place) in characters.iter().zip([18, 12, 6, 0]) {
        word |= u32::from(code(character)) << place;
    }
    let [_, three @ ..] = word.to_be_bytes();
    three
}

fn character(code: u8) -> u8 {
    CHARACTERS[usize::from(code)]
}

fn code(character: u8) -> u8 {
    CODES[usize::from(character)]
}

/// `CHARACTERS` the other way round.
const fn codes() -> [u8; 256] {
    let mut codes = [0; 256];
    let mut code = 0;
    while code < CHARACTERS.len() {
        if CHARACTERS[code] != 0 {
            codes[CHARACTERS[code] as usize] = code as u8;
        }
        code += 1;
    }
    codes
}

#[cfg(test)]
mod tests;
