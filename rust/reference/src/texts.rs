//! Made-up weather texts, and data of information frames that carry such: the
//! same for the same seed.

use crate::text::{END, HEADER_LENGTH, TAB};
use crate::xorshift::Xorshift;

/// The header of 001 §5.2.4: 16 hours, 25 minutes, padding 0.
pub const HEADER: [u8; HEADER_LENGTH] = [0x06, 0x74, 0x41, 0x90];
/// Codes in the 422 bytes of data that a frame has at most.
pub const CODES_MAX: usize = 557;

/// The code of a character (RULES 'Weather texts').
pub fn code_of(character: u8) -> Option<u8> {
    match character {
        b'A'..=b'Z' => Some(character - b'A' + 1),
        0x1E => Some(29),
        b'\n' => Some(30),
        b' '..=b'?' => Some(character),
        _ => None,
    }
}

/// The header of 001 §5.2.4, then codes, high bit first, and zero bits up to the
/// byte's end.
pub fn packed(codes: &[u8]) -> Vec<u8> {
    let bits = 6 * codes.len();
    let mut data = HEADER.to_vec();
    data.resize(HEADER_LENGTH + bits.div_ceil(8), 0);
    for at in 0..bits {
        let bit = codes[at / 6] >> (5 - at % 6) & 1;
        data[HEADER_LENGTH + at / 8] |= bit << (7 - at % 8);
    }
    data
}

/// Characters that can be written.
pub fn any_text(random: &mut Xorshift, length: usize) -> Vec<u8> {
    let all: Vec<u8> = (0..=u8::MAX).filter(|&c| code_of(c).is_some()).collect();
    (0..length).map(|_| all[random.below(all.len())]).collect()
}

/// Codes of characters.
pub fn any_codes(random: &mut Xorshift, count: usize) -> Vec<u8> {
    let text = any_text(random, count);
    text.into_iter().filter_map(code_of).collect()
}

/// Data as each of 001 §5.2.4 has them: 67 bytes, among their codes a tab of five
/// spaces.
pub fn forecast(random: &mut Xorshift) -> Vec<u8> {
    let (first, second) = (any_codes(random, 53), any_codes(random, 29));
    packed(&[&first[..], &[TAB, 5], &second].concat())
}

/// Data that are read, of 4 to 422 bytes, at any time: tabs among the characters,
/// and now and then a code 0 with anything behind it.
pub fn whole(random: &mut Xorshift) -> Vec<u8> {
    let longest = [4, 100, CODES_MAX][random.below(3)];
    let end = random.below(longest + 1);
    let mut codes = Vec::new();
    while codes.len() < end {
        if random.below(16) == 0 && codes.len() + 2 <= end {
            codes.extend([TAB, random.below(64) as u8]);
        } else {
            codes.extend(any_codes(random, 1));
        }
    }
    if random.below(4) == 0 && end < longest {
        codes.push(END);
        let behind = random.below(longest - end);
        codes.extend(random.message(behind).iter().map(|byte| byte % 64));
    }
    let mut data = packed(&codes);
    data[2] = random.below(0x80) as u8;
    data[3] = random.below(0x100) as u8;
    data
}

/// Whole data with a bit flipped, in the header or behind it, cut off or grown, or
/// a header with random bytes behind it. They may be read all the same.
pub fn damaged(random: &mut Xorshift) -> Vec<u8> {
    let mut data = whole(random);
    let length = data.len();
    match random.below(5) {
        0 => data.truncate(random.below(length)),
        1 => data.push(random.below(0x100) as u8),
        2 => data[random.below(HEADER_LENGTH)] ^= 1 << random.below(8),
        3 => data[random.below(length)] ^= 1 << random.below(8),
        _ => data[HEADER_LENGTH..].copy_from_slice(&random.message(length - HEADER_LENGTH)),
    }
    data
}
