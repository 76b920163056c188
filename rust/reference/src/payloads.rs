//! Uplink payloads: the samples of 001, and made-up ones, whole and damaged, the
//! same for the same seed.

use crate::information_frames::{
    end, list, DATA_LENGTH, FRAME_DATA_MAX, FRAME_HEADER_LENGTH, HEADER_LENGTH, VALID, VALID_AT,
};
use crate::messages::PAYLOAD_LENGTH;
use crate::recording::flip_bits;
use crate::xorshift::Xorshift;

/// First of the two graphic samples of 001 §5.1.4, without the zeros behind it.
const GRAPHIC_1: &str = "\
    130000FC000084A570308950111A53120930110A23451B0A0918090A1B0C1D0607061D041B0A01082080\
    00FC000084A3AE00090A1314150617061D04130A01080112131C0D06270615140B0A01000112131C0D06\
    270615140B0A010000090A1314150617061D04130A0108148000FC000084A1EC00090A1B0C1D0607061D\
    041B0A010808110A23451B0A091018111A53120920308930130000FC000084AAB7308950111A53120930\
    110A23451B0A0918090A1B0C1D0607061D041B0A0108208000FC000084A8F500090A1314150617061D04\
    130A01080112131C0D06270615140B0A01000112131C0D06270615140B0A010000090A1314150617061D\
    04130A0108148000FC000084A73300090A1B0C1D0607061D041B0A010808110A23451B0A091018111A53\
    120920308930130000FC000084AFFD308950111A53120930110A23451B0A0918090A1B0C1D0607061D04\
    1B0A0108";

/// The second.
const GRAPHIC_2: &str = "\
    208000FC000084AE3B00090A1314150617061D04130A01080112131C0D06270615140B0A01000112131C\
    0D06270615140B0A010000090A1314150617061D04130A0108148000FC000084AC7900090A1B0C1D0607\
    061D041B0A010808110A23451B0A091018111A53120920308930040000FC000004B1BDF0040000FC0000\
    04AFFBD0040000FC000004AE39D0040000FC000004AC77D0040000FC000004AAB5D0040000FC000004A8\
    F3D0040000FC000004A731D0040000FC000004A56FE0040000FC000004A3ADE0040000FC000004A1EBE0";

/// Sample of 001 §5.2.4, without the zeros behind it.
const TEXT: &str = "\
    2180067441905011A02D3305832DB0E70C1A04D832D71CF1D60C38C30D8B5204364CD806157C36C2008B\
    3B1CB079C146370D30C205920B0CCB5204364CD8130D4CB5C3D79D2180067441905011A02D0118832DB0\
    E70C1A04D832D71CF1D60C38C30D8B5204364CD806157C36C2008B3B1CB079C146370D30C205920B0CCB\
    5204364CD8130D4CB5C3D79D2180067441905011A02C5547832DB0E70C1A04D832D71CF1D60C38C30D8B\
    5204364CD806157C36C2008B3B1CB079C146370D30C205920B0CCB5204364CD8130D4CB5C3D79D218006\
    7441905011A02C14D4832DB0E70C1A04D832D71CF1D60C38C30D8B5204364CD806157C36C2008B3B1CB0\
    79C146370D30C205920B0CCB5204364CD8130D4CB5C3D79D2180067441905011A02C824F832DB0E70C1A\
    04D832D71CF1D60C38C30D8B5204364CD806157C36C2008B3B1CB079C146370D30C205920B0CCB520436\
    4CD8130D4CB5C3D79D";

/// Payloads with the application data printed in 001: two graphic samples, a
/// text sample.
pub fn samples_of_001() -> [Vec<u8>; 3] {
    [GRAPHIC_1, GRAPHIC_2, TEXT].map(|sample| valid(&from_hex(sample)))
}

fn from_hex(digits: &str) -> Vec<u8> {
    let digit = |digit: u8| (digit as char).to_digit(16).expect("a hex digit") as u8;
    let pairs = digits.as_bytes().chunks(2);
    pairs
        .map(|pair| digit(pair[0]) << 4 | digit(pair[1]))
        .collect()
}

/// A payload of valid application data: these bytes, and zeros behind them.
pub fn valid(data: &[u8]) -> Vec<u8> {
    let mut payload = vec![0; PAYLOAD_LENGTH];
    payload[VALID_AT] = VALID;
    payload[HEADER_LENGTH..][..data.len()].copy_from_slice(data);
    payload
}

/// A made-up payload that is not refused, with 0 to 141 frames.
pub fn whole(random: &mut Xorshift) -> Vec<u8> {
    let mut data = frames(random);
    let left = DATA_LENGTH - data.len();
    if random.below(2) == 0 {
        data.extend(ignored(random, left));
    }
    let mut payload = valid(&data);
    payload[..HEADER_LENGTH].copy_from_slice(&random.message(HEADER_LENGTH));
    match random.below(16) {
        0 => payload[VALID_AT] &= !VALID,
        _ => payload[VALID_AT] |= VALID,
    }
    payload
}

/// Frames, each directly behind the last, at times up to the last byte.
fn frames(random: &mut Xorshift) -> Vec<u8> {
    let room = [DATA_LENGTH, random.below(DATA_LENGTH)][random.below(2)];
    let longest = [1, 4, 40, FRAME_DATA_MAX][random.below(4)];
    let fills = random.below(2) == 0;
    let mut data = Vec::new();
    while data.len() + FRAME_HEADER_LENGTH < room {
        let left = room - data.len() - FRAME_HEADER_LENGTH;
        let length = if fills && left <= longest {
            left
        } else {
            1 + random.below(left.min(longest))
        };
        data.extend(any_header(random, length));
        data.extend(random.message(length));
    }
    data
}

/// A frame's header with any reserved bits and any type (001 Table 17).
fn any_header(random: &mut Xorshift, length: usize) -> [u8; FRAME_HEADER_LENGTH] {
    let reserved_and_type = random.below(0x80) as u8;
    let lowest = (length % 2) as u8;
    [(length / 2) as u8, lowest << 7 | reserved_and_type]
}

/// Bytes that no list goes into: the first two say length 0.
fn ignored(random: &mut Xorshift, length: usize) -> Vec<u8> {
    let mut bytes = random.message(length);
    if let [first, second, ..] = &mut bytes[..] {
        *first = 0;
        *second &= 0x7F;
    }
    bytes
}

/// A whole payload with bits of a frame's header flipped, the valid bit flipped,
/// cut off, grown, or random bytes. It may be accepted all the same.
pub fn damaged(random: &mut Xorshift) -> Vec<u8> {
    let mut payload = whole(random);
    match random.below(8) {
        0 => payload.truncate(random.below(PAYLOAD_LENGTH)),
        1 => {
            let more = 1 + random.below(4);
            payload.extend(random.message(more));
        }
        2 => payload[VALID_AT] ^= VALID,
        3 => payload = random.message(PAYLOAD_LENGTH),
        _ => flip_header(random, &mut payload),
    }
    payload
}

/// Flips bits in the header of a frame, or where the list ends.
fn flip_header(random: &mut Xorshift, payload: &mut [u8]) {
    let frames = list(payload).expect("a whole payload");
    let at = match frames.get(random.below(frames.len() + 1)) {
        Some(frame) => frame.data.start - FRAME_HEADER_LENGTH,
        None => HEADER_LENGTH + end(&frames),
    };
    // Behind the last frame there may be fewer than two bytes.
    let header = &mut payload[at..PAYLOAD_LENGTH.min(at + FRAME_HEADER_LENGTH)];
    if !header.is_empty() {
        flip_bits(random, header);
    }
}

#[cfg(test)]
mod tests {
    use super::*;
    use crate::information_frames::PAST_THE_DATA;
    use crate::messages::WRONG_LENGTH;

    const ROUNDS: usize = 5_000;

    #[test]
    fn whole_payloads_are_of_every_sort() {
        let mut random = Xorshift::new(30);
        let (mut counts, mut ends) = ([0; 142], [0; DATA_LENGTH + 1]);
        for _ in 0..ROUNDS {
            let frames = list(&whole(&mut random)).expect("a whole payload");
            counts[frames.len()] += 1;
            ends[end(&frames)] += 1;
        }
        for count in [0, 1, 2, 3, 10, 141] {
            assert!(counts[count] > 20, "{count} frames: {}", counts[count]);
        }
        // With two bytes, one and none left behind the list.
        for ended in &ends[DATA_LENGTH - 2..] {
            assert!(*ended > 50, "{ends:?}");
        }
    }

    #[test]
    fn damaged_payloads_have_every_answer() {
        let mut random = Xorshift::new(31);
        let mut answers = [0; 14];
        for _ in 0..ROUNDS {
            match list(&damaged(&mut random)) {
                Ok(_) => answers[0] += 1,
                Err(number) => answers[usize::from(number)] += 1,
            }
        }
        for number in [0, WRONG_LENGTH, PAST_THE_DATA] {
            assert!(answers[usize::from(number)] > 500, "{answers:?}");
        }
    }

    #[test]
    fn same_seed_same_payloads() {
        let make = |seed| {
            let mut random = Xorshift::new(seed);
            [whole(&mut random), damaged(&mut random)]
        };
        assert_eq!(make(32), make(32));
        assert_ne!(make(32), make(33));
    }
}
