//! The proved library and the reference find and add the same frames.

use std::hint::black_box;

use gdl90::raw::{payload_add, payload_list, payload_nth, PayloadListAnswer, PayloadNthAnswer};
use gdl90::{add_information_frame, information_frame, information_frames, Error};
use reference::information_frames::{
    self as reference_frames, FRAME_DATA_MAX, NO_ROOM, PAST_THE_DATA, VALID, VALID_AT,
};
use reference::messages::{OUT_OF_RANGE, PAYLOAD_LENGTH, WRONG_LENGTH};
use reference::payloads::{damaged, samples_of_001, valid, whole};
use reference::xorshift::Xorshift;

const ROUNDS: usize = 20_000;
/// Bytes on each side of the payload that no call may touch.
const GUARD: usize = 16;

/// The reference's answer in the shape of the C function's.
fn listed(payload: &[u8]) -> PayloadListAnswer {
    match reference_frames::list(payload) {
        Ok(frames) => PayloadListAnswer {
            number: 0,
            count: frames.len(),
            end: reference_frames::end(&frames),
        },
        Err(number) => PayloadListAnswer {
            number,
            ..PayloadListAnswer::default()
        },
    }
}

fn found(payload: &[u8], n: usize) -> PayloadNthAnswer {
    match reference_frames::nth(payload, n) {
        Ok(frame) => PayloadNthAnswer {
            number: 0,
            kind: frame.frame_type,
            reserved: frame.reserved,
            start: frame.data.start,
            length: frame.data.len(),
        },
        Err(number) => PayloadNthAnswer {
            number,
            ..PayloadNthAnswer::default()
        },
    }
}

/// The list, and every frame: those that there are, and numbers behind them.
fn assert_lists_agree(payload: &[u8]) {
    let answer = payload_list(payload);
    assert_eq!(answer, listed(payload), "{payload:02X?}");
    for n in (0..answer.count + 3).chain([usize::MAX]) {
        let frame = payload_nth(payload, n);
        assert_eq!(frame, found(payload, n), "frame {n} of {payload:02X?}");
    }
    assert_safe_lists_agree(payload);
}

/// Data are the very part of the payload, not a copy.
fn assert_safe_lists_agree(payload: &[u8]) {
    let (expected, frames) = match (reference_frames::list(payload), information_frames(payload)) {
        (Ok(expected), Ok(frames)) => (expected, frames),
        (expected, frames) => {
            let number = frames.map(|_| ()).map_err(Error::number);
            assert_eq!(number, expected.map(|_| ()), "{payload:02X?}");
            return;
        }
    };
    assert_eq!(frames.len(), expected.len());
    assert_eq!(frames.clone().count(), expected.len());
    for (n, (frame, expected)) in frames.zip(expected).enumerate() {
        assert_eq!(frame.kind, expected.frame_type);
        assert_eq!(frame.reserved, expected.reserved);
        assert_eq!(
            frame.data.as_ptr_range(),
            payload[expected.data].as_ptr_range()
        );
        assert_eq!(information_frame(payload, n), Ok(frame));
    }
}

/// Behind the last frame there is none, and an iterator counts down to it.
#[test]
fn safe_lists_end() {
    let payload = &samples_of_001()[0];
    let mut frames = information_frames(payload).unwrap();
    for left in (0..7).rev() {
        assert!(frames.next().is_some());
        assert_eq!(frames.len(), left);
    }
    assert_eq!(frames.next(), None);
    assert_eq!(frames.next(), None);
    assert_eq!(information_frame(payload, 7), Err(Error::NoSuchFrame));
    assert_eq!(information_frame(&[], 0), Err(Error::WrongLength));
}

/// Adds in lent memory with guards; a refusal changes nothing
/// (RULES 'Numbers').
fn assert_adds_agree(payload: &mut Vec<u8>, frame_type: u8, data: &[u8]) -> u8 {
    let mut lent = [&[0xA5; GUARD][..], payload, &[0x5A; GUARD]].concat();
    let mut expected = lent.clone();
    let place = GUARD..GUARD + payload.len();
    let number = payload_add(&mut lent[place.clone()], frame_type, data);
    let mut safely = payload.clone();
    let added = add_information_frame(&mut safely, frame_type, data);
    assert_eq!(added.map_or_else(Error::number, |()| 0), number);
    assert_eq!(safely, lent[place.clone()]);
    // The compiler may hold that a call leaves the guards as they are.
    let lent = black_box(lent);
    let expected_number =
        reference_frames::add(&mut expected[place.clone()], frame_type, data).err();
    let what = format!("type {frame_type}, {data:02X?} to {payload:02X?}");
    assert_eq!(number, expected_number.unwrap_or(0), "{what}");
    assert_eq!(lent, expected, "{what}");
    assert!(number == 0 || lent[place.clone()] == payload[..], "{what}");
    payload.copy_from_slice(&lent[place]);
    number
}

/// 001 §5.1.4 and §5.2.4: the frames are found, and adding them builds the same.
#[test]
fn samples_of_001_agree() {
    let samples = samples_of_001();
    let counts = samples
        .each_ref()
        .map(|payload| payload_list(payload).count);
    assert_eq!(counts, [7, 12, 5]);
    for payload in samples {
        assert_lists_agree(&payload);
        let mut built = vec![0; PAYLOAD_LENGTH];
        for n in 0..payload_list(&payload).count {
            let frame = payload_nth(&payload, n);
            let data = &payload[frame.start..][..frame.length];
            assert_eq!(assert_adds_agree(&mut built, frame.kind, data), 0);
        }
        assert_eq!(built, payload);
    }
}

#[test]
fn whole_payloads_agree() {
    let mut random = Xorshift::new(50);
    for _ in 0..ROUNDS {
        let payload = whole(&mut random);
        assert_eq!(payload_list(&payload).number, 0, "{payload:02X?}");
        assert_lists_agree(&payload);
    }
}

#[test]
fn damaged_payloads_agree() {
    let mut random = Xorshift::new(51);
    for _ in 0..ROUNDS {
        assert_lists_agree(&damaged(&mut random));
    }
}

#[test]
fn random_bytes_agree() {
    let mut random = Xorshift::new(52);
    for _ in 0..ROUNDS {
        assert_lists_agree(&random.message(PAYLOAD_LENGTH));
    }
}

/// 7 is answered at every length but one, whatever the bytes.
#[test]
fn every_length_agrees() {
    let mut random = Xorshift::new(53);
    for length in 0..=2 * PAYLOAD_LENGTH {
        for mut payload in [vec![0; length], random.message(length)] {
            let wrong = length != PAYLOAD_LENGTH;
            assert_eq!(
                payload_list(&payload).number == WRONG_LENGTH,
                wrong,
                "{length}"
            );
            assert_lists_agree(&payload);
            assert_adds_agree(&mut payload, 16, &[]);
        }
    }
}

/// At the start, and where one to four bytes are left.
#[test]
fn every_header_agrees() {
    for before in [0, 418, 419, 420, 421] {
        let mut data = vec![0; 424];
        data[..2].copy_from_slice(&((before as u16) << 7).to_be_bytes());
        let at = if before == 0 { 0 } else { 2 + before };
        for header in 0..=u16::MAX {
            let bytes = header.to_be_bytes();
            let fits = bytes.len().min(424 - at);
            data[at..at + fits].copy_from_slice(&bytes[..fits]);
            assert_lists_agree(&valid(&data));
        }
    }
}

/// A length over 422 is answered 11, wherever a frame starts: at byte 0, or behind
/// a frame of 1 to 420 bytes.
#[test]
fn lengths_over_422_are_11_wherever_a_frame_starts() {
    let mut cases = 0;
    for at in [0].into_iter().chain(3..=422) {
        let mut data = vec![0; 424];
        if at > 0 {
            data[..2].copy_from_slice(&(((at - 2) as u16) << 7).to_be_bytes());
        }
        for length in 423..=511 {
            // Reserved bits and type do not count.
            let others = (at + length) as u16 % 128;
            data[at..at + 2].copy_from_slice(&(length as u16 * 128 + others).to_be_bytes());
            let mut payload = valid(&data);
            assert_eq!(payload_list(&payload).number, 11, "{length} at {at}");
            for n in [0, 1, 2, usize::MAX] {
                assert_eq!(payload_nth(&payload, n).number, 11, "{length} at {at}");
                assert_eq!(information_frame(&payload, n), Err(Error::PastTheData));
            }
            assert_lists_agree(&payload);
            assert_eq!(assert_adds_agree(&mut payload, 0, &[0xEE]), 11);
            assert_eq!(assert_adds_agree(&mut payload, 16, &[]), 11);
            cases += 1;
        }
    }
    assert_eq!(cases, 421 * 89);
}

/// Only bit 5 of the seventh byte counts in the header.
#[test]
fn every_bit_of_the_header_agrees() {
    for bit in 0..64 {
        for ones in [0x00, 0xFF] {
            let mut payload = valid(&[0x01, 0x80, 1, 2, 3]);
            payload[..8].fill(ones);
            payload[bit / 8] ^= 1 << (bit % 8);
            let counted = payload[VALID_AT] & VALID != 0;
            assert_eq!(
                payload_list(&payload).count,
                usize::from(counted),
                "bit {bit}"
            );
            assert_lists_agree(&payload);
            assert_adds_agree(&mut payload, 15, &[4, 5]);
        }
    }
}

/// Types and lengths around their ends, to payloads of every sort.
#[test]
fn adds_agree() {
    let mut random = Xorshift::new(54);
    let mut numbers = [0; 14];
    for round in 0..ROUNDS {
        let make = [whole, damaged][round % 2];
        let mut payload = make(&mut random);
        let frame_type = random.below(18) as u8;
        let length = match random.below(4) {
            0 => random.below(4),
            1 => FRAME_DATA_MAX - 2 + random.below(5),
            2 => random.below(600),
            _ => 1 + random.below(40),
        };
        let data = random.message(length);
        let number = assert_adds_agree(&mut payload, frame_type, &data);
        numbers[usize::from(number)] += 1;
        assert_lists_agree(&payload);
    }
    for number in [0, WRONG_LENGTH, OUT_OF_RANGE, NO_ROOM, PAST_THE_DATA] {
        assert!(numbers[usize::from(number)] > 500, "{numbers:?}");
    }
}

/// 8 for every type over 15 and every length out of 1 to 422.
#[test]
fn every_type_and_length_to_add_agrees() {
    for frame_type in 0..=u8::MAX {
        let number = assert_adds_agree(&mut valid(&[]), frame_type, &[0xEE]);
        assert_eq!(number == 0, frame_type <= 15, "type {frame_type}");
    }
    for length in 0..=1_024 {
        let number = assert_adds_agree(&mut valid(&[]), 0, &vec![0xEE; length]);
        let good = (1..=FRAME_DATA_MAX).contains(&length);
        assert_eq!(number == 0, good, "{length} bytes");
    }
}

/// From no bytes at all to a payload with room for no more.
#[test]
fn adding_until_full_agrees() {
    let mut random = Xorshift::new(55);
    for longest in [1, 2, 3, 10, 100, FRAME_DATA_MAX] {
        let mut payload = vec![0; PAYLOAD_LENGTH];
        let mut added = 0;
        loop {
            let length = 1 + random.below(longest);
            let data = random.message(length);
            if assert_adds_agree(&mut payload, (added % 16) as u8, &data) != 0 {
                break;
            }
            added += 1;
            assert_eq!(payload_list(&payload).count, added);
            let last = payload_nth(&payload, added - 1);
            assert_eq!(payload[last.start..][..last.length], data);
        }
        assert_lists_agree(&payload);
        assert!(longest > 1 || added == 141, "{added} frames");
    }
}
