use super::*;
use crate::payloads::{damaged, samples_of_001, valid, whole};
use crate::xorshift::Xorshift;

fn lengths(payload: &[u8]) -> Vec<usize> {
    let frames = list(payload).expect("frames");
    frames.iter().map(|frame| frame.data.len()).collect()
}

fn list_end(payload: &[u8]) -> usize {
    end(&list(payload).expect("frames"))
}

/// A frame of type 0 with this many bytes of data.
fn frame(length: usize) -> Vec<u8> {
    let mut frame = vec![(length >> 1) as u8, (length as u8) << 7];
    frame.resize(2 + length, 0xD5);
    frame
}

/// A payload with frames of these lengths.
fn with_frames(lengths: &[usize]) -> Vec<u8> {
    let frames: Vec<Vec<u8>> = lengths.iter().map(|&length| frame(length)).collect();
    valid(&frames.concat())
}

fn check_add_refused(payload: &[u8], frame_type: u8, data: &[u8], number: u8) {
    let mut after = payload.to_vec();
    assert_eq!(add(&mut after, frame_type, data), Err(number));
    assert_eq!(after, payload);
}

/// 001 §5.1.4: 19 APDUs in the two, nine of them run-length encoded.
#[test]
fn graphic_samples_of_001() {
    let [first, second, _] = samples_of_001();
    assert_eq!(lengths(&first), [38, 65, 41, 38, 65, 41, 38]);
    assert_eq!(list_end(&first), 340);
    assert_eq!(lengths(&second), [65, 41, 8, 8, 8, 8, 8, 8, 8, 8, 8, 8]);
    assert_eq!(list_end(&second), 210);
    for payload in [first, second] {
        for Frame {
            frame_type,
            reserved,
            data,
        } in list(&payload).unwrap()
        {
            assert_eq!((frame_type, reserved), (0, 0));
            assert_eq!(payload[data][..4], [0x00, 0xFC, 0x00, 0x00]);
        }
    }
}

/// 001 §5.2.4: five reports of 67 bytes.
#[test]
fn text_sample_of_001() {
    let [_, _, payload] = samples_of_001();
    assert_eq!(lengths(&payload), [67; 5]);
    assert_eq!(list_end(&payload), 345);
    let first = nth(&payload, 0).unwrap();
    assert_eq!(first.data, 10..77);
    assert_eq!(
        payload[first.data][..7],
        [0x06, 0x74, 0x41, 0x90, 0x50, 0x11, 0xA0]
    );
}

#[test]
fn samples_of_001_can_be_built() {
    for payload in samples_of_001() {
        let mut built = valid(&[]);
        for frame in list(&payload).unwrap() {
            assert_eq!(add(&mut built, 0, &payload[frame.data]), Ok(()));
        }
        assert_eq!(built, payload);
    }
}

#[test]
fn payload_length_comes_first() {
    for length in [0, 1, 8, 424, 431, 433, 436] {
        let payload = vec![0xFF; length];
        assert_eq!(list(&payload), Err(WRONG_LENGTH));
        assert_eq!(nth(&payload, 0), Err(WRONG_LENGTH));
        check_add_refused(&payload, 16, &[], WRONG_LENGTH);
    }
}

#[test]
fn nothing_is_listed_without_the_valid_bit() {
    let mut payload = vec![0xFF; PAYLOAD_LENGTH];
    payload[6] = 0xDF;
    assert_eq!(list(&payload), Ok(vec![]));
    assert_eq!(list_end(&payload), 0);
    assert_eq!(nth(&payload, 0), Err(NO_SUCH_FRAME));
    payload[6] = 0xFF;
    assert_eq!(list(&payload), Err(PAST_THE_DATA));
}

/// Only that bit counts in the header.
#[test]
fn other_header_bits_do_not_count() {
    let mut payload = with_frames(&[5]);
    payload[..8].copy_from_slice(&[0xFF; 8]);
    assert_eq!(lengths(&payload), [5]);
    payload[..8].copy_from_slice(&[0, 0, 0, 0, 0, 0, 0x20, 0]);
    assert_eq!(lengths(&payload), [5]);
}

/// Value 10 of RULES 'Values'.
#[test]
fn headers_of_01() {
    for (header, length) in [([0x96, 0x00], 300), ([0x00, 0x80], 1), ([0xD3, 0x00], 422)] {
        assert_eq!(lengths(&valid(&header)), [length]);
    }
    assert_eq!(list(&valid(&[0xD3, 0x80])), Err(PAST_THE_DATA));
}

/// All nine bits: a length over 422 runs past the data.
#[test]
fn every_length() {
    for length in 0..=511 {
        let header = ((length as u16) << 7).to_be_bytes();
        let answer = list(&valid(&header));
        match length {
            0 => assert_eq!(answer, Ok(vec![])),
            1..=422 => assert_eq!(end(&answer.unwrap()), 2 + length),
            _ => assert_eq!(answer, Err(PAST_THE_DATA)),
        }
    }
}

#[test]
fn length_0_ends_the_list() {
    // Whatever reserved bits and type say, and whatever is behind.
    for second in [0x00, 0x0F, 0x70, 0x7F] {
        let data = [&frame(3)[..], &[0, second], &frame(4), &[0xFF; 9]].concat();
        assert_eq!(lengths(&valid(&data)), [3]);
        assert_eq!(list_end(&valid(&data)), 5);
    }
}

#[test]
fn ends_of_the_data() {
    assert_eq!(list_end(&with_frames(&[422])), 424);
    assert_eq!(list_end(&with_frames(&[200, 220])), 424);
    let past = [frame(200), frame(221)].concat();
    assert_eq!(list(&valid(&past[..424])), Err(PAST_THE_DATA));
    // A header in the last two bytes has no room for data.
    let full = [&frame(420)[..], &[0x00, 0x80]].concat();
    assert_eq!(list(&valid(&full)), Err(PAST_THE_DATA));
    assert_eq!(list_end(&with_frames(&[420])), 422);
}

#[test]
fn one_byte_left_ends_the_list() {
    for last in [0x00, 0x01, 0xFF] {
        let payload = valid(&[&frame(421)[..], &[last]].concat());
        assert_eq!(lengths(&payload), [421]);
        assert_eq!(list_end(&payload), 423);
    }
}

#[test]
fn at_most_141_frames() {
    let payload = with_frames(&[1; 141]);
    assert_eq!(lengths(&payload), [1; 141]);
    assert_eq!(list_end(&payload), 423);
    assert_eq!(nth(&payload, 140).map(|frame| frame.data), Ok(430..431));
    assert_eq!(nth(&payload, 141), Err(NO_SUCH_FRAME));
    assert_eq!(nth(&payload, usize::MAX), Err(NO_SUCH_FRAME));
}

#[test]
fn reserved_bits_and_type_are_carried() {
    for low in 0..=0x7F {
        let expected = Frame {
            frame_type: low % 16,
            reserved: low / 16,
            data: 10..13,
        };
        let payload = valid(&[0x01, 0x80 | low, 1, 2, 3]);
        assert_eq!(list(&payload), Ok(vec![expected]));
    }
}

/// One refused frame refuses the payload, whichever is asked for.
#[test]
fn a_refused_frame_refuses_all() {
    let payload = valid(&[frame(7), vec![0xFF, 0xFF]].concat());
    assert_eq!(list(&payload), Err(PAST_THE_DATA));
    for n in 0..3 {
        assert_eq!(nth(&payload, n), Err(PAST_THE_DATA));
    }
    check_add_refused(&payload, 16, &[], PAST_THE_DATA);
}

#[test]
fn frames_have_their_numbers() {
    let mut random = Xorshift::new(40);
    for _ in 0..500 {
        let payload = damaged(&mut random);
        match list(&payload) {
            Ok(frames) => {
                assert_eq!(count(&payload), Ok((frames.len(), end(&frames))));
                for (n, frame) in frames.iter().enumerate() {
                    assert_eq!(nth(&payload, n).as_ref(), Ok(frame));
                }
                assert_eq!(nth(&payload, frames.len()), Err(NO_SUCH_FRAME));
            }
            Err(number) => {
                assert_eq!(count(&payload), Err(number));
                assert_eq!(nth(&payload, random.below(3)), Err(number));
            }
        }
    }
}

#[test]
fn lengths_to_add() {
    let empty = valid(&[]);
    for length in [0, 423, 424, 511, 512, 513, 65_537] {
        check_add_refused(&empty, 0, &vec![0xEE; length], OUT_OF_RANGE);
    }
    for (length, header) in [
        (1, [0x00, 0x80]),
        (2, [0x01, 0x00]),
        (300, [0x96, 0x00]),
        (422, [0xD3, 0x00]),
    ] {
        let mut payload = empty.clone();
        let data = vec![0xEE; length];
        assert_eq!(add(&mut payload, 0, &data), Ok(()));
        assert_eq!(payload, valid(&[&header[..], &data].concat()));
    }
}

#[test]
fn types_to_add() {
    for frame_type in 0..=255 {
        let mut payload = valid(&[]);
        if frame_type <= 15 {
            assert_eq!(add(&mut payload, frame_type, &[0xEE]), Ok(()));
            assert_eq!(payload, valid(&[0x00, 0x80 | frame_type, 0xEE]));
        } else {
            check_add_refused(&payload, frame_type, &[0xEE], OUT_OF_RANGE);
        }
    }
}

/// 9 exactly when list end + 2 + length is over 424.
#[test]
fn room_for_another() {
    for used in [1, 100, 419, 420, 421, 422] {
        let payload = with_frames(&[used]);
        let end = 2 + used;
        for length in 1..=422 {
            let data = vec![0xEE; length];
            if end + 2 + length > 424 {
                check_add_refused(&payload, 0, &data, NO_ROOM);
            } else {
                let mut after = payload.clone();
                assert_eq!(add(&mut after, 0, &data), Ok(()));
                assert_eq!(lengths(&after), [used, length]);
            }
        }
    }
}

/// 8 comes before 9.
#[test]
fn range_is_checked_before_the_room() {
    let full = with_frames(&[422]);
    check_add_refused(&full, 0, &[0xEE], NO_ROOM);
    check_add_refused(&full, 16, &[0xEE], OUT_OF_RANGE);
    check_add_refused(&full, 0, &[], OUT_OF_RANGE);
    check_add_refused(&full, 0, &[0xEE; 423], OUT_OF_RANGE);
}

/// What was not valid is gone: the frame starts at byte 0.
#[test]
fn adding_makes_the_data_valid() {
    let mut payload = vec![0xFF; PAYLOAD_LENGTH];
    payload[6] = 0xDF;
    assert_eq!(add(&mut payload, 15, &[1, 2, 3]), Ok(()));
    let mut expected = valid(&[0x01, 0x8F, 1, 2, 3]);
    expected[..8].fill(0xFF);
    assert_eq!(payload, expected);
}

/// Zeros behind the new frame, in place of what ended the list.
#[test]
fn adding_clears_what_is_behind() {
    let mut payload = valid(&[&frame(4)[..], &[0x00, 0x7F], &[0xFF; 416]].concat());
    assert_eq!(add(&mut payload, 1, &[9]), Ok(()));
    let expected = valid(&[&frame(4)[..], &[0x00, 0x81, 9]].concat());
    assert_eq!(payload, expected);
}

/// The list is the old one with one more at its end; the header keeps its other
/// bits, the frames their bytes.
#[test]
fn adding_keeps_the_others() {
    let mut random = Xorshift::new(41);
    let mut added = 0;
    for _ in 0..5_000 {
        let before = whole(&mut random);
        let old = list(&before).unwrap();
        let start = HEADER_LENGTH + end(&old);
        let length = 1 + random.below(30);
        let data = random.message(length);
        let mut after = before.clone();
        if add(&mut after, 5, &data).is_err() {
            continue;
        }
        added += 1;
        let new = Frame {
            frame_type: 5,
            reserved: 0,
            data: start + 2..start + 2 + length,
        };
        assert_eq!(after[new.data.clone()], data);
        assert!(after[new.data.end..].iter().all(|&byte| byte == 0));
        assert_eq!(list(&after), Ok([old, vec![new]].concat()));
        after[VALID_AT] ^= !before[VALID_AT] & VALID;
        assert_eq!(after[..start], before[..start]);
    }
    assert!(added > 1_000, "{added}");
}
