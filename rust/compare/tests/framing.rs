//! The proved library and the reference give the same answers.

use std::hint::black_box;

use gdl90::raw::{self, FrameAnswer};
use gdl90::Error;
use reference::framing::{Framed, MESSAGE_MAX};
use reference::xorshift::Xorshift;

const CHECK_SEQUENCES: usize = 200_200;
const FRAMES: usize = 110_250;
/// Bytes on each side of the output that no call may touch.
const GUARD: usize = 16;
const ROOM_MAX: usize = 1024;

#[test]
fn check_sequences_agree() {
    let mut random = Xorshift::new(3);
    for round in 0..CHECK_SEQUENCES {
        let message = random.message(round % 1001);
        assert_eq!(
            gdl90::check_sequence(&message),
            reference::fcs::check_sequence(&message),
            "check sequence of {message:02X?}"
        );
    }
}

#[test]
fn frames_agree() {
    let mut random = Xorshift::new(4);
    for round in 0..FRAMES {
        let eighths = [0, 1, 4, 8][random.below(4)];
        let message = random.message_with_escapes(round % 441, eighths);
        let room = room_for(&message, &mut random);
        // A fill that varies: none can hide behind a byte of the frame.
        let fill = random.next_u64() as u8;
        assert_frames_agree(&message, room, fill);
    }
}

/// From no room at all to more than enough, for messages with few escapes, many,
/// and of lengths that are not framed.
#[test]
fn every_room_agrees() {
    let mut random = Xorshift::new(5);
    for length in [0, 1, 2, 3, 28, 435, 436, 437, 1_000] {
        for eighths in [0, 4, 8] {
            let message = random.message_with_escapes(length, eighths);
            let frame = reference_frame(&message, &mut [0; ROOM_MAX]);
            for room in 0..=frame.length + 1 {
                assert_frames_agree(&message, room, 0xA5);
                assert_frames_agree(&message, room, 0x5A);
            }
        }
    }
}

/// In memory of its own, and in any that is lent.
#[test]
fn safe_frames_agree() {
    let mut random = Xorshift::new(6);
    for round in 0..20 * ROOM_MAX {
        let eighths = [0, 1, 4, 8][random.below(4)];
        let message = random.message_with_escapes(round % 441, eighths);
        let (mut expected, mut out) = ([0xA5; ROOM_MAX], [0xA5; ROOM_MAX]);
        let room = room_for(&message, &mut random);
        let answer = reference_frame(&message, &mut expected[..room]);
        let result = gdl90::frame(&message, &mut out[..room]);
        assert_eq!(result.map_or_else(Error::number, |_| 0), answer.number);
        assert_eq!(result.unwrap_or(0), answer.length);
        assert_eq!(out, expected);
        let answer = reference_frame(&message, &mut expected);
        let framed = gdl90::framed(&message);
        match framed {
            Ok(frame) => assert_eq!(frame, expected[..answer.length]),
            Err(error) => assert_eq!(error.number(), answer.number),
        }
    }
}

fn assert_frames_agree(message: &[u8], room: usize, fill: u8) {
    let mut proved = vec![fill; GUARD + room + GUARD];
    let mut expected = proved.clone();
    let answer = raw::frame(message, &mut proved[GUARD..GUARD + room]);
    // The compiler may hold that a call leaves the guards as they are.
    let proved = black_box(proved);
    let expected_answer = reference_frame(message, &mut expected[GUARD..GUARD + room]);
    assert_eq!(
        answer, expected_answer,
        "answer in {room} bytes to {message:02X?}"
    );
    assert_eq!(proved, expected, "output in {room} bytes of {message:02X?}");
}

/// The reference's answer in the shape of the C function's.
fn reference_frame(message: &[u8], out: &mut [u8]) -> FrameAnswer {
    let (number, length) = match reference::framing::frame(message, out) {
        Framed::Bytes(length) => (0, length),
        Framed::Refused(number) => (number, 0),
    };
    FrameAnswer { number, length }
}

/// Mostly within three bytes of the frame's length, at times any.
fn room_for(message: &[u8], random: &mut Xorshift) -> usize {
    let length = reference_frame(message, &mut [0; ROOM_MAX]).length;
    let a_message = (1..=MESSAGE_MAX).contains(&message.len());
    if a_message && random.below(8) != 0 {
        length - 3 + random.below(7)
    } else {
        random.below(ROOM_MAX + 1)
    }
}
