use super::*;
use crate::recording::{between_flags, framed, mixed};
use crate::state::State;
use crate::vectors::HEARTBEAT;
use crate::xorshift::Xorshift;

/// The numbers that the stream is answered with.
fn numbers(stream: &[u8]) -> Vec<u8> {
    answers(stream).iter().map(|kept| kept.number).collect()
}

/// As `numbers`, for bytes as they stand between two flags.
fn numbers_between(bytes: &[u8]) -> Vec<u8> {
    numbers(&[&[FLAG], bytes, &[FLAG]].concat())
}

fn messages(stream: &[u8]) -> Vec<Vec<u8>> {
    let accepted = |kept: Kept| (kept.number == 0).then_some(kept.message);
    answers(stream).into_iter().filter_map(accepted).collect()
}

#[test]
fn heartbeat_of_001() {
    let stream = [&[0x55], &framed(&HEARTBEAT)[..]].concat();
    let expected = Kept::new(stream.len() - 1, Answer::Message(&HEARTBEAT));
    assert_eq!(answers(&stream), Vec::from_iter(expected));
}

#[test]
fn values_5_and_6() {
    let cancelled = [0x00, 0x81, 0x41, 0xDB, 0xD0, 0x08, 0x03];
    let stream = [&[FLAG], &cancelled[..], &[0xB2, 0x8B, FLAG]].concat();
    assert_eq!(messages(&stream), [cancelled]);
    assert_eq!(numbers_between(&[0x7D]), [2]);
    assert_eq!(numbers_between(&[0x7D, 0x00]), [1]);
    assert_eq!(numbers_between(&[0x07, 0x07]), [4]);
    assert_eq!(messages(&[FLAG, 0x07, 0x07, 0x00, FLAG]), [[0x07]]);
}

#[test]
fn nothing_is_no_answer() {
    assert_eq!(numbers(&[]), []);
    assert_eq!(numbers(&[FLAG; 5]), []);
    assert_eq!(numbers(&[0x07, 0x07, 0x00, FLAG]), []);
}

#[test]
fn lead_in_knows_no_escape() {
    let stream = [&[0x7D, 0x7D, 0x00, 0x7D], &framed(&HEARTBEAT)[..]].concat();
    assert_eq!(messages(&stream), [HEARTBEAT]);
    assert_eq!(numbers(&[0x07; 500]), []);
    assert_eq!(numbers(&[&[0x07; 500][..], &[FLAG, FLAG]].concat()), []);
}

#[test]
fn one_flag_closes_and_opens() {
    let mut stream = framed(&[1, 2, 3]);
    stream.extend(&framed(&[4])[1..]);
    stream.extend(&framed(&HEARTBEAT)[1..]);
    let expected: [&[u8]; 3] = [&[1, 2, 3], &[4], &HEARTBEAT];
    assert_eq!(messages(&stream), expected);
}

#[test]
fn every_byte_behind_an_escape() {
    for byte in 0..=255 {
        let expected: &[u8] = match byte {
            ESCAPED_ESCAPE | ESCAPED_FLAG => &[4],
            // The flag closes; the byte behind it is a frame of its own.
            FLAG => &[2, 4],
            _ => &[1],
        };
        assert_eq!(numbers_between(&[ESCAPE, byte, 0x00]), expected[..]);
    }
    assert_eq!(messages(&[FLAG, 0x7D, 0x5D, 0x7D, 0x5D, 0, FLAG]), [[0x7D]]);
    assert_eq!(messages(&[FLAG, 0x7D, 0x5E, 0x7D, 0x5E, 0, FLAG]), [[0x7E]]);
}

/// Each is answered once, and the frame behind its flag is whole.
#[test]
fn next_frame_keeps_its_first_byte() {
    let full = [0x11; ROOM + 1];
    for bytes in [&[0x7D][..], &[0x01, 0x7D], &[0x7D, 0x7D], &full] {
        let stream = [&[FLAG], bytes, &framed(&[0x5E, 0x5D])].concat();
        assert_eq!(messages(&stream), [[0x5E, 0x5D]]);
        assert_eq!(numbers(&stream).len(), 2);
    }
}

#[test]
fn first_fault_met_wins() {
    let long = [0x11; ROOM + 1];
    assert_eq!(numbers_between(&[0x7D, 0x00, 0x7D]), [1]);
    assert_eq!(numbers_between(&[&[0x7D, 0x00], &long[..]].concat()), [1]);
    assert_eq!(numbers_between(&[&long[..], &[0x7D]].concat()), [3]);
    assert_eq!(numbers_between(&[&long[..], &[0x7D, 0x00]].concat()), [3]);
}

#[test]
fn full_room() {
    let full = [0x11; ROOM];
    let with = |bytes: &[u8]| numbers_between(&[&full, bytes].concat());
    assert_eq!(with(&[]), [5]);
    assert_eq!(with(&[0x00]), [3]);
    assert_eq!(with(&[0x7D]), [2]);
    assert_eq!(with(&[0x7D, 0x00]), [1]);
    assert_eq!(with(&[0x7D, 0x7D]), [1]);
    assert_eq!(with(&[0x7D, 0x5E]), [3]);
    assert_eq!(with(&[0x7D, 0x5D]), [3]);
    assert_eq!(numbers_between(&full[1..]), [5]);
}

/// Escapes take no room: 438 escaped bytes fit.
#[test]
fn escaped_bytes_count_once() {
    assert_eq!(numbers(&between_flags(&[0x7E; ROOM])), [5]);
    assert_eq!(numbers(&between_flags(&[0x7E; ROOM + 1])), [3]);
    assert_eq!(numbers(&between_flags(&[0x7E, 0x7D])), [4]);
}

#[test]
fn sequence_high_byte_first_is_refused() {
    assert_eq!(numbers_between(&[0x07, 0x00, 0x07]), [5]);
    let [low, high] = check_sequence(&HEARTBEAT).to_le_bytes();
    let swapped = [&HEARTBEAT[..], &[high, low]].concat();
    assert_eq!(numbers(&between_flags(&swapped)), [5]);
}

/// The answers to a stream that is fed in pieces.
fn fed(stream: &[u8], mut piece: impl FnMut() -> usize) -> Vec<Kept> {
    let mut collector = Collector::new();
    let mut kept = Vec::new();
    let mut at = 0;
    while at < stream.len() {
        let end = stream.len().min(at + piece());
        let (taken, answer) = collector.feed(&stream[at..end]);
        assert!(answer != Answer::None || taken == end - at);
        at += taken;
        kept.extend(Kept::new(at.saturating_sub(1), answer));
    }
    kept
}

/// Those to a stream that takes a state from step to step.
fn stepped(stream: &[u8]) -> Vec<Kept> {
    let (mut state, mut message) = (State::fresh(), [0; MESSAGE_MAX]);
    let step = |(at, &byte)| {
        let reply = state.step(byte, &mut message)?;
        Some(Kept {
            at,
            number: reply.number,
            message: message[..reply.length].to_vec(),
            position: reply.position,
        })
    };
    stream.iter().enumerate().filter_map(step).collect()
}

/// In pieces of whatever length.
#[test]
fn feeding_is_pushing_each_byte() {
    let mut random = Xorshift::new(17);
    for round in 0..200 {
        let stream = mixed(&mut random, 10_000);
        let kept = fed(&stream, || random.below(600));
        assert_eq!(kept, answers(&stream), "round {round}");
        assert_eq!(kept, stepped(&stream), "round {round}");
    }
}

/// Number and position of each answer, the same in each way of collecting.
fn positions(stream: &[u8]) -> Vec<(u8, usize)> {
    let kept = answers(stream);
    assert_eq!(stepped(stream), kept);
    for piece in [1, 2, 437, stream.len()] {
        assert_eq!(fed(stream, || piece), kept, "pieces of {piece}");
    }
    kept.iter().map(|one| (one.number, one.position)).collect()
}

/// As `positions`, for bytes as they stand between two flags.
fn positions_between(parts: &[&[u8]]) -> Vec<(u8, usize)> {
    positions(&[&[FLAG], &parts.concat()[..], &[FLAG]].concat())
}

/// Up to and with the byte behind the escape.
#[test]
fn position_of_a_bad_escape() {
    assert_eq!(positions_between(&[&[0x7D, 0x00]]), [(1, 2)]);
    assert_eq!(positions_between(&[&[0x7D, 0x7D]]), [(1, 2)]);
    assert_eq!(positions_between(&[&[0x07, 0x7D, 0x00, 0x07]]), [(1, 3)]);
    let behind_an_escape = [0x07, 0x7D, 0x5E, 0x7D, 0x7F];
    assert_eq!(positions_between(&[&behind_an_escape]), [(1, 5)]);
    let full = [0x11; 438];
    assert_eq!(positions_between(&[&full, &[0x7D, 0x00]]), [(1, 440)]);
    let escaped = [0x7D, 0x5E].repeat(438);
    assert_eq!(positions_between(&[&escaped, &[0x7D, 0x00]]), [(1, 878)]);
}

/// The escape counts, the flag does not.
#[test]
fn position_of_an_escape_before_the_flag() {
    assert_eq!(positions_between(&[&[0x7D]]), [(2, 1)]);
    assert_eq!(positions_between(&[&[0x07, 0x7D]]), [(2, 2)]);
    assert_eq!(positions_between(&[&[0x7D, 0x5D, 0x7D]]), [(2, 3)]);
    assert_eq!(positions_between(&[&[0x11; 438], &[0x7D]]), [(2, 439)]);
    let escaped = [0x7D, 0x5D].repeat(438);
    assert_eq!(positions_between(&[&escaped, &[0x7D]]), [(2, 877)]);
}

/// The 439th byte, or the second of the two that it takes.
#[test]
fn position_of_a_byte_too_many() {
    let full = [0x11; 438];
    assert_eq!(positions_between(&[&full, &[0x11]]), [(3, 439)]);
    assert_eq!(positions_between(&[&full, &[0x11; 500]]), [(3, 439)]);
    assert_eq!(positions_between(&[&full, &[0x7D, 0x5E]]), [(3, 440)]);
    assert_eq!(positions_between(&[&[0x7D, 0x5D], &full]), [(3, 440)]);
    let escaped = [0x7D, 0x5E].repeat(438);
    assert_eq!(positions_between(&[&escaped, &[0x11]]), [(3, 877)]);
    assert_eq!(positions_between(&[&escaped, &[0x7D, 0x5E]]), [(3, 878)]);
    assert_eq!(positions_between(&[&escaped, &escaped]), [(3, 878)]);
}

#[test]
fn position_of_a_short_frame() {
    assert_eq!(positions_between(&[&[0x07]]), [(4, 1)]);
    assert_eq!(positions_between(&[&[0x07, 0x07]]), [(4, 2)]);
    assert_eq!(positions_between(&[&[0x7D, 0x5E]]), [(4, 2)]);
    assert_eq!(positions_between(&[&[0x07, 0x7D, 0x5E]]), [(4, 3)]);
    assert_eq!(positions_between(&[&[0x7D, 0x5D, 0x7D, 0x5E]]), [(4, 4)]);
}

#[test]
fn position_of_another_sequence() {
    assert_eq!(positions_between(&[&[0x07, 0x00, 0x07]]), [(5, 3)]);
    assert_eq!(positions_between(&[&HEARTBEAT, &[0xB3, 0x8A]]), [(5, 9)]);
    assert_eq!(positions_between(&[&[0x7D, 0x5E, 0x00, 0x00]]), [(5, 4)]);
    assert_eq!(positions_between(&[&[0x11; 438]]), [(5, 438)]);
    assert_eq!(positions_between(&[&[0x7D, 0x5E].repeat(438)]), [(5, 876)]);
}

/// Once a fault is met the position stands.
#[test]
fn second_fault_moves_no_position() {
    let long = [0x11; 439];
    for behind in [&[0x7D][..], &[0x7D, 0x00], &[0x7D, 0x5E], &long] {
        assert_eq!(positions_between(&[&[0x7D, 0x00], behind]), [(1, 2)]);
        assert_eq!(positions_between(&[&long, behind]), [(3, 439)]);
    }
}

/// Neither flags count nor what stands before the first, and every frame is
/// counted from its own.
#[test]
fn positions_begin_behind_the_last_flag() {
    assert_eq!(positions(&[0x07, 0x7D, 0x00, FLAG, 0x07, FLAG]), [(4, 1)]);
    assert_eq!(positions(&[FLAG, FLAG, FLAG, 0x7D, 0x00, FLAG]), [(1, 2)]);
    let stream = [
        &framed(&HEARTBEAT)[..],
        &[0x07, 0x7D, FLAG],
        &[0x7D, 0x00, 0x07, FLAG],
        &[0x07, FLAG],
        &framed(&[0x7E])[1..],
        &[0x07, 0x07, FLAG],
    ]
    .concat();
    let expected = [(0, 0), (2, 2), (1, 2), (4, 1), (0, 0), (4, 2)];
    assert_eq!(positions(&stream), expected);
}

#[test]
fn frames_read_back() {
    let mut random = Xorshift::new(7);
    let mut stream = Vec::new();
    let mut expected = Vec::new();
    for length in 1..=MESSAGE_MAX {
        for eighths in [0, 1, 4, 8] {
            let message = random.message_with_escapes(length, eighths);
            stream.extend(framed(&message));
            expected.push(message);
        }
    }
    assert_eq!(messages(&stream), expected);
    assert_eq!(numbers(&stream).len(), expected.len());
}
