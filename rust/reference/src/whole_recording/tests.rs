use super::*;
use crate::collecting::answers;
use crate::recording::{framed, mixed, speed_recording, tiny, SHAPES};
use crate::vectors::HEARTBEAT;
use crate::xorshift::Xorshift;

/// What is lent holds these before.
const NUMBER: usize = usize::MAX - 7;
const BYTE: u8 = 0xC3;

/// Reads where a list of so many numbers and so many bytes for messages are lent:
/// the answer, and both as they are then.
fn lent(recording: &[u8], numbers: usize, bytes: usize) -> (Read, Vec<usize>, Vec<u8>) {
    let (mut list, mut messages) = (vec![NUMBER; numbers], vec![BYTE; bytes]);
    let read = read(recording, &mut list, &mut messages);
    (read, list, messages)
}

fn assert_refused(recording: &[u8], numbers: usize, bytes: usize) {
    let unchanged = (Read::Refused(9), vec![NUMBER; numbers], vec![BYTE; bytes]);
    assert_eq!(lent(recording, numbers, bytes), unchanged);
}

/// Only what is written changes.
fn assert_read(recording: &[u8], numbers: usize, bytes: usize, list: &[usize], messages: &[u8]) {
    let mut expected = (vec![NUMBER; numbers], vec![BYTE; bytes]);
    expected.0[..list.len()].copy_from_slice(list);
    expected.1[..messages.len()].copy_from_slice(messages);
    let entries = Read::Entries(list.len() / ENTRY_LENGTH);
    let read = lent(recording, numbers, bytes);
    assert_eq!(read, (entries, expected.0, expected.1));
}

/// Numbers and bytes that are enough for every recording of this length.
fn enough(recording: &[u8]) -> (usize, usize) {
    (ENTRY_LENGTH * (recording.len() / 2), recording.len())
}

/// These numbers and bytes, with everything lent from nothing to more than enough.
fn assert_list(recording: &[u8], list: &[usize], messages: &[u8]) {
    let (numbers_needed, bytes_needed) = (list.len(), messages.len());
    for numbers in 0..numbers_needed + 4 {
        for bytes in 0..bytes_needed + 2 {
            if numbers >= numbers_needed && bytes >= bytes_needed {
                assert_read(recording, numbers, bytes, list, messages);
            } else {
                assert_refused(recording, numbers, bytes);
            }
        }
    }
    let (numbers, bytes) = enough(recording);
    assert_read(recording, numbers, bytes, list, messages);
}

/// Number, position and message length of each entry.
fn entries(recording: &[u8]) -> Vec<(u8, usize, usize)> {
    let (entries, _) = collected(recording);
    entries
        .iter()
        .map(|entry| (entry.number, entry.position, entry.length))
        .collect()
}

/// As `entries`, for bytes as they stand between two flags.
fn between(parts: &[&[u8]]) -> Vec<(u8, usize, usize)> {
    entries(&[&[FLAG], &parts.concat()[..], &[FLAG]].concat())
}

#[test]
fn heartbeat_of_001() {
    let recording = [
        0x55, 0x7E, 0x00, 0x81, 0x41, 0xDB, 0xD0, 0x08, 0x02, 0xB3, 0x8B, 0x7E,
    ];
    assert_list(&recording, &[0, 0, 7], &HEARTBEAT);
}

/// One of each, in an order of its own, between lead-in and a part not closed.
#[test]
fn every_answer() {
    let recording = [
        &[0x07, 0x7D, 0x00, FLAG][..],
        &[0x07, 0x07, 0x00, FLAG],
        &[0x07, 0x00, 0x07, FLAG],
        &[0x01, 0x7D, 0x5E, 0x7D, FLAG],
        &[FLAG, FLAG],
        &[0x7D, 0x5E, 0x7D, 0x5E, 0x00, FLAG],
        &[0x11; 440],
        &[FLAG, 0x07, 0x7D, 0x5D, FLAG],
        &[0x01, 0x7D, 0x00, 0x7D, FLAG],
        &[0x05, 0x05, 0x00],
    ];
    let list = [
        [0, 0, 1],
        [5, 3, 0],
        [2, 4, 0],
        [0, 0, 1],
        [3, 439, 0],
        [4, 3, 0],
        [1, 3, 0],
    ];
    assert_list(&recording.concat(), &list.concat(), &[0x07, 0x7E]);
}

#[test]
fn nothing_between_two_flags() {
    let escapes = [&[0x7D, 0x7D, 0x00][..], &[0x7D; 500]].concat();
    for recording in [
        &[][..],
        &[FLAG],
        &[FLAG; 2],
        &[FLAG; 500],
        &[0x07; 500],
        &escapes,
        &[0x07, 0x07, 0x00, FLAG],
        &[0x7D, FLAG, FLAG],
        &[FLAG, 0x07, 0x07, 0x00],
        &[FLAG, 0x7D],
        &[0x07, FLAG, FLAG, 0x07],
    ] {
        assert_list(recording, &[], &[]);
    }
}

#[test]
fn one_flag_closes_and_opens() {
    let recording = [
        &framed(&[1, 2, 3])[..],
        &framed(&[4])[1..],
        &[0x07, FLAG],
        &framed(&[5, 6]),
    ];
    let list = [[0, 0, 3], [0, 0, 1], [4, 1, 0], [0, 0, 2]];
    assert_list(&recording.concat(), &list.concat(), &[1, 2, 3, 4, 5, 6]);
}

#[test]
fn every_byte_behind_an_escape() {
    for byte in 0..=255 {
        let expected: &[(u8, usize, usize)] = match byte {
            0x5D | 0x5E => &[(4, 3, 0)],
            FLAG => &[(2, 1, 0), (4, 1, 0)],
            _ => &[(1, 2, 0)],
        };
        assert_eq!(between(&[&[0x7D, byte, 0x00]]), expected, "{byte:02X}");
    }
    let escaped = [0x7E, 0x7D, 0x5D, 0x7D, 0x5E, 0x7D, 0x5E, 0x7D, 0x5D, 0x7E];
    assert_list(&escaped, &[0, 0, 2], &[0x7D, 0x7E]);
}

#[test]
fn positions() {
    assert_eq!(between(&[&[0x7D]]), [(2, 1, 0)]);
    assert_eq!(between(&[&[0x07, 0x7D, 0x5E, 0x7D]]), [(2, 4, 0)]);
    assert_eq!(between(&[&[0x7D, 0x7D]]), [(1, 2, 0)]);
    assert_eq!(between(&[&[0x07, 0x7D, 0x5E, 0x7D, 0x7F]]), [(1, 5, 0)]);
    assert_eq!(between(&[&[0x7D, 0x00, 0x7D]]), [(1, 2, 0)]);
    assert_eq!(between(&[&[0x7D, 0x00], &[0x11; 500]]), [(1, 2, 0)]);
    assert_eq!(between(&[&[0x07]]), [(4, 1, 0)]);
    assert_eq!(between(&[&[0x7D, 0x5D, 0x7D, 0x5E]]), [(4, 4, 0)]);
    assert_eq!(between(&[&HEARTBEAT, &[0xB3, 0x8A]]), [(5, 9, 0)]);
    assert_eq!(between(&[&HEARTBEAT, &[0x8B, 0xB3]]), [(5, 9, 0)]);
    assert_eq!(between(&[&[0x7D, 0x5E, 0x00, 0x00]]), [(5, 4, 0)]);
}

/// 438 bytes fit, escaped or not. Of 1, 2 and 3 the first that is met counts.
#[test]
fn positions_behind_438_bytes() {
    let (plain, escaped) = ([0x11; 438], [0x7D, 0x5E].repeat(438));
    let behind: [(&[u8], u8, usize); 8] = [
        (&[], 5, 0),
        (&[0x11], 3, 1),
        (&[0x7D, 0x5E], 3, 2),
        (&[0x7D, 0x5D], 3, 2),
        (&[0x7D, 0x00], 1, 2),
        (&[0x7D], 2, 1),
        (&[0x11, 0x7D, 0x00, 0x7D], 3, 1),
        (&[0x7D, 0x00, 0x11, 0x7D], 1, 2),
    ];
    for (bytes, number, more) in behind {
        assert_eq!(between(&[&plain, bytes]), [(number, 438 + more, 0)]);
        assert_eq!(between(&[&escaped, bytes]), [(number, 876 + more, 0)]);
    }
    assert_eq!(between(&[&escaped, &escaped]), [(3, 878, 0)]);
    assert_eq!(between(&[&[0x11; 100_000]]), [(3, 439, 0)]);
}

/// The longest message, with everything lent up to what it needs.
#[test]
fn longest_messages() {
    for message in [[0x11; 436], [FLAG; 436]] {
        let recording = [framed(&message), framed(&[9])].concat();
        let messages = [&message[..], &[9]].concat();
        assert_list(&recording, &[0, 0, 436, 0, 0, 1], &messages);
    }
}

/// A byte between every two flags makes as many entries as half of the bytes.
#[test]
fn most_entries() {
    for count in 1..200 {
        let recording = [&[FLAG], &[0x07, FLAG].repeat(count)[..]].concat();
        let (numbers, bytes) = enough(&recording);
        assert_read(&recording, numbers, bytes, &[4, 1, 0].repeat(count), &[]);
        assert_read(&recording, numbers, 0, &[4, 1, 0].repeat(count), &[]);
        assert_refused(&recording, numbers - 1, bytes);
    }
}

/// The answers that feeding the recording byte by byte gives, where list and
/// messages just fit and where there is more; 9 where one of them is one short. The
/// answers are counted.
fn assert_as_fed(recording: &[u8], counts: &mut [usize; 6]) {
    let (mut list, mut messages) = (Vec::new(), Vec::new());
    for kept in answers(recording) {
        counts[usize::from(kept.number)] += 1;
        list.extend([kept.number.into(), kept.position, kept.message.len()]);
        messages.extend(kept.message);
    }
    let (numbers, bytes) = (list.len(), messages.len());
    let (most_numbers, most_bytes) = enough(recording);
    assert!(numbers <= most_numbers && bytes <= most_bytes);
    assert_read(recording, numbers, bytes, &list, &messages);
    assert_read(recording, numbers + 2, bytes + 1, &list, &messages);
    assert_read(recording, most_numbers, most_bytes, &list, &messages);
    if numbers > 0 {
        assert_refused(recording, numbers - 1, most_bytes);
    }
    if bytes > 0 {
        assert_refused(recording, most_numbers, bytes - 1);
    }
}

#[test]
fn as_fed_byte_by_byte() {
    let mut random = Xorshift::new(70);
    let mut counts = [0; 6];
    for round in 0..20_000 {
        let length = random.below([40, 400, 4_000][round % 3]);
        let recording = match round % 40 {
            0 => mixed(&mut random, 10 * length),
            1 => random.message(10 * length),
            2..=4 => random.message_with_escapes(length, 2),
            _ => tiny(&mut random),
        };
        assert_as_fed(&recording, &mut counts);
    }
    assert!(counts.iter().all(|&count| count > 500), "{counts:?}");
}

#[test]
fn long_recordings_as_fed() {
    let mut counts = [0; 6];
    assert_as_fed(&speed_recording(), &mut counts);
    for (_, shape) in SHAPES {
        assert_as_fed(&shape(), &mut counts);
    }
    assert!(counts.iter().all(|&count| count > 500), "{counts:?}");
}
