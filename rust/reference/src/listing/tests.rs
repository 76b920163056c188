use std::cell::RefCell;

use super::*;
use crate::collecting::{answers, Kept, ROOM};
use crate::fcs::check_sequence;
use crate::framing::{ESCAPE, MESSAGE_MAX};
use crate::messages::{HEARTBEAT_ID, LENGTHS};
use crate::recording::{between_flags, framed, mixed};
use crate::samples::whole;
use crate::state::STUFFED_MAX;
use crate::vectors::{HEARTBEAT, SALEM};
use crate::xorshift::Xorshift;

/// Lines between the header and the end, and the end.
fn lines(stream: &[u8]) -> Vec<String> {
    let text = String::from_utf8(listing(stream)).expect("ASCII");
    assert!(text.ends_with('\n'), "{text:?}");
    let mut lines = text.lines().map(String::from);
    assert_eq!(lines.next().as_deref(), Some("n at ans id len pos"));
    lines.collect()
}

#[test]
fn example_of_the_rules() {
    let stream = [
        0x55, 0x7E, 0x00, 0x81, 0x41, 0xDB, 0xD0, 0x08, 0x02, 0xB3, 0x8B, 0x7E, 0x7E, 0x00, 0x81,
        0x41, 0xDB, 0xD0, 0x08, 0x02, 0xB3, 0x8A, 0x7E, 0x07, 0x7D,
    ];
    let expected = "n at ans id len pos\n1 2 0 0 7 -\n2 13 5 - - 9\nend 1 2\n";
    assert_eq!(listing(&stream), expected.as_bytes());
}

#[test]
fn no_answer_no_line() {
    assert_eq!(lines(&[]), ["end 0 0"]);
    assert_eq!(lines(&[FLAG]), ["end 0 0"]);
    assert_eq!(lines(&[FLAG; 7]), ["end 0 0"]);
    assert_eq!(lines(&[0x07, 0x07, 0x00]), ["end 3 0"]);
    assert_eq!(lines(&[ESCAPE; 500]), ["end 500 0"]);
    assert_eq!(lines(&[0x07, 0x07, FLAG]), ["end 2 0"]);
    assert_eq!(lines(&[FLAG, 0x07, ESCAPE]), ["end 0 2"]);
    assert_eq!(lines(&[0x55, FLAG, FLAG, 0x07]), ["end 1 1"]);
}

/// Each answer of collecting and of reading. The flag between two is shared.
#[test]
fn every_answer() {
    let mut late = HEARTBEAT;
    late[2..5].copy_from_slice(&[0xC1, 0x81, 0x51]); // 86,401
    let stream = [
        &framed(&HEARTBEAT)[..],
        &[0x07, ESCAPE, 0x00, FLAG],
        &[0x07, ESCAPE, FLAG],
        &[0x11; ROOM + 1],
        &[FLAG, 0x07, 0x07, FLAG],
        &framed(&SALEM)[1..29],
        &framed(&[0x01, 0x02]),
        &framed(&HEARTBEAT[..6]),
        &framed(&late),
        &framed(&[30, 0x02]),
    ]
    .concat();
    let expected = [
        "1 1 0 0 7 -",
        "2 11 1 - - 3",
        "3 15 2 - - 2",
        "4 18 3 - - 439",
        "5 458 4 - - 2",
        "6 461 5 - - 28",
        "7 490 6 1 2 -",
        "8 496 7 0 6 -",
        "9 506 8 0 7 -",
        "10 517 17 30 2 -",
        "end 0 0",
    ];
    assert_eq!(lines(&stream), expected);
}

#[test]
fn every_kind_is_read() {
    let mut random = Xorshift::new(40);
    for (id, length) in LENGTHS {
        let line = format!("1 1 0 {id} {length} -");
        assert_eq!(lines(&framed(&whole(&mut random, id))), [&line, "end 0 0"]);
    }
}

/// Of every length they are framed and collected as other messages are.
#[test]
fn retired_ids_are_listed() {
    let mut random = Xorshift::new(42);
    for id in [30, 31] {
        for length in 1..=MESSAGE_MAX {
            let mut message = random.message_with_escapes(length, 1);
            message[0] = id;
            let stream = framed(&message);
            let collected = Kept::new(stream.len() - 1, Answer::Message(&message));
            assert_eq!(answers(&stream), [collected.expect("an answer")]);
            assert_eq!(lines(&stream)[0], format!("1 1 17 {id} {length} -"));
        }
    }
}

/// Of a message as long as may be, escapes not counted; one byte more is 3.
#[test]
fn lengths_are_of_the_unstuffed_message() {
    let mut message = vec![FLAG; MESSAGE_MAX];
    assert_eq!(lines(&framed(&message))[0], "1 1 6 126 436 -");
    message.push(FLAG);
    message.extend(check_sequence(&message).to_le_bytes());
    let long = between_flags(&message);
    let position = long.len() - 2; // all between the flags: its last byte is the 439th
    assert_eq!(lines(&long)[0], format!("1 1 3 - - {position}"));
}

/// Against `answers`, whose offsets are those of the closing flags.
#[test]
fn offsets_are_behind_the_opening_flag() {
    let stream = mixed(&mut Xorshift::new(41), 3 * BLOCK);
    let kept = answers(&stream);
    let lines = lines(&stream);
    assert_eq!(lines.len(), kept.len() + 1);
    for (line, kept) in lines.iter().zip(&kept) {
        let before = &stream[..kept.at];
        let opening = before.iter().rposition(|&byte| byte == FLAG);
        let at = line.split(' ').nth(1).expect("an offset");
        assert_eq!(at, (opening.expect("a flag") + 1).to_string());
    }
}

#[test]
fn longest_lines_fit() {
    let (id, length) = (255, MESSAGE_MAX);
    let line = answer_line(LIMIT, LIMIT, 17, Frame::Collected { id, length });
    assert_eq!(line.start, 0);
    assert_eq!(&line.bytes, b"4294967295 4294967295 17 255 436 -\n");
    let position = STUFFED_MAX;
    let line = answer_line(LIMIT, LIMIT, 3, Frame::Refused { position });
    assert_eq!(
        &line.bytes[line.start..],
        b"4294967295 4294967295 3 - - 878\n"
    );
}

#[test]
fn bytes_over_the_limit_are_not_read() {
    let stream = [&[0x55], &framed(&HEARTBEAT)[..], &framed(&HEARTBEAT)].concat();
    for (limit, expected) in [
        (1, "end 1 0"),
        (11, "end 1 9"),
        (12, "1 2 0 0 7 -\nend 1 0"),
    ] {
        let (mut left, mut out) = (&stream[..], Vec::new());
        list_up_to(limit, &mut left, &mut out).unwrap();
        assert_eq!(left.len(), stream.len() - limit as usize);
        let expected = format!("n at ans id len pos\n{expected}\n");
        assert_eq!(String::from_utf8(out), Ok(expected));
    }
}

/// Hands out one piece at a call, and looks at the output before it does.
struct Pieces<'a> {
    left: Vec<io::Result<&'a [u8]>>,
    output: &'a RefCell<Vec<u8>>,
    seen: &'a RefCell<Vec<usize>>,
}

impl Read for Pieces<'_> {
    fn read(&mut self, buffer: &mut [u8]) -> io::Result<usize> {
        self.seen.borrow_mut().push(self.output.borrow().len());
        match self.left.pop() {
            Some(piece) => piece?.read(buffer),
            None => Ok(0),
        }
    }
}

struct Shared<'a>(&'a RefCell<Vec<u8>>);

impl Write for Shared<'_> {
    fn write(&mut self, bytes: &[u8]) -> io::Result<usize> {
        self.0.borrow_mut().write(bytes)
    }

    fn flush(&mut self) -> io::Result<()> {
        Ok(())
    }
}

/// What these pieces give, in turn: the answer, the text, and the text's length
/// at each read.
fn list_pieces(pieces: Vec<io::Result<&[u8]>>) -> (Result<(), Failure>, String, Vec<usize>) {
    let (output, seen) = (RefCell::default(), RefCell::default());
    let input = Pieces {
        left: pieces.into_iter().rev().collect(),
        output: &output,
        seen: &seen,
    };
    let answer = list(input, Shared(&output));
    let text = String::from_utf8(output.take()).expect("ASCII");
    (answer, text, seen.take())
}

#[test]
fn lines_appear_as_input_arrives() {
    let frame = framed(&HEARTBEAT);
    let interrupted = Err(ErrorKind::Interrupted.into());
    let pieces = vec![Ok(&frame[..5]), interrupted, Ok(&frame[5..]), Ok(&[0x07])];
    let (answer, text, seen) = list_pieces(pieces);
    assert!(answer.is_ok());
    assert_eq!(text, "n at ans id len pos\n1 1 0 0 7 -\nend 0 1\n");
    assert_eq!(seen, [20, 20, 20, 32, 32]);
}

#[test]
fn failed_read_keeps_the_lines_before_it() {
    let frame = framed(&HEARTBEAT);
    let pieces = vec![Ok(&frame[..]), Err(ErrorKind::Other.into()), Ok(&frame)];
    let (answer, text, _) = list_pieces(pieces);
    assert!(matches!(answer, Err(Failure::Reading(_))));
    assert_eq!(text, "n at ans id len pos\n1 1 0 0 7 -\n");
}

#[test]
fn full_output_ends_the_listing() {
    let frames = framed(&[HEARTBEAT_ID; 3]).repeat(10 * BLOCK);
    for room in [0, 19, 20, 100] {
        let mut input = &frames[..];
        let answer = list(&mut input, &mut vec![0; room][..]);
        assert!(matches!(answer, Err(Failure::Writing(_))), "{room}");
        assert!(input.len() + BLOCK >= frames.len(), "{room}");
    }
}

/// The five as numbers, which is how the formats define them.
fn captures() -> [[u8; 4]; 5] {
    let [microseconds, nanoseconds] = [0xA1B2_C3D4_u32, 0xA1B2_3C4D];
    [
        microseconds.to_be_bytes(),
        microseconds.to_le_bytes(),
        nanoseconds.to_be_bytes(),
        nanoseconds.to_le_bytes(),
        0x0A0D_0D0A_u32.to_be_bytes(),
    ]
}

#[test]
fn captures_are_noted() {
    assert_eq!(CAPTURES, captures());
    for capture in captures() {
        assert_eq!(note(&capture), Some(Note::Capture));
        for behind in [&[0x00; 20], &framed(&HEARTBEAT)[..], &[FLAG], &capture] {
            let stream = [&capture, behind].concat();
            assert_eq!(note(&stream), Some(Note::Capture), "{stream:02X?}");
        }
    }
}

/// No two of the five differ in a single byte.
#[test]
fn a_changed_byte_is_no_capture() {
    for capture in captures() {
        for at in 0..4 {
            for byte in (0..=255).filter(|&byte| byte != capture[at]) {
                let mut changed = capture;
                changed[at] = byte;
                let expected = (byte != FLAG).then_some(Note::NoFlag);
                assert_eq!(note(&changed), expected, "{changed:02X?}");
                assert_eq!(note(&[&changed[..], &[FLAG]].concat()), None);
            }
        }
    }
}

#[test]
fn a_part_of_a_beginning_is_no_capture() {
    for capture in captures() {
        for length in 1..4 {
            let part = &capture[..length];
            assert_eq!(note(part), Some(Note::NoFlag), "{part:02X?}");
            assert_eq!(note(&[part, &[FLAG]].concat()), None, "{part:02X?}");
        }
    }
}

/// Only the first four bytes count.
#[test]
fn a_beginning_further_on_is_no_capture() {
    for capture in captures() {
        assert_eq!(note(&[&[0x00], &capture[..]].concat()), Some(Note::NoFlag));
        let doubled = [&capture[..1], &capture].concat();
        assert_eq!(note(&doubled), Some(Note::NoFlag));
        assert_eq!(note(&[&[FLAG], &capture[..]].concat()), None);
        assert_eq!(note(&[&framed(&HEARTBEAT)[..], &capture].concat()), None);
    }
}

#[test]
fn notes_of_no_byte_and_of_one() {
    assert_eq!(note(&[]), Some(Note::Empty));
    for byte in 0..=255 {
        let expected = (byte != FLAG).then_some(Note::NoFlag);
        assert_eq!(note(&[byte]), expected, "{byte:02X}");
    }
}

#[test]
fn one_flag_anywhere_is_enough() {
    for at in 0..20 {
        let mut stream = [ESCAPE; 20];
        assert_eq!(note(&stream), Some(Note::NoFlag));
        stream[at] = FLAG;
        assert_eq!(note(&stream), None, "{at}");
    }
}

#[test]
fn flags_over_the_limit_do_not_count() {
    let stream = [0x55, 0x55, 0x55, FLAG, FLAG];
    assert_eq!(note_up_to(3, &stream), Some(Note::NoFlag));
    assert_eq!(note_up_to(4, &stream), None);
}
