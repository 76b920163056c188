//! Recordings read as a whole (RULES 'Recordings'): answers written out by hand, a
//! collector's answers to the same bytes, and the function for C with about as much
//! lent as it needs.

mod second_opinion;

use gdl90::raw::{self, RecordingAnswer};
use gdl90::{Collector, Error, Recording};
use second_opinion::{
    assert_second_opinion, expected, recording, refused, Answer, FRAMES, HEARTBEAT, LEAD_IN,
};

/// These are the answers, and a collector has them too.
#[track_caller]
fn assert_answers(bytes: &[u8], expected: &[Answer]) {
    let recording = Recording::read(bytes);
    let answers: Vec<Answer> = recording.answers().collect();
    assert_eq!(answers, expected, "{bytes:02X?}");
    assert_eq!(recording.len(), expected.len());
    assert_eq!(recording.is_empty(), expected.is_empty());
    assert_collected(bytes);
}

#[track_caller]
fn assert_collected(bytes: &[u8]) {
    let fed: Vec<_> = Collector::new().answers(bytes).collect();
    assert_second_opinion(bytes, &fed);
}

/// No bytes, no flag, a frame that is not opened or not closed.
#[test]
fn no_answers() {
    let not_opened = [&HEARTBEAT[..], &[0x7E]].concat();
    let not_closed = [&LEAD_IN[..], &[0x7E], &HEARTBEAT].concat();
    for bytes in [
        &[],
        &[0x55][..],
        &[0x7E],
        &LEAD_IN,
        &not_opened,
        &not_closed,
    ] {
        assert_answers(bytes, &[]);
    }
}

#[test]
fn flags_alone() {
    for length in 1..=100 {
        assert_answers(&[0x7E].repeat(length), &[]);
    }
}

#[test]
fn each_answer_alone() {
    for (between, answer) in FRAMES {
        let frame = [&[0x7E], between, &[0x7E]].concat();
        assert_answers(&frame, &[answer]);
        assert_answers(&[&LEAD_IN, &frame[..]].concat(), &[answer]);
        assert_answers(&[&frame[..], between].concat(), &[answer]);
    }
}

/// One flag closes a frame and opens the next; between two there is nothing.
#[test]
fn all_answers_in_their_order() {
    for flags in 1..=3 {
        let bytes = recording(flags);
        assert_answers(&bytes, &expected());
        assert_answers(&[&LEAD_IN, &bytes[..], &HEARTBEAT].concat(), &expected());
    }
}

/// Where the 439th byte is escaped, it is met at its second byte.
#[test]
fn the_largest_position() {
    let escaped = [0x7D, 0x5E].repeat(439);
    for behind in [&[0x7E][..], &[0x7D, 0x7E], &[0x00, 0x7D, 0x00, 0x7E]] {
        let bytes = [&[0x7E], &escaped[..], behind].concat();
        assert_answers(&bytes, &[refused(Error::FrameTooLong, 878)]);
    }
}

/// Of every length, the last of them at its longest as a frame too.
#[test]
fn messages_of_every_length() {
    let messages = (1..=436).map(|length| {
        let bytes = (0..length).map(|place| (29 * place + length) as u8);
        bytes.collect::<Vec<u8>>()
    });
    let messages: Vec<Vec<u8>> = messages.chain([vec![0x7E; 436]]).collect();
    let frames = messages.iter().map(|message| gdl90::framed(message));
    let bytes = frames.collect::<Result<Vec<_>, _>>().expect("frames");
    let expected: Vec<Answer> = messages.iter().map(|message| Ok(&message[..])).collect();
    assert_answers(&bytes.concat(), &expected);
}

/// As many answers as so many bytes can have: the list is then full.
#[test]
fn the_most_answers() {
    for count in 0..100 {
        let bytes = [&[0x7E], &[0x07, 0x7E].repeat(count)[..]].concat();
        let expected = [refused(Error::FrameTooShort, 1)].repeat(count);
        assert_answers(&bytes, &expected);
        assert_answers(&[&bytes[..], &[0x07]].concat(), &expected);
    }
}

/// From every byte on, and up to every byte.
#[test]
fn parts_of_a_recording() {
    let bytes = [&LEAD_IN, &recording(2)[..], &HEARTBEAT].concat();
    for cut in 0..=bytes.len() {
        let (before, behind) = bytes.split_at(cut);
        assert_collected(before);
        assert_collected(behind);
    }
}

#[test]
fn answers_are_counted_down() {
    let recording = Recording::read(&recording(1));
    let mut answers = recording.answers();
    for left in (0..FRAMES.len()).rev() {
        assert!(answers.next().is_some());
        assert_eq!(answers.len(), left);
        assert_eq!(answers.clone().count(), left);
    }
    assert_eq!((answers.next(), answers.next()), (None, None));
    assert!((&recording).into_iter().eq(recording.answers()));
}

/// What stands around the frames leaves nothing in them.
#[test]
fn recordings_are_compared_by_their_answers() {
    let bytes = recording(1);
    let longer = [&LEAD_IN, &recording(2)[..], &HEARTBEAT].concat();
    let recording = Recording::read(&bytes);
    assert_eq!(recording, Recording::read(&longer));
    assert_ne!(recording, Recording::read(&bytes[..bytes.len() - 1]));
    let (short, broken) = ([0x7E, 0x07, 0x7E], [0x7E, 0x7D, 0x7E]);
    assert_ne!(Recording::read(&short), Recording::read(&broken));
}

#[test]
fn recordings_are_shown_as_their_answers() {
    let bytes = [gdl90::framed(&[2, 0, 1]).unwrap(), vec![0x07, 0x7E]].concat();
    assert_eq!(
        format!("{:?}", Recording::read(&bytes)),
        "[Ok([2, 0, 1]), Err(Refusal { error: FrameTooShort, position: 1 })]"
    );
    assert_eq!(format!("{:?}", Recording::read(&[])), "[]");
}

#[test]
fn answers_are_shown_that_are_still_to_come() {
    let recording = Recording::read(&[0x7E, 0x07, 0x7E, 0x7D, 0x7E]);
    let mut answers = recording.answers();
    assert_eq!(format!("{answers:?}"), format!("{recording:?}"));
    answers.next();
    assert_eq!(
        format!("{answers:?}"),
        "[Err(Refusal { error: EscapeBeforeFlag, position: 1 })]"
    );
}

/// Numbers of the entries, and the messages one behind the other.
fn flat(answers: &[Answer]) -> (Vec<usize>, Vec<u8>) {
    let (mut list, mut messages) = (Vec::new(), Vec::new());
    for answer in answers {
        match answer {
            Ok(message) => {
                list.extend([0, 0, message.len()]);
                messages.extend_from_slice(message);
            }
            Err(refusal) => list.extend([refusal.error.number().into(), refusal.position, 0]),
        }
    }
    (list, messages)
}

/// How many numbers and bytes are lent.
type Size = (usize, usize);

/// The function for C, lent a list and memory for messages of this size: with 0 only
/// what is written changes, with 9 nothing.
#[track_caller]
fn assert_reads(bytes: &[u8], answers: &[Answer], size: Size, number: u8) {
    let mut list: Vec<usize> = (0..size.0).map(|place| usize::MAX - place).collect();
    let mut messages: Vec<u8> = (0..size.1).map(|place| (29 * place + 0xA5) as u8).collect();
    let (mut list_after, mut messages_after) = (list.clone(), messages.clone());
    let (mut entries, mut result) = (0, Err(Error::NoRoom));
    if number == 0 {
        let (entry_numbers, message_bytes) = flat(answers);
        list_after[..entry_numbers.len()].copy_from_slice(&entry_numbers);
        messages_after[..message_bytes.len()].copy_from_slice(&message_bytes);
        (entries, result) = (answers.len(), Ok(answers.len()));
    }
    let answer = raw::read_recording(bytes, &mut list, &mut messages);
    assert_eq!(answer, RecordingAnswer { number, entries });
    assert_eq!(answer.result(), result);
    assert_eq!(list, list_after, "{size:?}");
    assert_eq!(messages, messages_after, "{size:?}");
}

/// From no list to more than enough, with as many bytes for messages as they have,
/// one more and one less.
#[test]
fn lists_of_every_length() {
    let bytes = recording(1);
    for count in 1..=FRAMES.len() {
        let answers = &expected()[..count];
        let frames: usize = FRAMES[..count].iter().map(|(frame, _)| frame.len()).sum();
        let bytes = &bytes[..frames + count + 1];
        let enough = 3 * count;
        let messages = flat(answers).1.len();
        for numbers in enough..=enough + 6 {
            assert_reads(bytes, answers, (numbers, messages), 0);
            assert_reads(bytes, answers, (numbers, messages + 1), 0);
            assert_reads(bytes, answers, (numbers, messages - 1), 9);
            assert_reads(bytes, answers, (numbers, 0), 9);
        }
        for numbers in 0..enough {
            assert_reads(bytes, answers, (numbers, messages), 9);
            assert_reads(bytes, answers, (numbers, bytes.len()), 9);
            assert_reads(bytes, answers, (numbers, messages - 1), 9);
        }
        let most = 3 * (bytes.len() / 2);
        assert_reads(bytes, answers, (most, bytes.len()), 0);
    }
}

/// Nothing has to be lent for nothing, nor memory of messages for refusals.
#[test]
fn nothing_lent() {
    for bytes in [&[], &[0x7E][..], &LEAD_IN, &[0x7E, 0x7E, 0x55]] {
        assert_reads(bytes, &[], (0, 0), 0);
        assert_reads(bytes, &[], (2, 1), 0);
    }
    let answers = [refused(Error::FrameTooShort, 1)];
    assert_reads(&[0x7E, 0x07, 0x7E], &answers, (3, 0), 0);
    assert_reads(&[0x7E, 0x07, 0x7E], &answers, (2, 0), 9);
}
