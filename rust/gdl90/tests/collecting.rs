//! Collecting with types: a refusal says why and where the frame broke, and the
//! tally how often each answer was given, however the stream is cut.

use std::error::Error as _;

use gdl90::raw::{self, FeedControl};
use gdl90::{Collector, Error, Received, Refusal, Tally};

/// The message and check sequence of 001 §2.2.4.
const HEARTBEAT: [u8; 9] = [0x00, 0x81, 0x41, 0xDB, 0xD0, 0x08, 0x02, 0xB3, 0x8B];

const fn refused(error: Error, position: usize) -> Option<Refusal> {
    Some(Refusal { error, position })
}

/// What stands between two flags, and why and where it is refused: each number of
/// collecting's (RULES 'Collecting').
const FRAMES: [(&[u8], Option<Refusal>); 9] = [
    (&HEARTBEAT, None),
    (&[0x02, 0x7D, 0x00, 0x01], refused(Error::BadEscape, 3)),
    (&[0x7D, 0x5D, 0x7D], refused(Error::EscapeBeforeFlag, 3)),
    (&[0x55; 441], refused(Error::FrameTooLong, 439)),
    (&HEARTBEAT, None),
    (&[0x07], refused(Error::FrameTooShort, 1)),
    (&[0x7D, 0x5E, 0x7D, 0x5E], refused(Error::FrameTooShort, 4)),
    (&[0x7D, 0x5E, 0x01, 0x00], refused(Error::CheckSequence, 4)),
    (&HEARTBEAT, None),
];

/// How many of them have each answer.
const COUNTS: [u32; 6] = [3, 1, 1, 1, 2, 1];

/// The frames behind a lead-in, with two flags between each and the next.
fn stream() -> Vec<u8> {
    let frames = FRAMES.map(|(bytes, _)| [&[0x7E], bytes, &[0x7E]].concat());
    [&[0x55, 0x7D], &frames.concat()[..]].concat()
}

fn expected() -> Vec<Result<&'static [u8], Refusal>> {
    let answers = FRAMES.map(|(_, refusal)| refusal.map_or(Ok(&HEARTBEAT[..7]), Err));
    answers.to_vec()
}

/// Answers as `expected` has them.
fn plain(answers: &[Result<Received, Refusal>]) -> Vec<Result<&[u8], Refusal>> {
    let answers = answers.iter().map(|answer| answer.as_deref());
    answers
        .map(|answer| answer.map_err(|refusal| *refusal))
        .collect()
}

#[test]
fn answers_of_a_stream_in_pieces() {
    let stream = stream();
    for length in 1..=stream.len() {
        let mut collector = Collector::new();
        let mut answers = Vec::new();
        for piece in stream.chunks(length) {
            answers.extend(collector.answers(piece));
        }
        assert_eq!(plain(&answers), expected(), "{length}");
        assert_eq!(collector.tally().counts, COUNTS, "{length}");
    }
}

#[test]
fn answers_of_feeding() {
    let stream = stream();
    let mut collector = Collector::new();
    let mut expected = expected().into_iter();
    let mut rest = &stream[..];
    while !rest.is_empty() {
        let fed = collector.feed(rest);
        rest = &rest[fed.taken..];
        assert_eq!(fed.answer, expected.next());
    }
    assert_eq!(expected.next(), None);
}

/// The 439th byte, escaped, is met at its second byte.
#[test]
fn the_largest_position() {
    let stream = [&[0x7E], &[0x7D, 0x5E].repeat(439)[..], &[0x7D, 0x00, 0x7E]].concat();
    let answers = Collector::new()
        .answers(&stream)
        .map(Result::err)
        .collect::<Vec<_>>();
    assert_eq!(answers, [refused(Error::FrameTooLong, 878)]);
}

#[test]
fn a_refusal_is_an_error() {
    let refusal = Refusal {
        error: Error::CheckSequence,
        position: 9,
    };
    assert_eq!(refusal.to_string(), "the check sequence differs, at byte 9");
    assert!(refusal.source().is_none(), "the words would come twice");
}

/// The first message's id, or why there is none.
fn first_id<E: From<Refusal> + From<Error>>(stream: &[u8]) -> Result<u8, E> {
    let first = Collector::new().answers(stream).next();
    let received = first.ok_or(Error::UnknownId)??;
    received.message()?;
    Ok(received[0])
}

/// As an `Error` it loses its position, in a box it keeps it.
#[test]
fn refusals_are_handed_on() {
    let flag: &[u8] = &[0x7E];
    let broken = [flag, FRAMES[1].0, flag].concat();
    assert_eq!(first_id::<Error>(&broken), Err(Error::BadEscape));
    let boxed = first_id::<Box<dyn std::error::Error>>(&broken).unwrap_err();
    let refusal = boxed.downcast_ref::<Refusal>();
    assert_eq!(refusal.map(|refusal| refusal.position), Some(3));
    let whole = [flag, &HEARTBEAT, flag].concat();
    assert_eq!(first_id::<Error>(&whole), Ok(0));
    let unknown = gdl90::framed(&[1]).unwrap();
    assert_eq!(first_id::<Error>(&unknown), Err(Error::UnknownId));
}

/// An answer is counted as it is given, not before.
#[test]
fn answers_are_counted_one_by_one() {
    let stream = stream();
    let mut collector = Collector::new();
    let mut rest = &stream[..];
    for given in 0..=FRAMES.len() {
        let numbers = FRAMES[..given].iter().map(|(_, refusal)| match refusal {
            Some(refusal) => refusal.error.number(),
            None => 0,
        });
        let mut tally = Tally::default();
        numbers.for_each(|number| tally.counts[usize::from(number)] += 1);
        assert_eq!(collector.tally(), tally);
        let mut answers = collector.answers(rest);
        assert_eq!(answers.next().is_some(), given < FRAMES.len());
        rest = answers.rest();
    }
}

/// Neither does the frame that is open lose a byte, nor is it counted twice.
#[test]
fn a_tally_is_zeroed_within_a_frame() {
    let stream = stream();
    for cut in 0..=stream.len() {
        let (before, behind) = stream.split_at(cut);
        let mut collector = Collector::new();
        let mut answers: Vec<_> = collector.answers(before).collect();
        let first = answers.len();
        let kept = collector.clone();
        collector.reset_tally();
        assert_eq!(collector.tally(), Tally::default());
        answers.extend(collector.answers(behind));
        assert_eq!(plain(&answers), expected(), "{cut}");
        assert_eq!(kept.tally().total(), first as u64);
        assert_eq!(collector.tally().total(), (FRAMES.len() - first) as u64);
    }
}

#[test]
fn counts_by_error() {
    let counts = [9, 1, 22, 333, 4_444, u32::MAX];
    let tally = Tally { counts };
    assert_eq!(tally.accepted(), 9);
    for error in (1..=u8::MAX).filter_map(Error::from_number) {
        let count = counts.get(usize::from(error.number()));
        assert_eq!(tally.refused(error), *count.unwrap_or(&0), "{error}");
    }
    assert_eq!(tally.total(), 9 + 1 + 22 + 333 + 4_444 + 4_294_967_295);
}

#[test]
fn tallies_in_words() {
    let words = |counts| Tally { counts }.to_string();
    assert_eq!(words([0; 6]), "0 accepted");
    assert_eq!(words([12, 0, 0, 0, 0, 1]), "12 accepted, refused with 5: 1");
    assert_eq!(
        words([u32::MAX, 1, 0, u32::MAX - 1, 0, u32::MAX]),
        "4294967295 or more accepted, \
         refused with 1: 1, with 3: 4294967294, with 5: 4294967295 or more"
    );
}

/// Of the functions for C the one with a tally answers as the other does, and
/// counts up to the hold.
#[test]
fn counts_hold() {
    let stream = stream();
    let (mut room, mut message) = ([0; raw::ROOM], [0; raw::MESSAGE_MAX]);
    let (mut room_beside, mut message_beside) = (room, message);
    let mut control = FeedControl::default();
    let counts = [u32::MAX - 1, u32::MAX, u32::MAX - 1, 7, u32::MAX - 1, 0];
    let mut tally = Tally { counts };
    let mut rest = &stream[..];
    while !rest.is_empty() {
        let fed = raw::feed_tallied(control, &mut room, &mut message, rest, &mut tally);
        let beside = raw::feed(control, &mut room_beside, &mut message_beside, rest);
        assert_eq!(fed, beside);
        control = fed.control;
        rest = &rest[fed.taken..];
    }
    let held = [u32::MAX, u32::MAX, u32::MAX, 8, u32::MAX, 1];
    assert_eq!(tally.counts, held);
    assert_eq!((room, message), (room_beside, message_beside));
}
