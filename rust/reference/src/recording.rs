//! Made-up recordings of a stream, whole frames and damaged ones, the same for
//! the same seed.

use crate::collecting::{answers, ROOM};
use crate::fcs::check_sequence;
use crate::framing::{frame, stuff, Framed, ESCAPE, FLAG, MESSAGE_MAX};
use crate::messages::{HEARTBEAT_ID, LENGTHS, OWNSHIP_ID, TRAFFIC_ID, UPLINK_ID};
use crate::samples;
use crate::xorshift::Xorshift;

const SPEED_LENGTH: usize = 1 << 20;

/// Makes what is sent in place of the message's frame.
type Damage = fn(&mut Xorshift, &[u8]) -> Vec<u8>;

const DAMAGES: [Damage; 14] = [
    flipped_message,
    flipped_sequence,
    flipped_on_the_line,
    bad_escape,
    escape_before_flag,
    escape_run,
    too_long,
    full_and_escape,
    too_short,
    truncated,
    doubled_flags,
    empty_stretches,
    lead_in,
    garbage,
];

/// The message's frame in bytes of its own.
pub fn framed(message: &[u8]) -> Vec<u8> {
    let mut out = vec![0; 2 * message.len() + 6];
    match frame(message, &mut out) {
        Framed::Bytes(length) => out.truncate(length),
        Framed::Refused(number) => panic!("refused with {number}: {message:02X?}"),
    }
    out
}

/// Any bytes stuffed between two flags, with no check sequence added.
pub fn between_flags(bytes: &[u8]) -> Vec<u8> {
    let mut out = vec![FLAG; 2 * bytes.len() + 2];
    let end = stuff(bytes, &mut out, 1);
    out[end] = FLAG;
    out.truncate(end + 1);
    out
}

/// A stream of this length: lead-in, then whole and damaged frames in equal
/// number. What stands at the end is cut off.
pub fn mixed(random: &mut Xorshift, length: usize) -> Vec<u8> {
    let lead_in = random.below(20);
    let mut out = without_flags(random, lead_in);
    while out.len() < length {
        let message = any_message(random);
        let part = match random.below(2) {
            0 => framed(&message),
            _ => damaged(random, &message),
        };
        // Two frames may share the flag between them (RULES 'Collecting').
        if random.below(4) == 0 && out.last() == Some(&FLAG) && part.first() == Some(&FLAG) {
            out.pop();
        }
        out.extend(part);
    }
    out.truncate(length);
    out
}

/// A stream of 0 to 20 bytes out of the few that matter to collecting.
pub fn tiny(random: &mut Xorshift) -> Vec<u8> {
    let length = random.below(21);
    (0..length)
        .map(|_| [FLAG, ESCAPE, 0x5E, 0x5D, 0x00, 0x07][random.below(6)])
        .collect()
}

/// One MiB: a third of it uplinks, the rest heartbeats, ownship and traffic;
/// one frame in 40 damaged. Behind the id the messages are random bytes.
pub fn speed_recording() -> Vec<u8> {
    traffic_of(SPEED_LENGTH, |random, id| {
        random.message_with_id(id, length_of(id))
    })
}

/// The same mix in this length, of messages that can be read.
pub fn readable_recording(length: usize) -> Vec<u8> {
    traffic_of(length, samples::whole)
}

/// Streams of one MiB that are no usual traffic, by name.
pub const SHAPES: [(&str, fn() -> Vec<u8>); 7] = [
    ("flags", || vec![FLAG; SPEED_LENGTH]),
    ("escapes", || repeated(vec![FLAG], |_| vec![ESCAPE; 1000])),
    ("lead_in", || {
        repeated(vec![], |random| without_flags(random, 1000))
    }),
    ("noise", || Xorshift::new(18).message(SPEED_LENGTH)),
    ("escaped", || {
        repeated(vec![], |_| framed(&[FLAG; MESSAGE_MAX]))
    }),
    ("bad_escapes", || {
        repeated(vec![], |_| vec![FLAG, ESCAPE, 0])
    }),
    ("faults", || repeated(vec![], faulty)),
];

fn repeated(mut out: Vec<u8>, part: impl Fn(&mut Xorshift) -> Vec<u8>) -> Vec<u8> {
    let mut random = Xorshift::new(19);
    while out.len() < SPEED_LENGTH {
        out.extend(part(&mut random));
    }
    out.truncate(SPEED_LENGTH);
    out
}

/// What is sent in place of a frame, and refused where a flag follows.
fn faulty(random: &mut Xorshift) -> Vec<u8> {
    loop {
        let message = any_message(random);
        let part = damaged(random, &message);
        let kept = answers(&[&part[..], &[FLAG]].concat());
        if part.first() == Some(&FLAG)
            && !kept.is_empty()
            && kept.iter().all(|kept| kept.number != 0)
        {
            return part;
        }
    }
}

/// Makes a message of the kind with this id.
type Make = fn(&mut Xorshift, u8) -> Vec<u8>;

fn traffic_of(length: usize, make: Make) -> Vec<u8> {
    let mut random = Xorshift::new(6);
    let mut out = Vec::new();
    let mut uplinks = 0;
    while out.len() < length {
        let id = typical_id(&mut random, 3 * uplinks <= out.len());
        let message = make(&mut random, id);
        let part = match random.below(40) {
            0 => damaged(&mut random, &message),
            _ => framed(&message),
        };
        if id == UPLINK_ID {
            uplinks += part.len();
        }
        out.extend(part);
    }
    out.truncate(length);
    out
}

fn typical_id(random: &mut Xorshift, uplink: bool) -> u8 {
    match random.below(4) {
        _ if uplink => UPLINK_ID,
        0 => HEARTBEAT_ID,
        1 => OWNSHIP_ID,
        _ => TRAFFIC_ID,
    }
}

/// As in 001 §3.
fn length_of(id: u8) -> usize {
    let kind = LENGTHS.iter().find(|kind| kind.0 == id);
    kind.expect("an id of 001").1
}

/// Short ones more often, so that a stream has many frames.
fn any_message(random: &mut Xorshift) -> Vec<u8> {
    let bound = [4, 40, 40, MESSAGE_MAX][random.below(4)];
    let length = match random.below(16) {
        0 => MESSAGE_MAX,
        _ => 1 + random.below(bound),
    };
    let eighths = [0, 0, 1, 4, 8][random.below(5)];
    random.message_with_escapes(length, eighths)
}

fn damaged(random: &mut Xorshift, message: &[u8]) -> Vec<u8> {
    DAMAGES[random.below(DAMAGES.len())](random, message)
}

/// Flips one to four bits.
pub(crate) fn flip_bits(random: &mut Xorshift, bytes: &mut [u8]) {
    for _ in 0..=random.below(4) {
        let at = random.below(bytes.len());
        bytes[at] ^= 1 << random.below(8);
    }
}

fn flipped_message(random: &mut Xorshift, message: &[u8]) -> Vec<u8> {
    let mut flipped = message.to_vec();
    flip_bits(random, &mut flipped);
    flipped.extend(check_sequence(message).to_le_bytes());
    between_flags(&flipped)
}

fn flipped_sequence(random: &mut Xorshift, message: &[u8]) -> Vec<u8> {
    let mut sequence = check_sequence(message).to_le_bytes();
    flip_bits(random, &mut sequence);
    between_flags(&[message, &sequence].concat())
}

/// Flips in the stuffed frame: flags and escapes may come and go.
fn flipped_on_the_line(random: &mut Xorshift, message: &[u8]) -> Vec<u8> {
    let mut frame = framed(message);
    flip_bits(random, &mut frame);
    frame
}

/// The frame with these bytes somewhere between its flags.
fn with_inside(random: &mut Xorshift, message: &[u8], bytes: &[u8]) -> Vec<u8> {
    let mut frame = framed(message);
    let at = 1 + random.below(frame.len() - 1);
    frame.splice(at..at, bytes.iter().copied());
    frame
}

fn bad_escape(random: &mut Xorshift, message: &[u8]) -> Vec<u8> {
    let byte = match random.below(4) {
        0 => ESCAPE,
        1 => 0x5C,
        2 => 0x5F,
        _ => 0x80 | random.below(0x80) as u8,
    };
    with_inside(random, message, &[ESCAPE, byte])
}

fn escape_before_flag(_: &mut Xorshift, message: &[u8]) -> Vec<u8> {
    let mut frame = framed(message);
    frame.insert(frame.len() - 1, ESCAPE);
    frame
}

fn escape_run(random: &mut Xorshift, message: &[u8]) -> Vec<u8> {
    let run = vec![ESCAPE; 1 + random.below(10)];
    with_inside(random, message, &run)
}

/// Right but for its length.
fn too_long(random: &mut Xorshift, _: &[u8]) -> Vec<u8> {
    let length = MESSAGE_MAX + 1 + random.below(3) * random.below(40);
    let eighths = random.below(5);
    let mut bytes = random.message_with_escapes(length, eighths);
    bytes.extend(check_sequence(&bytes).to_le_bytes());
    between_flags(&bytes)
}

/// A full room and an escape: the byte behind it decides between 1, 2 and 3.
fn full_and_escape(random: &mut Xorshift, _: &[u8]) -> Vec<u8> {
    let mut frame = between_flags(&random.message(ROOM));
    let behind = [0x5D, 0x5E, 0x00, ESCAPE, FLAG][random.below(5)];
    frame.pop();
    frame.extend([ESCAPE, behind, FLAG]);
    frame
}

fn too_short(random: &mut Xorshift, _: &[u8]) -> Vec<u8> {
    let length = 1 + random.below(2);
    between_flags(&random.message_with_escapes(length, 2))
}

/// Broken off before the closing flag.
fn truncated(random: &mut Xorshift, message: &[u8]) -> Vec<u8> {
    let mut frame = framed(message);
    frame.truncate(1 + random.below(frame.len() - 1));
    frame
}

fn doubled_flags(_: &mut Xorshift, message: &[u8]) -> Vec<u8> {
    [&[FLAG], &framed(message)[..], &[FLAG]].concat()
}

/// Flags with nothing between them, and no frame.
fn empty_stretches(random: &mut Xorshift, _: &[u8]) -> Vec<u8> {
    vec![FLAG; 2 + random.below(6)]
}

/// Bytes in front of the frame that belong to none.
fn lead_in(random: &mut Xorshift, message: &[u8]) -> Vec<u8> {
    let length = 1 + random.below(20);
    let mut bytes = without_flags(random, length);
    bytes.extend(framed(message));
    bytes
}

fn garbage(random: &mut Xorshift, _: &[u8]) -> Vec<u8> {
    let length = random.below(100);
    let eighths = random.below(5);
    random.message_with_escapes(length, eighths)
}

fn without_flags(random: &mut Xorshift, length: usize) -> Vec<u8> {
    let mut bytes = random.message_with_escapes(length, 1);
    bytes.retain(|&byte| byte != FLAG);
    bytes
}

#[cfg(test)]
mod tests {
    use super::*;
    use crate::collecting::Kept;
    use crate::messages::read;

    fn count(kept: &[Kept], wanted: impl Fn(&Kept) -> bool) -> usize {
        kept.iter().filter(|kept| wanted(kept)).count()
    }

    #[test]
    fn mixed_streams_have_every_answer() {
        let stream = mixed(&mut Xorshift::new(8), 100_000);
        assert_eq!(stream.len(), 100_000);
        assert_eq!(stream, mixed(&mut Xorshift::new(8), 100_000));
        let kept = answers(&stream);
        for number in 0..=5 {
            assert!(count(&kept, |kept| kept.number == number) >= 20);
        }
    }

    #[test]
    fn tiny_streams_have_the_answers_of_short_frames() {
        let mut random = Xorshift::new(9);
        let kept: Vec<Kept> = (0..10_000)
            .flat_map(|_| answers(&tiny(&mut random)))
            .collect();
        for number in [0, 1, 2, 4, 5] {
            assert!(count(&kept, |kept| kept.number == number) >= 20);
        }
    }

    #[test]
    fn speed_recordings_are_as_described() {
        for stream in [speed_recording(), readable_recording(SPEED_LENGTH)] {
            assert_eq!(stream.len(), 1 << 20);
            let kept = answers(&stream);
            let uplinks = count(&kept, |kept| kept.message.len() == MESSAGE_MAX);
            assert!((30..=36).contains(&(uplinks * 440 * 100 / stream.len())));
            let refused = count(&kept, |kept| kept.number != 0);
            assert!((30..=80).contains(&(kept.len() / refused)));
            for number in 1..=5 {
                assert!(count(&kept, |kept| kept.number == number) > 0);
            }
        }
    }

    #[test]
    fn shapes_are_as_described() {
        for (name, stream) in SHAPES.map(|(name, stream)| (name, stream())) {
            assert_eq!(stream.len(), SPEED_LENGTH, "{name}");
            let kept = answers(&stream);
            let whole = count(&kept, |kept| kept.number == 0);
            match name {
                "noise" => assert!(kept.len() > 3_000 && whole < 10),
                "escaped" => assert!(kept.len() > 1_000 && whole == kept.len()),
                "bad_escapes" => assert!(kept.len() > 300_000 && whole == 0),
                "faults" => assert!(kept.len() > 5_000 && whole == 0),
                _ => assert_eq!(kept, [], "{name}"),
            }
        }
    }

    #[test]
    fn readable_recording_is_read() {
        let kept = answers(&readable_recording(1 << 18));
        for id in [HEARTBEAT_ID, UPLINK_ID, OWNSHIP_ID, TRAFFIC_ID] {
            let of_kind = |kept: &Kept| kept.message.first() == Some(&id);
            let unread = |kept: &Kept| of_kind(kept) && read(&kept.message).is_err();
            assert!(count(&kept, of_kind) > 100, "id {id}");
            assert!(count(&kept, unread) < 5, "id {id}");
        }
    }
}
