//! The proved library and the reference collect the same from any stream.

use compare::answers_by_value;
use compare::collecting::{
    any_bytes, made_up_control, next_piece, random_room, state, without_flags, Both, Caller,
};
use gdl90::raw::{FeedAnswer, FeedControl};
use gdl90::{Collector, Refusal};
use reference::collecting::{answers, Answer, Kept, ROOM};
use reference::framing::{ESCAPE, FLAG, MESSAGE_MAX};
use reference::recording::{mixed, tiny};
use reference::state::{phase, STUFFED_MAX};
use reference::vectors::HEARTBEAT;
use reference::xorshift::Xorshift;

/// Bytes of all streams compared, unless the environment variable
/// GDL90_STREAM_BYTES says another number.
const STREAM_BYTES: usize = 1_000_000;
const MADE_UP_STATES: usize = 20_000;

/// The answer in the reference's terms.
fn answer<'a>(fed: &FeedAnswer, message: &'a [u8; MESSAGE_MAX]) -> Answer<'a> {
    match (fed.answered, fed.number) {
        (false, _) => Answer::None,
        (true, 0) => Answer::Message(&message[..fed.length]),
        (true, number) => Answer::Refused {
            number,
            position: fed.position,
        },
    }
}

/// Answers to a stream fed in pieces, a fresh state at its start.
fn proved_answers(stream: &[u8], mut piece: impl FnMut() -> usize) -> Vec<Kept> {
    let mut caller = Caller::fresh();
    let mut kept = Vec::new();
    let mut at = 0;
    while at < stream.len() {
        let mut left = &stream[at..stream.len().min(at + piece())];
        // An answer to the last byte leaves an empty piece, fed as well.
        loop {
            let fed = caller.feed(left);
            at += fed.taken;
            left = &left[fed.taken..];
            if !fed.answered {
                break;
            }
            kept.extend(Kept::new(at - 1, answer(&fed, &caller.message.lent)));
        }
    }
    kept
}

/// In one piece, byte by byte, and in random pieces, at times empty.
fn assert_answers_agree(stream: &[u8], random: &mut Xorshift) {
    let expected = answers(stream);
    let bound = [3, 20, 500, 2_000][random.below(4)];
    let whole = proved_answers(stream, || stream.len());
    assert_eq!(whole, expected, "in one piece: {stream:02X?}");
    let single = proved_answers(stream, || 1);
    assert_eq!(single, expected, "byte by byte: {stream:02X?}");
    let pieces = proved_answers(stream, || random.below(bound));
    assert_eq!(pieces, expected, "pieces below {bound}: {stream:02X?}");
}

fn stream_bytes() -> usize {
    match std::env::var("GDL90_STREAM_BYTES") {
        Ok(number) => number.parse().expect("GDL90_STREAM_BYTES is a number"),
        Err(_) => STREAM_BYTES,
    }
}

fn any_mixed(random: &mut Xorshift) -> Vec<u8> {
    let bound = [200, 2_000, 10_000][random.below(3)];
    let length = random.below(bound);
    mixed(random, length)
}

/// Compares streams, each of a seed of its own, until they have this many
/// bytes.
fn assert_streams_agree(seed: u64, total: usize, make: fn(&mut Xorshift) -> Vec<u8>) {
    let mut seeds = Xorshift::new(seed);
    let mut done = 0;
    while done < total {
        let mut random = Xorshift::new(seeds.next_u64());
        let stream = make(&mut random);
        assert_answers_agree(&stream, &mut random);
        done += stream.len();
    }
}

#[test]
fn mixed_streams_agree() {
    assert_streams_agree(0x0D15_EA5E, stream_bytes() / 4 * 3, any_mixed);
}

#[test]
fn tiny_streams_agree() {
    assert_streams_agree(0x5EED_7E7D, stream_bytes() / 4, tiny);
}

#[test]
fn empty_stream_gives_nothing() {
    let mut caller = Caller::fresh();
    let fed = caller.feed(&[]);
    assert_eq!(fed.control, FeedControl::default());
}

/// In pieces; what `Both` compares, it compares after each.
fn feed_all(both: &mut Both, bytes: &[u8], random: &mut Xorshift) {
    let mut left = bytes;
    while !left.is_empty() {
        let fed = both.feed(next_piece(left, random));
        left = &left[fed.taken..];
    }
}

#[test]
fn states_agree() {
    let mut random = Xorshift::new(0x57A7_E500);
    let mut done = 0;
    while done < stream_bytes() {
        let stream = any_mixed(&mut random);
        feed_all(&mut Both::fresh(), &stream, &mut random);
        done += stream.len();
    }
}

/// Number and position for these bytes between two flags, whole and byte by byte.
fn refused(parts: &[&[u8]]) -> (u8, usize) {
    let stream = [&[FLAG], &parts.concat()[..], &[FLAG]].concat();
    let whole = proved_answers(&stream, || stream.len());
    assert_eq!(whole, proved_answers(&stream, || 1), "{stream:02X?}");
    let [Kept {
        number, position, ..
    }] = whole[..]
    else {
        panic!("{whole:?} to {stream:02X?}");
    };
    (number, position)
}

/// With 1 and 3 up to and with the byte that is met, with 2, 4 and 5 up to the
/// flag.
#[test]
fn known_positions() {
    assert_eq!(refused(&[&HEARTBEAT, &[0xB3, 0x8B]]), (0, 0));
    assert_eq!(refused(&[&[ESCAPE, 0x00]]), (1, 2));
    assert_eq!(refused(&[&[0x07, ESCAPE, 0x5E, ESCAPE, 0x00]]), (1, 5));
    assert_eq!(refused(&[&[ESCAPE]]), (2, 1));
    assert_eq!(refused(&[&[0x07, ESCAPE, 0x5D, ESCAPE]]), (2, 4));
    assert_eq!(refused(&[&[0x07]]), (4, 1));
    assert_eq!(refused(&[&[ESCAPE, 0x5D, ESCAPE, 0x5E]]), (4, 4));
    assert_eq!(refused(&[&HEARTBEAT, &[0xB3, 0x8A]]), (5, 9));
    assert_eq!(refused(&[&[ESCAPE, 0x5E, 0x00, 0x00]]), (5, 4));
}

#[test]
fn known_positions_behind_a_full_room() {
    let (plain, escaped) = ([0x11; ROOM], [ESCAPE, 0x5E].repeat(ROOM));
    let behind: [(&[u8], u8, usize); 7] = [
        (&[], 5, 0),
        (&[0x11], 3, 1),
        (&[ESCAPE, 0x5E], 3, 2),
        (&[ESCAPE, 0x00], 1, 2),
        (&[ESCAPE], 2, 1),
        // What comes behind a fault moves no position.
        (&[0x11, ESCAPE, 0x00, 0x11, ESCAPE], 3, 1),
        (&[ESCAPE, 0x00, 0x11, ESCAPE], 1, 2),
    ];
    for (bytes, number, more) in behind {
        assert_eq!(refused(&[&plain, bytes]), (number, 438 + more));
        assert_eq!(refused(&[&escaped, bytes]), (number, 876 + more));
    }
}

/// An answer of the safe collector as the reference keeps it.
fn kept(at: usize, answer: Result<&[u8], Refusal>) -> Option<Kept> {
    let answer = match answer {
        Ok(message) => Answer::Message(message),
        Err(refusal) => Answer::Refused {
            number: refusal.error.number(),
            position: refusal.position,
        },
    };
    Kept::new(at, answer)
}

#[test]
fn safe_collector_agrees() {
    let mut random = Xorshift::new(0x00C0_11EC);
    for _ in 0..20 {
        let stream = any_mixed(&mut random);
        let mut collector = Collector::new();
        let mut all = Vec::new();
        let mut at = 0;
        while at < stream.len() {
            let fed = collector.feed(&stream[at..]);
            at += fed.taken;
            assert!(fed.answer.is_some() || at == stream.len());
            all.extend(fed.answer.and_then(|answer| kept(at - 1, answer)));
        }
        assert_eq!(all, answers(&stream), "{stream:02X?}");
    }
}

/// Slices of any length, at times empty, one collector for all of them.
#[test]
fn iterators_over_slices_agree() {
    let mut random = Xorshift::new(0x0017_E4A7);
    for _ in 0..200 {
        let stream = any_mixed(&mut random);
        let mut collector = Collector::default();
        let mut all = Vec::new();
        let mut start = 0;
        while start < stream.len() {
            let end = stream.len().min(start + random.below(700));
            let mut answers = collector.answers(&stream[start..end]);
            while let Some(answer) = answers.next() {
                let at = end - answers.rest().len() - 1;
                let answer = answer.as_ref().map(|message| &message[..]);
                all.extend(kept(at, answer.map_err(|refusal| *refusal)));
            }
            assert!(answers.next().is_none(), "an answer behind the last");
            assert!(answers.rest().is_empty());
            start = end;
        }
        assert_eq!(all, answers(&stream), "{stream:02X?}");
    }
}

/// What an iterator that is dropped did not take can be fed again.
#[test]
fn dropped_iterators_leave_the_rest() {
    let mut random = Xorshift::new(0x0D40_99ED);
    for _ in 0..50 {
        let stream = any_mixed(&mut random);
        let mut collector = Collector::new();
        let (mut all, mut rest) = (Vec::new(), &stream[..]);
        while !rest.is_empty() {
            let mut answers = collector.answers(rest);
            let answer = answers.next();
            rest = answers.rest();
            let at = stream.len() - rest.len() - 1;
            let answer = answer.as_ref().map(|answer| answer.as_deref());
            all.extend(answer.and_then(|answer| kept(at, answer.map_err(|refusal| *refusal))));
        }
        assert_eq!(all, answers(&stream), "{stream:02X?}");
    }
}

/// After every answer the state is that of one flag just seen
/// (RULES 'Collecting').
#[test]
fn answers_leave_the_state_of_one_flag() {
    let mut random = Xorshift::new(0x0F1A_6000);
    let one_flag = Caller::fresh().feed(&[FLAG]).control;
    for _ in 0..200 {
        let stream = any_mixed(&mut random);
        let mut caller = Caller::fresh();
        let mut left = &stream[..];
        while !left.is_empty() {
            let fed = caller.feed(left);
            left = &left[fed.taken..];
            if fed.answered {
                assert_eq!(fed.control, one_flag, "{fed:?}");
                assert!(caller.room.lent == [0; ROOM], "room after {fed:?}");
            }
        }
    }
}

/// From any count, stuffed bytes, phase and room on.
#[test]
fn made_up_states_agree() {
    let mut random = Xorshift::new(0x0BAD_57A7);
    for _ in 0..MADE_UP_STATES {
        let control = made_up_control(&mut random);
        let mut both = Both::new(control, random_room(&mut random));
        let bytes = any_bytes(&mut random);
        feed_all(&mut both, &bytes, &mut random);
    }
}

/// The 879th stuffed byte is taken, and the state that it leaves is taken as fresh
/// from the next byte on, in whatever pieces they come.
#[test]
fn made_up_states_pass_878_within_a_run() {
    let mut random = Xorshift::new(0x0878_0879);
    let (mut passed, mut faults) = (0, 0);
    for _ in 0..MADE_UP_STATES {
        let control = FeedControl {
            count: random.below(ROOM + 1),
            stuffed: STUFFED_MAX - random.below(6),
            phase: [phase::OPEN, phase::ESCAPE][random.below(2)],
        };
        let mut both = Both::new(control, random_room(&mut random));
        // 0x5D goes on behind an escape, 0x00 is a fault there.
        let mut bytes = vec![[0x5D, 0x00][random.below(2)]];
        bytes.extend(without_flags(&mut random, 14));
        bytes.push(FLAG);
        bytes.extend(tiny(&mut random));
        let bound = [2, 4, 200][random.below(3)];
        let mut left = &bytes[..];
        while !left.is_empty() {
            let piece = left.len().min(random.below(bound));
            let fed = both.feed(&left[..piece]);
            left = &left[fed.taken..];
            if fed.control.stuffed > STUFFED_MAX {
                passed += 1;
                faults += usize::from(fed.control.phase > phase::ESCAPE);
            }
        }
    }
    assert!(passed > 1_000 && faults > 100, "{passed} {faults}");
}

/// A count over 438, more than 878 stuffed bytes or a phase over 4 is the fresh
/// state, its room zero.
#[test]
fn states_out_of_range_are_fresh() {
    let mut random = Xorshift::new(0x0F4E_5400);
    let mut compared = 0;
    for _ in 0..MADE_UP_STATES {
        let control = made_up_control(&mut random);
        let room = random_room(&mut random);
        if state(control, room).is_out_of_range() {
            let mut caller = Caller::new(control, room);
            let bytes = any_bytes(&mut random);
            assert_as_fresh(&mut caller, &bytes, &mut random);
            compared += 1;
        }
    }
    assert!(compared > MADE_UP_STATES / 4, "{compared}");
}

fn assert_as_fresh(caller: &mut Caller, bytes: &[u8], random: &mut Xorshift) {
    let made_up = caller.control;
    let mut fresh = Caller::fresh();
    let mut left = bytes;
    while !left.is_empty() {
        let piece = next_piece(left, random);
        let (fed, expected) = (caller.feed(piece), fresh.feed(piece));
        if piece.is_empty() {
            // Fed nothing, a state stays as it is; its next byte is the fresh one's.
            continue;
        }
        assert_eq!(fed, expected, "{made_up:?}, then {piece:02X?}");
        assert!(caller.message.lent == fresh.message.lent, "{made_up:?}");
        assert!(caller.room.lent == fresh.room.lent, "{made_up:?}");
        left = &left[fed.taken..];
    }
}

#[test]
fn by_value_counts_agree() {
    let mut random = Xorshift::new(0x0B1A_10E5);
    assert_eq!(answers_by_value(&[]), 0);
    for round in 0..2_000 {
        let stream = match round % 20 {
            0 => any_mixed(&mut random),
            _ => tiny(&mut random),
        };
        let expected = answers(&stream).len();
        assert_eq!(answers_by_value(&stream), expected, "{stream:02X?}");
    }
}
