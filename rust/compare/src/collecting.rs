//! A caller of the C function that collects, and the reference in the same state,
//! fed the same; states that no stream need lead to.

use std::hint::black_box;
use std::mem::size_of;

use gdl90::raw::{self, FeedAnswer, FeedControl};
use reference::collecting::{Answer, Kept, ROOM};
use reference::framing::{FLAG, MESSAGE_MAX};
use reference::recording::{mixed, tiny};
use reference::state::{phase, State, STUFFED_MAX};
use reference::xorshift::Xorshift;

/// Bytes on each side of lent memory that no call may touch.
const GUARD: [u8; 16] = [0xA5; 16];

/// Guards stand directly before and behind what is lent.
#[repr(C)]
pub struct Guarded<T> {
    before: [u8; 16],
    pub lent: T,
    after: [u8; 16],
}

impl<T> Guarded<T> {
    pub fn new(lent: T) -> Self {
        assert_eq!(size_of::<Self>(), size_of::<T>() + 32, "padding");
        let (before, after) = (GUARD, GUARD);
        Self {
            before,
            lent,
            after,
        }
    }

    /// The black box: the compiler may hold that a call leaves them as they are.
    pub fn assert_guards(&self) {
        let seen = black_box(self);
        assert_eq!((seen.before, seen.after), (GUARD, GUARD));
    }
}

/// A function that is called as `raw::feed` is.
pub type Feed<'a> =
    &'a mut dyn FnMut(FeedControl, &mut [u8; ROOM], &mut [u8; MESSAGE_MAX], &[u8]) -> FeedAnswer;

/// What a caller of the C function holds.
pub struct Caller {
    pub control: FeedControl,
    pub room: Guarded<[u8; ROOM]>,
    pub message: Guarded<[u8; MESSAGE_MAX]>,
    /// What the message's memory holds before a call.
    fill: u8,
}

impl Caller {
    pub fn new(control: FeedControl, room: [u8; ROOM]) -> Self {
        Self {
            control,
            room: Guarded::new(room),
            message: Guarded::new([0; MESSAGE_MAX]),
            fill: 1,
        }
    }

    pub fn fresh() -> Self {
        Self::new(FeedControl::default(), [0; ROOM])
    }

    /// Feeds and checks what holds of every call, whatever the state.
    pub fn feed(&mut self, bytes: &[u8]) -> FeedAnswer {
        self.feed_by(bytes, &mut raw::feed)
    }

    /// As `feed`, by another function.
    pub fn feed_by(&mut self, bytes: &[u8], call: Feed) -> FeedAnswer {
        // It varies, so that it cannot hide behind a byte of the message, and
        // stays odd, so that it is never zero.
        self.fill = self.fill.wrapping_add(2);
        self.message.lent.fill(self.fill);
        let (room, message) = (&mut self.room.lent, &mut self.message.lent);
        let fed = call(self.control, room, message, bytes);
        self.control = fed.control;
        self.room.assert_guards();
        self.message.assert_guards();
        assert_taken(&fed, bytes);
        self.assert_message(&fed);
        fed
    }

    /// On 0 zeros stand behind the message; every other call leaves it
    /// (RULES 'Collecting').
    fn assert_message(&self, fed: &FeedAnswer) {
        if fed.answered && fed.number == 0 {
            assert!((1..=MESSAGE_MAX).contains(&fed.length), "{fed:?}");
            let behind = &self.message.lent[fed.length..];
            assert!(behind.iter().all(|&byte| byte == 0), "{fed:?}: {behind:?}");
        } else {
            assert_eq!(fed.length, 0, "{fed:?}");
            assert!(self.message.lent == [self.fill; MESSAGE_MAX], "{fed:?}");
        }
    }
}

/// Only a flag is answered, and all before it and the flag are taken. Only 1 to 5
/// have a position.
fn assert_taken(fed: &FeedAnswer, bytes: &[u8]) {
    if fed.answered {
        assert_eq!(bytes[..fed.taken].last(), Some(&FLAG), "{fed:?}");
        assert!(fed.number <= 5, "{fed:?}");
    } else {
        assert_eq!((fed.taken, fed.number), (bytes.len(), 0), "{fed:?}");
    }
    let last = if fed.number == 0 { 0 } else { STUFFED_MAX };
    assert!(fed.position <= last, "{fed:?}");
}

/// The answer in the reference's terms.
fn answer<'a>(fed: &FeedAnswer, message: &'a [u8; MESSAGE_MAX]) -> Answer<'a> {
    match (fed.answered, fed.number) {
        (false, _) => Answer::None,
        (true, 0) => Answer::Message(&message[..fed.length]),
        (true, number) => Answer::Refused {
            number,
            position: fed.position,
        },
    }
}

/// Answers to a stream fed in pieces, a fresh state at its start.
pub fn proved_answers(stream: &[u8], mut piece: impl FnMut() -> usize) -> Vec<Kept> {
    let mut caller = Caller::fresh();
    let mut kept = Vec::new();
    let mut at = 0;
    while at < stream.len() {
        let mut left = &stream[at..stream.len().min(at + piece())];
        // An answer to the last byte leaves an empty piece, fed as well.
        loop {
            let fed = caller.feed(left);
            at += fed.taken;
            left = &left[fed.taken..];
            if !fed.answered {
                break;
            }
            kept.extend(Kept::new(at - 1, answer(&fed, &caller.message.lent)));
        }
    }
    kept
}

/// The proved library and the reference, from one state on.
pub struct Both {
    proved: Caller,
    reference: State,
}

impl Both {
    pub fn new(control: FeedControl, room: [u8; ROOM]) -> Self {
        Self {
            proved: Caller::new(control, room),
            reference: state(control, room),
        }
    }

    pub fn fresh() -> Self {
        Self::new(FeedControl::default(), [0; ROOM])
    }

    pub fn feed(&mut self, bytes: &[u8]) -> FeedAnswer {
        self.feed_by(bytes, &mut raw::feed)
    }

    /// Answer, position, message and state are the same.
    pub fn feed_by(&mut self, bytes: &[u8], call: Feed) -> FeedAnswer {
        let before = self.proved.control;
        let fed = self.proved.feed_by(bytes, call);
        if bytes.is_empty() && before.phase > phase::TOO_LONG {
            // As its phase is none of ours it comes back as another state that is
            // taken as fresh (RULES 'Structs for C').
            self.reference = state(fed.control, self.reference.room);
            assert!(self.reference.is_out_of_range(), "{before:?}: {fed:?}");
        }
        let mut message = [self.proved.fill; MESSAGE_MAX];
        let expected = self.expect(bytes, &mut message);
        let told = || format!("{before:?}, then {bytes:02X?}");
        assert_eq!(fed, expected, "{}", told());
        assert!(self.proved.room.lent == self.reference.room, "{}", told());
        assert!(self.proved.message.lent == message, "{}", told());
        fed
    }

    /// What the reference answers, as the C function does.
    fn expect(&mut self, bytes: &[u8], message: &mut [u8; MESSAGE_MAX]) -> FeedAnswer {
        let (taken, reply) = self.reference.feed(bytes, message);
        FeedAnswer {
            control: FeedControl {
                count: self.reference.count,
                stuffed: self.reference.stuffed,
                phase: self.reference.phase,
            },
            taken,
            answered: reply.is_some(),
            number: reply.map_or(0, |reply| reply.number),
            length: reply.map_or(0, |reply| reply.length),
            position: reply.map_or(0, |reply| reply.position),
        }
    }
}

/// The reference's state.
pub fn state(control: FeedControl, room: [u8; ROOM]) -> State {
    State {
        count: control.count,
        stuffed: control.stuffed,
        phase: control.phase,
        room,
    }
}

/// A state that no stream need lead to, about half of them out of range.
pub fn made_up_control(random: &mut Xorshift) -> FeedControl {
    let phase = match random.below(8) {
        0 => random.below(256) as u8,
        1 => phase::TOO_LONG + 1,
        _ => random.below(usize::from(phase::TOO_LONG) + 1) as u8,
    };
    FeedControl {
        count: around(random, ROOM),
        stuffed: around(random, STUFFED_MAX),
        phase,
    }
}

/// Mostly a number up to the last, and often next to it.
fn around(random: &mut Xorshift, last: usize) -> usize {
    match random.below(16) {
        0 => last,
        1 => last + 1,
        2 => usize::MAX,
        3 => random.next_u64() as usize,
        4..=7 => last - random.below(20),
        _ => random.below(last + 1),
    }
}

pub fn random_room(random: &mut Xorshift) -> [u8; ROOM] {
    let room = random.message_with_escapes(ROOM, 1);
    room.try_into().expect("as long as the room")
}

pub fn any_mixed(random: &mut Xorshift) -> Vec<u8> {
    let bound = [200, 2_000, 10_000][random.below(3)];
    let length = random.below(bound);
    mixed(random, length)
}

/// Of any sort, also without a flag, so that a frame goes on for long.
pub fn any_bytes(random: &mut Xorshift) -> Vec<u8> {
    let length = random.below(600);
    match random.below(4) {
        0 => random.message(length),
        1 => tiny(random),
        2 => mixed(random, length),
        _ => without_flags(random, length),
    }
}

pub fn without_flags(random: &mut Xorshift, length: usize) -> Vec<u8> {
    let mut bytes = random.message(length);
    bytes.retain(|&byte| byte != FLAG);
    bytes
}

/// The next piece of the bytes, at most as many as are left.
pub fn next_piece<'a>(bytes: &'a [u8], random: &mut Xorshift) -> &'a [u8] {
    let bound = [4, 200][random.below(2)];
    &bytes[..bytes.len().min(random.below(bound))]
}
