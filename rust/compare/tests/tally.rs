//! The proved library and the reference count the same answers, and a tally that
//! is lent changes nothing else.

use std::hint::black_box;

use compare::collecting::{any_bytes, made_up_control, next_piece, random_room, Both, Guarded};
use gdl90::raw::{self, FeedAnswer, Tally};
use reference::collecting::answers;
use reference::framing::{ESCAPE, FLAG};
use reference::recording::{framed, mixed};
use reference::tally;
use reference::vectors::HEARTBEAT;
use reference::xorshift::Xorshift;

/// Bytes of all streams compared.
const STREAM_BYTES: usize = 10_000_000;
const MADE_UP_STATES: usize = 20_000;
/// No count goes over it.
const HOLD: u32 = 4_294_967_295;

/// A tally that is lent, and the reference's.
struct Tallies {
    proved: Guarded<Tally>,
    reference: tally::Tally,
}

impl Tallies {
    fn new(counts: [u32; 6]) -> Self {
        Self {
            proved: Guarded::new(Tally { counts }),
            reference: tally::Tally { counts },
        }
    }

    /// Feeds with the tally lent. An answer is the reference's too, or `Both` had
    /// failed.
    fn feed(&mut self, both: &mut Both, bytes: &[u8]) -> FeedAnswer {
        let tally = &mut self.proved.lent;
        let fed = both.feed_by(bytes, &mut |control, room, message, bytes| {
            raw::feed_tallied(control, room, message, bytes, tally)
        });
        if fed.answered {
            self.reference.raise(fed.number);
        }
        self.proved.assert_guards();
        assert_eq!(self.counts(), self.reference.counts, "{fed:?}");
        fed
    }

    fn counts(&self) -> [u32; 6] {
        black_box(&self.proved).lent.counts
    }
}

/// Zero, any number, and numbers close to the hold.
fn any_counts(random: &mut Xorshift) -> [u32; 6] {
    std::array::from_fn(|_| match random.below(4) {
        0 => 0,
        1 => random.next_u64() as u32,
        2 => HOLD - random.below(3) as u32,
        _ => HOLD - random.below(40) as u32,
    })
}

/// A stream and how far it was taken.
struct Stream {
    bytes: Vec<u8>,
    at: usize,
    both: Both,
}

impl Stream {
    fn new(random: &mut Xorshift) -> Self {
        let length = random.below(60_000);
        Self {
            bytes: mixed(random, length),
            at: 0,
            both: Both::fresh(),
        }
    }

    fn is_taken(&self) -> bool {
        self.at == self.bytes.len()
    }

    /// Feeds the next piece, with the tally lent or without one.
    fn feed(&mut self, piece: usize, tallies: Option<&mut Tallies>) -> FeedAnswer {
        let end = self.bytes.len().min(self.at + piece);
        let bytes = &self.bytes[self.at..end];
        let fed = match tallies {
            Some(tallies) => tallies.feed(&mut self.both, bytes),
            None => self.both.feed(bytes),
        };
        self.at += fed.taken;
        fed
    }
}

/// Their states are their own. Only a call that is lent the tally counts in it.
#[test]
fn two_streams_share_a_tally() {
    let mut random = Xorshift::new(0x7A11_7A11);
    let (mut done, mut given) = (0, [[0; 6]; 2]);
    while done < STREAM_BYTES {
        let mut tallies = Tallies::new(any_counts(&mut random));
        let mut streams = [Stream::new(&mut random), Stream::new(&mut random)];
        let bound = [4, 40, 500, 2_000][random.below(4)];
        while !streams.iter().all(Stream::is_taken) {
            let stream = &mut streams[random.below(2)];
            let piece = random.below(bound);
            let tallied = random.below(2) == 0;
            let fed = stream.feed(piece, tallied.then_some(&mut tallies));
            if fed.answered {
                given[usize::from(tallied)][usize::from(fed.number)] += 1;
            }
        }
        done += streams.iter().map(|stream| stream.at).sum::<usize>();
    }
    let rare = given.concat().iter().any(|&count| count < 1_000);
    assert!(!rare, "{given:?}");
}

/// Whatever the tally held before.
#[test]
fn made_up_states_agree() {
    let mut random = Xorshift::new(0x0BAD_7A11);
    for _ in 0..MADE_UP_STATES {
        let control = made_up_control(&mut random);
        let mut both = Both::new(control, random_room(&mut random));
        let mut tallies = Tallies::new(any_counts(&mut random));
        let bytes = any_bytes(&mut random);
        let mut left = &bytes[..];
        while !left.is_empty() {
            let piece = next_piece(left, &mut random);
            let fed = match random.below(4) {
                0 => both.feed(piece),
                _ => tallies.feed(&mut both, piece),
            };
            left = &left[fed.taken..];
        }
    }
}

/// For each answer bytes that are given it once, behind a flag.
fn answered_once() -> [Vec<u8>; 6] {
    [
        framed(&HEARTBEAT)[1..].to_vec(),
        vec![ESCAPE, 0x00, FLAG],
        vec![ESCAPE, FLAG],
        [&[0x11; 439][..], &[FLAG]].concat(),
        vec![0x07, FLAG],
        vec![0x07, 0x00, 0x07, FLAG],
    ]
}

/// A caller behind the first flag.
fn opened() -> Both {
    let mut both = Both::fresh();
    both.feed(&[FLAG]);
    both
}

#[test]
fn an_answer_counts_once_and_only_its_own() {
    let before = [10, 20, 30, 40, 50, 60];
    for (number, bytes) in answered_once().iter().enumerate() {
        let mut tallies = Tallies::new(before);
        let fed = tallies.feed(&mut opened(), bytes);
        assert_eq!((fed.taken, fed.number), (bytes.len(), number as u8));
        let mut expected = before;
        expected[number] += 1;
        assert_eq!(tallies.counts(), expected);
    }
}

#[test]
fn a_full_count_holds() {
    for (number, bytes) in answered_once().iter().enumerate() {
        for others in [0, 7, 0x8000_0000, HOLD] {
            let mut before = [others; 6];
            before[number] = HOLD - 2;
            let mut tallies = Tallies::new(before);
            let mut both = opened();
            for expected in [HOLD - 1, HOLD, HOLD, HOLD] {
                let fed = tallies.feed(&mut both, bytes);
                assert_eq!(fed.number, number as u8);
                before[number] = expected;
                assert_eq!(tallies.counts(), before);
            }
        }
    }
}

/// Bytes that are not answered: none, before the first flag, flags in a row, and
/// a frame that is not closed.
#[test]
fn no_answer_counts_nowhere() {
    let counts = [0, 1, 2, HOLD, 4, 5];
    let mut tallies = Tallies::new(counts);
    let mut both = Both::fresh();
    for bytes in [&[][..], &[0x07; 500], &[FLAG; 9], &[], &[0x07, ESCAPE]] {
        let fed = tallies.feed(&mut both, bytes);
        assert!(!fed.answered, "{fed:?}");
    }
    assert_eq!(tallies.counts(), counts);
}

/// Since it was zeroed, against all answers of whole streams.
#[test]
fn counts_are_the_answers_given() {
    let mut random = Xorshift::new(0x000C_0475);
    let mut tallies = Tallies::new([0; 6]);
    let mut given = [0; 6];
    for round in 0..300 {
        if round % 50 == 0 {
            (tallies, given) = (Tallies::new([0; 6]), [0; 6]);
            assert_eq!(tallies.proved.lent, Tally::default());
        }
        let mut stream = Stream::new(&mut random);
        for kept in answers(&stream.bytes) {
            given[usize::from(kept.number)] += 1;
        }
        while !stream.is_taken() {
            stream.feed(random.below(5_000), Some(&mut tallies));
        }
        assert_eq!(tallies.counts(), given, "round {round}");
    }
    assert!(given.iter().all(|&count| count > 100), "{given:?}");
}
