//! What the proved library answers to a message and its check sequence with bits
//! flipped: refused with 5, or not found
//! (RULES 'Flips', 'What the check sequence finds').

use std::collections::BTreeSet;
use std::ops::Range;

use gdl90::{Collector, Error, Refusal};
use reference::fcs::check_sequence;
use reference::framing::{ESCAPE, FLAG, MESSAGE_MAX};
use reference::recording::{between_flags, framed, mixed};
use reference::vectors::{HEARTBEAT, SALEM};
use reference::xorshift::Xorshift;

/// A byte for each byte of the message and two for its check sequence; each bit
/// that is 1 in them is flipped.
type Flips = Vec<u8>;

/// Where in its byte a numbered bit is; bits in a row have numbers in a row.
type Order = fn(usize) -> u8;

/// As the bits of a message are divided (RULES 'Check sequence').
fn high_bit_first(bit: usize) -> u8 {
    0x80 >> (bit % 8)
}

/// As a serial line sends.
fn low_bit_first(bit: usize) -> u8 {
    1 << (bit % 8)
}

/// A message that is sent again and again, each time with other flips.
struct Line {
    /// What the collector is fed before each frame.
    before: Vec<u8>,
    /// The message, then its check sequence, low byte first.
    sent: Vec<u8>,
    /// How many frames were fed.
    fed: usize,
    /// The flips that were not found; with all others the answer was 5.
    passed: BTreeSet<Flips>,
}

impl Line {
    fn new(message: &[u8]) -> Self {
        let sequence = check_sequence(message).to_le_bytes();
        Self {
            before: Vec::new(),
            sent: [message, &sequence].concat(),
            fed: 0,
            passed: BTreeSet::new(),
        }
    }

    /// Feeds a fresh collector the flipped bytes, stuffed afresh. Nothing is
    /// answered between the flags, and at the second only one of two things.
    fn feed(&mut self, flips: &[u8]) {
        assert_eq!(flips.len(), self.sent.len());
        let both = self.sent.iter().zip(flips);
        let flipped: Vec<u8> = both.map(|(byte, flip)| byte ^ flip).collect();
        let frame = between_flags(&flipped);
        let mut collector = Collector::new();
        collector.answers(&self.before).for_each(drop);
        let mut rest = &frame[..];
        let mut fed = collector.feed(rest);
        if fed.taken == 1 && !self.before.is_empty() {
            // An answer at the first flag is about the bytes before it.
            rest = &rest[1..];
            fed = collector.feed(rest);
        }
        assert_eq!(fed.taken, rest.len(), "{flips:02X?}");
        match fed.answer.expect("an answer at the second flag") {
            Ok(message) => {
                assert_eq!(message, &flipped[..flipped.len() - 2], "{flips:02X?}");
                self.passed.insert(flips.to_vec());
            }
            Err(refusal) => assert_eq!(refusal, found(&frame), "{flips:02X?}"),
        }
        self.fed += 1;
    }

    /// Every way to flip this many bits.
    fn feed_all(&mut self, count: usize) {
        let mut flips = vec![0; self.sent.len()];
        self.feed_more(&mut flips, 0, count);
    }

    /// Every way to flip this many bits more, from this one on.
    fn feed_more(&mut self, flips: &mut [u8], from: usize, count: usize) {
        if count == 0 {
            return self.feed(flips);
        }
        for bit in from..8 * flips.len() {
            flips[bit / 8] ^= low_bit_first(bit);
            self.feed_more(flips, bit + 1, count - 1);
            flips[bit / 8] ^= low_bit_first(bit);
        }
    }

    /// Every burst within these bits: one or more flips within 16 in a row.
    fn feed_bursts(&mut self, bits: Range<usize>, order: Order) {
        for first in bits.clone() {
            let width = (bits.end - first).min(16);
            // Odd, as the first is flipped: no burst comes twice.
            for burst in (1..1_u32 << width).step_by(2) {
                let mut flips = vec![0; self.sent.len()];
                for bit in (0..width).filter(|bit| burst >> bit & 1 == 1) {
                    flips[(first + bit) / 8] |= order(first + bit);
                }
                self.feed(&flips);
            }
        }
    }
}

/// The pairs that are not found: bit j of the sequence as a number, and the bit
/// of the message that is j before its last.
fn pairs_over_the_border(length: usize) -> BTreeSet<Flips> {
    let pair = |j| {
        let mut flips = vec![0; length + 2];
        flips[length - 1 - j / 8] = low_bit_first(j);
        flips[length + j / 8] = low_bit_first(j);
        flips
    };
    (0..16.min(8 * length)).map(pair).collect()
}

/// The bursts that are not found: the same flips in the message's last byte and
/// in the sequence's low byte, none elsewhere.
fn bursts_over_the_border(length: usize) -> BTreeSet<Flips> {
    let burst = |byte| [&vec![0; length - 1][..], &[byte, byte, 0]].concat();
    (1..=255).map(burst).collect()
}

fn ones(flips: &[u8]) -> u32 {
    flips.iter().map(|byte| byte.count_ones()).sum()
}

/// Bits in a row from the first flip to the last.
fn span(flips: &[u8], order: Order) -> usize {
    let is_flipped = |bit: &usize| flips[bit / 8] & order(*bit) != 0;
    let bits: Vec<usize> = (0..8 * flips.len()).filter(is_flipped).collect();
    bits[bits.len() - 1] - bits[0] + 1
}

fn long_message() -> Vec<u8> {
    Xorshift::new(0x0F11_9500).message(MESSAGE_MAX)
}

/// Two flips in the longest message are always found, however far apart.
#[test]
fn pairs_of_a_long_message() {
    let mut line = Line::new(&long_message());
    line.feed_all(2);
    let (in_message, over_the_border, in_sequence) = (6_081_328, 3_488 * 16, 120);
    assert_eq!(line.fed, in_message + over_the_border + in_sequence);
    assert_eq!(line.passed, pairs_over_the_border(MESSAGE_MAX));
    assert_eq!(line.passed.len(), 16);
}

/// Whatever the byte is: with all flips, it and its sequence are any three bytes.
#[test]
fn all_flips_of_one_byte() {
    let mut line = Line::new(&[0x42]);
    for flips in 0..1_u32 << 24 {
        line.feed(&flips.to_be_bytes()[1..]);
    }
    assert_eq!(line.fed, 1 << 24);
    let own_sequence = (0..=255).map(|byte| vec![byte, byte, 0]);
    assert_eq!(line.passed, own_sequence.collect());
    assert_eq!(line.passed.len(), 1 << 8);
    line.passed.retain(|flips| ones(flips) == 2);
    assert_eq!(line.passed, pairs_over_the_border(1));
    assert_eq!(line.passed.len(), 8);
}

/// For each flips of a message one flips of the sequence is not found: their own
/// check sequence, with which the number of flips is even.
#[test]
fn all_flips_of_the_sequence() {
    let mut random = Xorshift::new(0x5E90_E4CE);
    for length in [1, 2, 3, 7, 28, 435, 436] {
        let mut line = Line::new(&random.message_with_escapes(length, 1));
        let flips = random.message(length);
        for sequence in 0..=u16::MAX {
            line.feed(&[&flips[..], &sequence.to_le_bytes()].concat());
        }
        assert_eq!(line.fed, 1 << 16);
        let not_found = [&flips[..], &check_sequence(&flips).to_le_bytes()].concat();
        assert_eq!(ones(&not_found) % 2, 0);
        assert_eq!(line.passed, BTreeSet::from([not_found]));
    }
}

#[test]
fn up_to_three_flips_of_short_messages() {
    let triples = [2_024, 4_960, 59_640, 2_275_280];
    let messages = [&[0x5E][..], &[0x7E, 0x5D], &HEARTBEAT, &SALEM];
    for (message, triples) in messages.into_iter().zip(triples) {
        let mut line = Line::new(message);
        let bits = 8 * line.sent.len();
        line.feed_all(1);
        line.feed_all(3);
        assert_eq!(line.fed, bits + triples);
        assert_eq!(line.passed, BTreeSet::new());
        line.feed_all(2);
        assert_eq!(line.fed, bits + triples + bits * (bits - 1) / 2);
        assert_eq!(line.passed, pairs_over_the_border(message.len()));
    }
}

/// Value 5 of RULES 'Values', and one bit more in a row than is always found.
#[test]
fn flips_that_are_not_found() {
    let pair = b"\x7E\x00\x81\x41\xDB\xD0\x08\x03\xB2\x8B\x7E";
    let four = b"\x7E\x00\x81\x41\xDB\xD1\x18\x23\xB3\x8B\x7E";
    let six = b"\x7E\x00\x81\x41\xDB\xF3\x1C\x03\xB3\x8B\x7E";
    for frame in [pair, four, six] {
        let mut collector = Collector::new();
        assert_eq!(collector.feed(frame).answer, Some(Ok(&frame[1..8])));
    }
    assert_eq!(span(&[0x01, 0x10, 0x21], high_bit_first), 17);
    assert_eq!(span(&[0x23, 0x14, 0x01], low_bit_first), 17);
    assert_eq!(span(&[0x23, 0x14, 0x01], high_bit_first), 22);
}

/// All that reach over the border, and beside them those of the sequence alone
/// and of the message's last 15 bits.
fn assert_bursts_at_the_border(message: &[u8], order: Order) {
    let mut line = Line::new(message);
    let border = 8 * message.len();
    line.feed_bursts(border.saturating_sub(15)..border + 16, order);
    assert_eq!(line.fed, if border == 8 { 327_679 } else { 557_055 });
    assert_eq!(line.passed, bursts_over_the_border(message.len()));
    assert_eq!(line.passed.len(), 255);
    let spans = line.passed.iter().map(|flips| span(flips, order));
    assert_eq!(spans.min(), Some(9));
}

#[test]
fn bursts_at_the_border() {
    let messages = [&[0x42][..], &[0x7E, 0x5D], &HEARTBEAT, &long_message()];
    for message in messages {
        assert_bursts_at_the_border(message, high_bit_first);
        assert_bursts_at_the_border(message, low_bit_first);
    }
}

/// In both orders, all in a heartbeat, and those farthest from the sequence.
#[test]
fn bursts_in_a_message_are_found() {
    let (heartbeat, long) = (Line::new(&HEARTBEAT), Line::new(&long_message()));
    for (mut line, bits, bursts) in [(heartbeat, 56, 1_376_255), (long, 24, 327_679)] {
        line.feed_bursts(0..bits, high_bit_first);
        line.feed_bursts(0..bits, low_bit_first);
        assert_eq!(line.fed, 2 * bursts);
        assert_eq!(line.passed, BTreeSet::new());
    }
}

/// Lead-in, frames whole and broken, closed and open, and an escape just before
/// the first flag.
#[test]
fn bytes_before_change_nothing() {
    let heartbeat = framed(&HEARTBEAT);
    let befores = [
        &[0x00, ESCAPE][..],
        &[FLAG, ESCAPE, 0x00, FLAG],
        &[FLAG, ESCAPE, 0x00],
        &[FLAG, 0x01, ESCAPE],
        &heartbeat,
        &heartbeat[..10],
        &mixed(&mut Xorshift::new(0x0BEF_04E0), 1_000),
    ];
    for before in befores {
        let mut line = Line::new(&HEARTBEAT);
        line.before = before.to_vec();
        line.feed_all(2);
        assert_eq!(line.fed, 2_556);
        let expected = pairs_over_the_border(HEARTBEAT.len());
        assert_eq!(line.passed, expected, "behind {before:02X?}");
    }
}

/// The refusal with 5, met with all that stands between the two flags.
fn found(frame: &[u8]) -> Refusal {
    Refusal {
        error: Error::CheckSequence,
        position: frame.len() - 2,
    }
}
