//! Collecting as RULES 'Collecting' has it, one step from any state, also from one
//! that no bytes lead to.

use crate::collecting::{check, Answer, BAD_ESCAPE, ESCAPE_BEFORE_FLAG, ROOM, TOO_LONG};
use crate::framing::{ESCAPE, ESCAPE_FLIP, FLAG, MESSAGE_MAX};

/// The largest position: a 439th byte is met at its second, where all are escaped.
pub const STUFFED_MAX: usize = 2 * (ROOM + 1);

/// The numbers of the phases (RULES 'Structs for C').
pub mod phase {
    pub const LEAD_IN: u8 = 0;
    pub const OPEN: u8 = 1;
    pub const ESCAPE: u8 = 2;
    pub const BAD_ESCAPE: u8 = 3;
    pub const TOO_LONG: u8 = 4;
}

#[derive(Clone, Debug, PartialEq, Eq)]
pub struct State {
    /// Bytes collected.
    pub count: usize,
    /// Stuffed bytes taken since the opening flag, up to a fault that was met.
    pub stuffed: usize,
    pub phase: u8,
    pub room: [u8; ROOM],
}

/// What a flag is answered. The length is 0 with a refusal, the position with 0.
#[derive(Clone, Copy, Debug, PartialEq, Eq)]
pub struct Reply {
    pub number: u8,
    pub length: usize,
    pub position: usize,
}

impl State {
    pub fn fresh() -> Self {
        Self {
            count: 0,
            stuffed: 0,
            phase: phase::LEAD_IN,
            room: [0; ROOM],
        }
    }

    /// As after every flag.
    fn opened() -> Self {
        Self {
            phase: phase::OPEN,
            ..Self::fresh()
        }
    }

    /// Whether only a caller can have made it up, so that it is taken as fresh.
    pub fn is_out_of_range(&self) -> bool {
        self.count > ROOM || self.stuffed > STUFFED_MAX || self.phase > phase::TOO_LONG
    }

    /// Takes bytes until one is answered: how many, and the answer.
    pub fn feed(
        &mut self,
        bytes: &[u8],
        message: &mut [u8; MESSAGE_MAX],
    ) -> (usize, Option<Reply>) {
        for (at, &byte) in bytes.iter().enumerate() {
            let reply = self.step(byte, message);
            if reply.is_some() {
                return (at + 1, reply);
            }
        }
        (bytes.len(), None)
    }

    /// With 0 the message is written, and zeros behind it; else it is left.
    pub fn step(&mut self, byte: u8, message: &mut [u8; MESSAGE_MAX]) -> Option<Reply> {
        if self.is_out_of_range() {
            *self = Self::fresh();
        }
        if byte != FLAG {
            self.take(byte);
            return None;
        }
        let reply = self.reply();
        if let Some(accepted) = reply.filter(|reply| reply.number == 0) {
            message.fill(0);
            message[..accepted.length].copy_from_slice(&self.room[..accepted.length]);
        }
        *self = Self::opened();
        reply
    }

    /// Where a number was met the stuffed bytes stand still.
    fn take(&mut self, byte: u8) {
        if !matches!(self.phase, phase::OPEN | phase::ESCAPE) {
            return;
        }
        self.stuffed += 1;
        match (self.phase, byte) {
            (phase::OPEN, ESCAPE) => self.phase = phase::ESCAPE,
            (phase::OPEN, _) => self.collect(byte),
            (_, 0x5D | 0x5E) => self.collect(byte ^ ESCAPE_FLIP),
            _ => self.meet(phase::BAD_ESCAPE),
        }
    }

    fn collect(&mut self, byte: u8) {
        if self.count == ROOM {
            self.meet(phase::TOO_LONG);
        } else {
            self.room[self.count] = byte;
            self.count += 1;
            self.phase = phase::OPEN;
        }
    }

    /// The fault of this phase: what was collected does not count.
    fn meet(&mut self, phase: u8) {
        *self = Self {
            phase,
            stuffed: self.stuffed,
            ..Self::fresh()
        };
    }

    fn reply(&self) -> Option<Reply> {
        let checked = match self.phase {
            phase::LEAD_IN => return None,
            phase::OPEN => check(&self.room[..self.count]),
            phase::ESCAPE => Err(ESCAPE_BEFORE_FLAG),
            phase::BAD_ESCAPE => Err(BAD_ESCAPE),
            _ => Err(TOO_LONG),
        };
        let (number, length, position) = match checked {
            Ok(Answer::Message(message)) => (0, message.len(), 0),
            Ok(_) => return None,
            Err(number) => (number, 0, self.stuffed),
        };
        Some(Reply {
            number,
            length,
            position,
        })
    }
}

impl Default for State {
    fn default() -> Self {
        Self::fresh()
    }
}

#[cfg(test)]
mod tests {
    use super::*;
    use crate::recording::framed;
    use crate::vectors::HEARTBEAT;

    /// A made-up state whose room has no zero.
    fn made_up(count: usize, stuffed: usize, phase: u8) -> State {
        State {
            count,
            stuffed,
            phase,
            room: [0x11; ROOM],
        }
    }

    fn after(mut state: State, bytes: &[u8]) -> State {
        for &byte in bytes {
            state.step(byte, &mut [0; MESSAGE_MAX]);
        }
        state
    }

    /// Number and position of every answer.
    fn replies(mut state: State, bytes: &[u8]) -> Vec<(u8, usize)> {
        let step = |&byte| state.step(byte, &mut [0; MESSAGE_MAX]);
        let replies = bytes.iter().filter_map(step);
        replies
            .map(|reply| (reply.number, reply.position))
            .collect()
    }

    /// Whatever its next byte is, it is the first of a stream.
    fn assert_fresh(state: State) {
        for bytes in [&[0x07][..], &[0x00], &[ESCAPE], &[FLAG]] {
            assert_eq!(after(state.clone(), bytes), after(State::fresh(), bytes));
            let stream = [bytes, &[FLAG, 0x07, FLAG]].concat();
            assert_eq!(replies(state.clone(), &stream), [(4, 1)], "{state:?}");
        }
    }

    #[test]
    fn out_of_range_is_fresh() {
        for phase in phase::LEAD_IN..=phase::TOO_LONG {
            for over in [439, 440, usize::MAX] {
                assert_fresh(made_up(over, 12, phase));
                assert_fresh(made_up(over, over, phase));
            }
            for over in [879, 880, usize::MAX] {
                assert_fresh(made_up(5, over, phase));
                assert_fresh(made_up(438, over, phase));
            }
        }
        for phase in [5, 6, 255] {
            assert_fresh(made_up(5, 9, phase));
        }
    }

    #[test]
    fn no_bytes_leave_every_state() {
        for state in [made_up(439, 0, 1), made_up(0, 879, 3), made_up(0, 0, 5)] {
            let mut fed = state.clone();
            let answer = fed.feed(&[], &mut [0; MESSAGE_MAX]);
            assert_eq!((fed, answer), (state, (0, None)));
        }
    }

    /// 438 bytes collected and 878 taken are no reason to begin anew.
    #[test]
    fn at_the_bounds() {
        assert_eq!(replies(made_up(438, 878, phase::OPEN), &[FLAG]), [(5, 878)]);
        assert_eq!(replies(made_up(2, 878, phase::OPEN), &[FLAG]), [(4, 878)]);
        assert_eq!(replies(made_up(0, 878, phase::ESCAPE), &[FLAG]), [(2, 878)]);
        assert_eq!(replies(made_up(0, 878, phase::OPEN), &[FLAG]), []);
        assert_eq!(
            replies(made_up(438, 438, phase::OPEN), &[0x07, FLAG]),
            [(3, 439)]
        );
        let escaped = [ESCAPE, 0x5E, FLAG];
        assert_eq!(
            replies(made_up(438, 876, phase::OPEN), &escaped),
            [(3, 878)]
        );
        let bad = [0x00, FLAG];
        assert_eq!(replies(made_up(438, 877, phase::ESCAPE), &bad), [(1, 878)]);
    }

    /// The byte that is the 879th is taken; the state behind it is as good as fresh.
    #[test]
    fn passing_878_within_a_run() {
        let passed = after(made_up(0, 878, phase::OPEN), &[0x07]);
        let (count, stuffed) = (passed.count, passed.stuffed);
        assert_eq!((count, stuffed, passed.phase), (1, 879, phase::OPEN));
        assert_fresh(passed);
        let passed = after(made_up(3, 878, phase::OPEN), &[ESCAPE]);
        assert_eq!((passed.stuffed, passed.phase), (879, phase::ESCAPE));
        assert_fresh(passed);
        for (byte, phase) in [(0x00, phase::BAD_ESCAPE), (0x5D, phase::TOO_LONG)] {
            let passed = after(made_up(438, 878, phase::ESCAPE), &[byte]);
            let mut expected = State::fresh();
            (expected.stuffed, expected.phase) = (879, phase);
            assert_eq!(passed, expected);
            assert_fresh(passed);
        }
        // The 878th is still of the frame, and the 879th is not.
        let nearly = made_up(1, 877, phase::OPEN);
        assert_eq!(replies(nearly.clone(), &[0x07, FLAG]), [(4, 878)]);
        assert_eq!(replies(nearly, &[0x07, 0x07, FLAG]), []);
    }

    /// Lead-in and faults keep count, stuffed bytes and room up to the flag.
    #[test]
    fn standing_still() {
        for (phase, expected) in [
            (phase::LEAD_IN, &[][..]),
            (phase::BAD_ESCAPE, &[(1, 5)]),
            (phase::TOO_LONG, &[(3, 5)]),
        ] {
            let state = made_up(7, 5, phase);
            assert_eq!(after(state.clone(), &[0x07, ESCAPE, 0x00, 0x5E]), state);
            let stream = [0x07, ESCAPE, FLAG];
            assert_eq!(replies(state.clone(), &stream), expected);
            assert_eq!(after(state, &stream), State::opened());
        }
    }

    #[test]
    fn faults_clear_the_room_and_keep_the_position() {
        for (count, bytes, phase) in [
            (3, &[ESCAPE, 0x00][..], phase::BAD_ESCAPE),
            (437, &[0x07, 0x07], phase::TOO_LONG),
        ] {
            let mut expected = State::fresh();
            (expected.stuffed, expected.phase) = (502, phase);
            assert_eq!(after(made_up(count, 500, phase::OPEN), bytes), expected);
        }
    }

    /// What the room has behind the message does not count, and is cleared.
    #[test]
    fn message_and_zeros() {
        let mut state = after(made_up(0, 0, phase::OPEN), &framed(&HEARTBEAT)[1..10]);
        assert_eq!((state.count, state.stuffed, state.room[9]), (9, 9, 0x11));
        let mut message = [0x55; MESSAGE_MAX];
        let reply = state.step(FLAG, &mut message);
        let expected = Reply {
            number: 0,
            length: 7,
            position: 0,
        };
        assert_eq!((reply, state), (Some(expected), State::opened()));
        assert_eq!(
            (&message[..7], message[7..] == [0; 429]),
            (&HEARTBEAT[..], true)
        );
    }
}
