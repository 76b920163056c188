//! How often collecting gave each of its answers (RULES 'Tally').

/// A count for each answer of collecting, 0 to 5: that of its answers since the
/// counts were zero, up to the largest number that it holds.
#[derive(Clone, Copy, Debug, Default, PartialEq, Eq)]
pub struct Tally {
    pub counts: [u32; 6],
}

impl Tally {
    /// Takes an answer's number, 0 to 5. A count that is full stays.
    pub fn raise(&mut self, number: u8) {
        let count = &mut self.counts[usize::from(number)];
        *count = count.saturating_add(1);
    }
}

#[cfg(test)]
mod tests {
    use super::*;
    use crate::collecting::answers;
    use crate::framing::{ESCAPE, FLAG};
    use crate::recording::{framed, mixed};
    use crate::vectors::HEARTBEAT;
    use crate::xorshift::Xorshift;

    fn tally(stream: &[u8]) -> Tally {
        let mut tally = Tally::default();
        for kept in answers(stream) {
            tally.raise(kept.number);
        }
        tally
    }

    #[test]
    fn one_count_goes_up_by_one() {
        let before = [7, 0, u32::MAX, u32::MAX - 1, 1 << 31, 65_535];
        let behind = [8, 1, u32::MAX, u32::MAX, (1 << 31) + 1, 65_536];
        for number in 0..=5 {
            let mut tally = Tally { counts: before };
            tally.raise(number);
            let at = usize::from(number);
            let mut expected = before;
            expected[at] = behind[at];
            assert_eq!(tally.counts, expected, "{number}");
        }
    }

    #[test]
    fn a_full_count_holds() {
        let mut tally = Tally {
            counts: [4_294_967_293; 6],
        };
        for expected in [4_294_967_294, 4_294_967_295, 4_294_967_295, 4_294_967_295] {
            (0..=5).for_each(|number| tally.raise(number));
            assert_eq!(tally.counts, [expected; 6]);
        }
    }

    /// Nothing between two flags is no answer, and neither is a frame not closed.
    #[test]
    fn each_answer_is_counted() {
        let heartbeat = framed(&HEARTBEAT);
        let stream = [
            &[0x07, 0x07, FLAG, FLAG],
            &heartbeat[..],
            &heartbeat,
            &[ESCAPE, 0x00, FLAG],
            &[ESCAPE, FLAG, FLAG],
            &[0x11; 439],
            &[FLAG, 0x07, FLAG, 0x07, 0x07, FLAG],
            &[0x07, 0x00, 0x07, FLAG],
            &heartbeat[1..9],
        ]
        .concat();
        assert_eq!(tally(&stream).counts, [2, 1, 1, 1, 2, 1]);
        assert_eq!(tally(&[]), Tally::default());
    }

    #[test]
    fn counts_are_those_of_the_answers() {
        let stream = mixed(&mut Xorshift::new(60), 100_000);
        let kept = answers(&stream);
        for (number, &count) in (0..).zip(&tally(&stream).counts) {
            let given = kept.iter().filter(|kept| kept.number == number).count();
            assert!(given > 20 && count as usize == given, "{number}");
        }
    }
}
