//! How often collecting gave each answer.

use std::fmt;

use crate::error::Error;

/// How often each answer of collecting was given, as [`Collector::tally`] has it.
///
/// ```
/// use gdl90::{Collector, Error};
///
/// let mut collector = Collector::new();
/// let stream = [gdl90::framed(&[2, 0, 1])?, vec![0x07, 0x7E]].concat();
/// collector.answers(&stream).for_each(drop);
/// let tally = collector.tally();
/// assert_eq!(tally.accepted(), 1);
/// assert_eq!(tally.refused(Error::FrameTooShort), 1);
/// assert_eq!(tally.to_string(), "1 accepted, refused with 4: 1");
/// # let second = gdl90::Recording::read(&stream);
/// # let numbers = second.answers().map(|a| a.map_or_else(|r| r.error.number(), |_| 0));
/// # assert!(numbers.eq([0, 4]));
/// # Ok::<(), gdl90::Error>(())
/// ```
///
/// [`Collector::tally`]: crate::Collector::tally
#[repr(C)]
#[derive(Clone, Copy, Debug, PartialEq, Eq, Hash, Default)]
pub struct Tally {
    /// By number, 0 for a message and 1 to 5 for a refusal. Each holds at
    /// [`u32::MAX`], 4,294,967,295.
    pub counts: [u32; 6],
}

impl Tally {
    /// Frames that had a message, which may still be refused when it is read.
    #[inline]
    pub fn accepted(&self) -> u32 {
        self.counts[0]
    }

    /// Frames that were refused so; 0 for an error that is not collecting's.
    #[inline]
    pub fn refused(&self, error: Error) -> u32 {
        let count = self.counts.get(usize::from(error.number()));
        count.copied().unwrap_or(0)
    }

    /// All answers, less those that came while a count held.
    #[inline]
    pub fn total(&self) -> u64 {
        self.counts.iter().copied().map(u64::from).sum()
    }
}

/// A count that holds is said to be so many or more.
struct Count(u32);

impl fmt::Display for Count {
    fn fmt(&self, f: &mut fmt::Formatter<'_>) -> fmt::Result {
        let more = match self.0 {
            u32::MAX => " or more",
            _ => "",
        };
        write!(f, "{}{more}", self.0)
    }
}

/// Numbers with which nothing was refused are left out.
impl fmt::Display for Tally {
    fn fmt(&self, f: &mut fmt::Formatter<'_>) -> fmt::Result {
        write!(f, "{} accepted", Count(self.accepted()))?;
        let refused = self.counts.iter().enumerate().skip(1);
        let mut word = "refused with";
        for (number, &count) in refused.filter(|(_, &count)| count > 0) {
            write!(f, ", {word} {number}: {}", Count(count))?;
            word = "with";
        }
        Ok(())
    }
}
