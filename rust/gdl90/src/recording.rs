//! Recordings that are there as a whole, RULES 'Recordings'.

use std::fmt;
use std::iter::FusedIterator;

use crate::error::{accepted, unknown};
use crate::{raw, Refusal};

/// How many numbers an entry has: its number, its position, its message's length.
const ENTRY: usize = 3;
const FLAG: u8 = 0x7E;

/// The answers to a recording that is there as a whole: each message, or why its
/// frame was refused and where it broke.
///
/// It is not the bytes but the answers to them: [`len`](Self::len) counts answers,
/// and two recordings with the same answers are equal.
///
/// They are those of a new [`Collector`] that is fed the same bytes, in the same
/// order, found in another way: no state goes from byte to byte, but the recording
/// is cut at its flags, and what stands between two of them is unstuffed and
/// checked by itself. Use it for bytes that are all in memory, or to check a
/// collector's answers. For a stream that comes in pieces take a [`Collector`].
///
/// ```
/// use gdl90::{Collector, Error, Recording};
///
/// // A message, a frame of one byte, and a frame that is not closed.
/// let bytes = [gdl90::framed(&[2, 0, 1])?, vec![0x07, 0x7E, 0x02]].concat();
/// let recording = Recording::read(&bytes);
/// assert_eq!(recording.len(), 2);
/// for answer in &recording {
///     match answer {
///         Ok(message) => assert_eq!(message, [2, 0, 1]),
///         Err(refusal) => assert_eq!(refusal.error, Error::FrameTooShort),
///     }
/// }
///
/// let mut collector = Collector::new();
/// let mut answers = recording.answers();
/// let mut rest = &bytes[..];
/// while !rest.is_empty() {
///     let fed = collector.feed(rest);
///     rest = &rest[fed.taken..];
///     assert_eq!(fed.answer, answers.next());
/// }
/// # assert_eq!(answers.next(), None);
/// # Ok::<(), Error>(())
/// ```
///
/// [`Collector`]: crate::Collector
#[derive(Clone, PartialEq, Eq)]
pub struct Recording {
    /// Three numbers for each answer.
    list: Box<[usize]>,
    /// The messages end to end.
    messages: Box<[u8]>,
}

impl Recording {
    /// Reads a recording.
    ///
    /// It keeps three numbers for each answer, and the messages. While it reads, it
    /// has on the heap at most 24 bytes for each flag, and as many bytes as the
    /// recording has.
    #[must_use]
    pub fn read(bytes: &[u8]) -> Self {
        let flags = bytes.iter().filter(|&&byte| byte == FLAG).count();
        let mut list = vec![0; ENTRY * flags.min(bytes.len() / 2)];
        let mut messages = vec![0; bytes.len()];
        let entries = raw::read_recording(bytes, &mut list, &mut messages)
            .result()
            // Only too little memory is refused, and this is always enough
            // (RULES 'Recordings').
            .unwrap_or_else(|error| unknown(error.number()));
        list.truncate(ENTRY * entries);
        let lengths = list.chunks_exact(ENTRY).map(|entry| entry[2]);
        messages.truncate(lengths.sum());
        Self {
            list: list.into(),
            messages: messages.into(),
        }
    }

    /// How many answers there are.
    #[inline]
    pub fn len(&self) -> usize {
        self.list.len() / ENTRY
    }

    /// Whether there is no answer, as no frame was closed.
    #[inline]
    pub fn is_empty(&self) -> bool {
        self.list.is_empty()
    }

    /// The answers, in the order of their frames.
    #[inline]
    pub fn answers(&self) -> RecordedAnswers<'_> {
        RecordedAnswers {
            list: &self.list,
            messages: &self.messages,
        }
    }
}

impl fmt::Debug for Recording {
    fn fmt(&self, f: &mut fmt::Formatter<'_>) -> fmt::Result {
        fmt::Debug::fmt(&self.answers(), f)
    }
}

impl<'a> IntoIterator for &'a Recording {
    type Item = Result<&'a [u8], Refusal>;
    type IntoIter = RecordedAnswers<'a>;

    #[inline]
    fn into_iter(self) -> Self::IntoIter {
        self.answers()
    }
}

/// Iterator over the answers to a recording, made by [`Recording::answers`].
///
/// A message is lent by the recording, not copied.
#[derive(Clone)]
#[must_use = "answers are given only as the iterator is gone through"]
pub struct RecordedAnswers<'a> {
    list: &'a [usize],
    messages: &'a [u8],
}

/// The answers that are still to come.
impl fmt::Debug for RecordedAnswers<'_> {
    fn fmt(&self, f: &mut fmt::Formatter<'_>) -> fmt::Result {
        f.debug_list().entries(self.clone()).finish()
    }
}

impl<'a> Iterator for RecordedAnswers<'a> {
    type Item = Result<&'a [u8], Refusal>;

    #[inline]
    fn next(&mut self) -> Option<Self::Item> {
        let (&[number, position, length], list) = self.list.split_first_chunk()?;
        let (message, messages) = self.messages.split_at(length);
        (self.list, self.messages) = (list, messages);
        let number = u8::try_from(number).unwrap_or_else(|_| unknown(number));
        let refusal = |error| Refusal { error, position };
        Some(accepted(number, message).map_err(refusal))
    }

    #[inline]
    fn size_hint(&self) -> (usize, Option<usize>) {
        let left = self.list.len() / ENTRY;
        (left, Some(left))
    }
}

impl ExactSizeIterator for RecordedAnswers<'_> {}
impl FusedIterator for RecordedAnswers<'_> {}
