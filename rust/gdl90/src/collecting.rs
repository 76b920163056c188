//! Collecting frames from a stream, 001 §2.2.

use std::fmt;
use std::iter::FusedIterator;
use std::ops::Deref;

use crate::error::{accepted, Error};
use crate::raw::{self, FeedControl, MESSAGE_MAX, ROOM};
use crate::{Message, Tally};

/// Collects messages from a stream of bytes that comes in slices of any length.
///
/// An answer comes with each flag that closes a frame: the message, or why the
/// frame was refused ([`Error::BadEscape`] to [`Error::CheckSequence`]) and where
/// it broke. Each answer is counted in the collector's [`Self::tally`]. A flag
/// closes what came before it and opens the next frame. Bytes before the first
/// flag are ignored, and nothing between two flags is no answer. A frame may
/// start in one slice and end in a later one, so nothing is reset between the
/// datagrams of a sender. Each sender has a collector of its own.
///
/// ```
/// use gdl90::Collector;
///
/// let mut collector = Collector::new();
/// let stream = gdl90::framed(&[2, 0, 1])?;
/// let (first, second) = stream.split_at(3);
/// assert_eq!(collector.answers(first).count(), 0);
/// let message = collector.answers(second).next().unwrap()?;
/// assert_eq!(*message, [2, 0, 1]);
/// # assert!(gdl90::Recording::read(&stream).answers().eq([Ok(&*message)]));
/// # Ok::<(), gdl90::Error>(())
/// ```
///
/// It is aligned to its own size and so within one page of memory: its room is
/// cleared at each flag, which takes longer over a page's border.
#[derive(Clone)]
#[repr(align(1024))]
pub struct Collector {
    kept: Kept,
    room: [u8; ROOM],
    message: [u8; MESSAGE_MAX],
    tally: Tally,
}

const _: () = assert!(
    std::mem::size_of::<Collector>() == std::mem::align_of::<Collector>(),
    "a collector may cross a page's border"
);

/// The control, its fields in another order than the struct for C has them. In that
/// order they are copied together, which waits for each to have been stored by the
/// call before.
#[derive(Clone, Default)]
#[repr(C)]
struct Kept {
    count: usize,
    phase: u8,
    stuffed: usize,
}

impl Kept {
    #[inline]
    fn of(control: FeedControl) -> Self {
        Self {
            count: control.count,
            phase: control.phase,
            stuffed: control.stuffed,
        }
    }

    #[inline]
    fn control(&self) -> FeedControl {
        FeedControl {
            count: self.count,
            stuffed: self.stuffed,
            phase: self.phase,
        }
    }
}

/// What [`Collector::feed`] did.
#[derive(Clone, Copy, Debug, PartialEq, Eq)]
pub struct Fed<'a> {
    /// Bytes taken; the next call goes on behind them.
    pub taken: usize,
    /// The message of the frame that the last of them closed, lent until the
    /// next call, or why it was refused. `None` if no frame was closed: then all
    /// bytes were taken.
    pub answer: Option<Result<&'a [u8], Refusal>>,
}

/// Why collecting refused a frame, and where the frame broke.
///
/// As an [`Error`], which `?` makes of it where one is asked for, it has no
/// position.
///
/// ```
/// use gdl90::{Collector, Error};
///
/// // An escape before a byte that is never escaped.
/// let stream = [0x7E, 0x02, 0x7D, 0x00, 0x01, 0x7E];
/// let refusal = Collector::new().answers(&stream).next().unwrap().unwrap_err();
/// assert_eq!((refusal.error, refusal.position), (Error::BadEscape, 3));
/// assert_eq!(stream[refusal.position], 0x00);
/// assert_eq!(
///     refusal.to_string(),
///     "an escape stands before a byte that is never escaped, at byte 3"
/// );
/// # assert!(gdl90::Recording::read(&stream).answers().eq([Err(refusal)]));
/// ```
#[derive(Clone, Copy, Debug, PartialEq, Eq, Hash)]
pub struct Refusal {
    /// [`Error::BadEscape`], [`Error::EscapeBeforeFlag`] or
    /// [`Error::FrameTooLong`], whichever the bytes meet first; else
    /// [`Error::FrameTooShort`], then [`Error::CheckSequence`].
    pub error: Error,
    /// How many bytes had been taken since the opening flag when the fault was
    /// met, 1 to 878, as they came: an escape and the byte behind it are two. For
    /// a bad escape and a frame too long the last of them is the one that is
    /// wrong; for the others they are all before the closing flag. It is the same
    /// however the stream is cut into slices.
    pub position: usize,
}

impl From<Refusal> for Error {
    #[inline]
    fn from(refusal: Refusal) -> Self {
        refusal.error
    }
}

impl fmt::Display for Refusal {
    fn fmt(&self, f: &mut fmt::Formatter<'_>) -> fmt::Result {
        write!(f, "{}, at byte {}", self.error, self.position)
    }
}

// No source: its words are those of the error.
impl std::error::Error for Refusal {}

impl Collector {
    /// A collector before the first byte of a stream.
    pub fn new() -> Self {
        Self {
            kept: Kept::default(),
            room: [0; ROOM],
            message: [0; MESSAGE_MAX],
            tally: Tally::default(),
        }
    }

    /// Takes bytes until one closes a frame or there are no more. The message is
    /// lent, not copied.
    ///
    /// ```
    /// let mut collector = gdl90::Collector::new();
    /// let stream = gdl90::framed(&[2, 0, 1])?;
    /// let mut rest = &stream[..];
    /// while !rest.is_empty() {
    ///     let fed = collector.feed(rest);
    ///     rest = &rest[fed.taken..];
    ///     if let Some(answer) = fed.answer {
    ///         assert_eq!(answer?, [2, 0, 1]);
    ///     }
    /// }
    /// # assert!(gdl90::Recording::read(&stream).answers().eq([Ok(&[2, 0, 1][..])]));
    /// # Ok::<(), gdl90::Error>(())
    /// ```
    #[inline]
    pub fn feed(&mut self, bytes: &[u8]) -> Fed<'_> {
        let fed = raw::feed_tallied(
            self.kept.control(),
            &mut self.room,
            &mut self.message,
            bytes,
            &mut self.tally,
        );
        self.kept = Kept::of(fed.control);
        let message = &self.message[..fed.length];
        let position = fed.position;
        let refusal = |error| Refusal { error, position };
        let answer = fed
            .answered
            .then(|| accepted(fed.number, message).map_err(refusal));
        Fed {
            taken: fed.taken,
            answer,
        }
    }

    /// Takes the bytes as the iterator is gone through, and gives each answer as
    /// its frame is closed. Bytes of a frame that is still open are kept for the
    /// next slice.
    ///
    /// An iterator that is dropped before its end leaves bytes untaken, which
    /// [`Answers::rest`] has.
    #[inline]
    pub fn answers<'c, 'b>(&'c mut self, bytes: &'b [u8]) -> Answers<'c, 'b> {
        Answers {
            collector: self,
            rest: bytes,
        }
    }

    /// How often each answer was given since the collector was made, or since
    /// [`Self::reset_tally`].
    #[inline]
    pub fn tally(&self) -> Tally {
        self.tally
    }

    /// Zeroes the tally. The stream goes on: a frame that is open stays open.
    #[inline]
    pub fn reset_tally(&mut self) {
        self.tally = Tally::default();
    }
}

impl Default for Collector {
    fn default() -> Self {
        Self::new()
    }
}

impl fmt::Debug for Collector {
    fn fmt(&self, f: &mut fmt::Formatter<'_>) -> fmt::Result {
        f.debug_struct("Collector")
            .field("control", &self.kept.control())
            .field("tally", &self.tally)
            .finish_non_exhaustive()
    }
}

/// Iterator over the answers to a slice, made by [`Collector::answers`].
#[derive(Debug)]
#[must_use = "bytes are taken only as the iterator is gone through"]
pub struct Answers<'c, 'b> {
    collector: &'c mut Collector,
    rest: &'b [u8],
}

impl<'b> Answers<'_, 'b> {
    /// The bytes that are not yet taken.
    pub fn rest(&self) -> &'b [u8] {
        self.rest
    }
}

impl Iterator for Answers<'_, '_> {
    type Item = Result<Received, Refusal>;

    #[inline]
    fn next(&mut self) -> Option<Self::Item> {
        let fed = self.collector.feed(self.rest);
        self.rest = &self.rest[fed.taken..];
        let length = match fed.answer? {
            Ok(message) => message.len(),
            Err(refusal) => return Some(Err(refusal)),
        };
        Some(Ok(Received {
            bytes: self.collector.message,
            length,
        }))
    }
}

// Fed no bytes, collecting gives no answer.
impl FusedIterator for Answers<'_, '_> {}

/// A message as it was collected, its check sequence taken off: a slice of bytes,
/// kept without the heap.
#[derive(Clone, Copy)]
pub struct Received {
    bytes: [u8; MESSAGE_MAX],
    length: usize,
}

impl Received {
    /// The message as a typed value; see [`Message::read`].
    ///
    /// # Errors
    ///
    /// Those of [`Message::read`].
    #[inline]
    pub fn message(&self) -> Result<Message<'_>, Error> {
        Message::read(self)
    }
}

impl Deref for Received {
    type Target = [u8];

    #[inline]
    fn deref(&self) -> &[u8] {
        &self.bytes[..self.length]
    }
}

impl AsRef<[u8]> for Received {
    fn as_ref(&self) -> &[u8] {
        self
    }
}

impl PartialEq for Received {
    fn eq(&self, other: &Self) -> bool {
        **self == **other
    }
}

impl Eq for Received {}

impl fmt::Debug for Received {
    fn fmt(&self, f: &mut fmt::Formatter<'_>) -> fmt::Result {
        f.debug_tuple("Received").field(&&**self).finish()
    }
}
