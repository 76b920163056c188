//! The information frames of an uplink payload, 001 §4.

use std::iter::FusedIterator;

use crate::error::{accepted, Error};
use crate::{raw, Text};

/// Bytes of an uplink payload.
pub const PAYLOAD_LENGTH: usize = 432;

/// One information frame of an uplink payload.
#[derive(Clone, Copy, Debug, PartialEq, Eq, Hash)]
pub struct InformationFrame<'a> {
    /// The frame's type, 001 Table 18.
    pub kind: u8,
    /// The three reserved bits.
    pub reserved: u8,
    /// The data, a part of the payload.
    pub data: &'a [u8],
}

impl InformationFrame<'_> {
    /// The weather text of a frame of type 0; `None` for any other type.
    ///
    /// Frames of type 0 carry other products too, such as graphic ones, which are
    /// refused with [`Error::NotText`]; for the other refusals see [`Text::read`].
    pub fn text(&self) -> Option<Result<Text<'static>, Error>> {
        (self.kind == 0).then(|| Text::read(self.data))
    }
}

/// The information frames of an uplink payload, in their order.
///
/// The list ends at a frame of length 0, and is empty where the payload's header
/// says that its application data are not valid.
///
/// # Errors
///
/// [`Error::WrongLength`] unless the payload has 432 bytes;
/// [`Error::PastTheData`] if one frame, whichever, is longer than the application
/// data behind its header.
///
/// ```
/// use gdl90::{add_information_frame, information_frames, PAYLOAD_LENGTH};
///
/// let mut payload = [0; PAYLOAD_LENGTH];
/// add_information_frame(&mut payload, 0, b"first")?;
/// add_information_frame(&mut payload, 14, b"second")?;
/// let frames = information_frames(&payload)?;
/// assert_eq!(frames.len(), 2);
/// for frame in frames {
///     println!("type {}: {} bytes", frame.kind, frame.data.len());
/// }
/// # Ok::<(), gdl90::Error>(())
/// ```
pub fn information_frames(payload: &[u8]) -> Result<InformationFrames<'_>, Error> {
    let count = raw::payload_list(payload).result()?;
    Ok(InformationFrames {
        payload,
        next: 0,
        count,
    })
}

/// Information frame n of a payload, numbered from 0.
///
/// # Errors
///
/// Those of [`information_frames`], then [`Error::NoSuchFrame`].
pub fn information_frame(payload: &[u8], n: usize) -> Result<InformationFrame<'_>, Error> {
    let found = raw::payload_nth(payload, n);
    accepted(found.number, ())?;
    Ok(InformationFrame {
        kind: found.kind,
        reserved: found.reserved,
        data: &payload[found.start..][..found.length],
    })
}

/// Adds an information frame behind the others, with zeros behind it, and has
/// the payload's header say that the application data are valid.
///
/// # Errors
///
/// Those of [`information_frames`], then [`Error::OutOfRange`] for a type over 15
/// or data not of 1 to 422 bytes, then [`Error::NoRoom`]. The payload is then as
/// it was.
pub fn add_information_frame(payload: &mut [u8], kind: u8, data: &[u8]) -> Result<(), Error> {
    accepted(raw::payload_add(payload, kind, data), ())
}

/// Iterator over information frames, made by [`information_frames`].
#[derive(Clone, Debug)]
pub struct InformationFrames<'a> {
    payload: &'a [u8],
    next: usize,
    count: usize,
}

impl<'a> Iterator for InformationFrames<'a> {
    type Item = InformationFrame<'a>;

    fn next(&mut self) -> Option<Self::Item> {
        if self.next == self.count {
            return None;
        }
        // Listed, so it is there.
        let frame = information_frame(self.payload, self.next).ok()?;
        self.next += 1;
        Some(frame)
    }

    fn size_hint(&self) -> (usize, Option<usize>) {
        let left = self.count - self.next;
        (left, Some(left))
    }
}

impl ExactSizeIterator for InformationFrames<'_> {}
impl FusedIterator for InformationFrames<'_> {}
