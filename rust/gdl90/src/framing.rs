//! Framing a message, 001 §2.2.

use crate::{raw, Error};

pub use raw::{check_sequence, MESSAGE_MAX};

/// The longest frame: a message of 436 bytes and its check sequence, every byte
/// escaped, between two flags.
pub const FRAME_MAX: usize = 2 * (MESSAGE_MAX + 2) + 2;

/// Writes a message as a frame to the start of `out` and answers how many bytes
/// it is: flag, message and check sequence with escapes, flag.
///
/// [`FRAME_MAX`] bytes are enough for any; what stands behind the frame stays.
///
/// # Errors
///
/// [`Error::Unframable`] unless the message has 1 to 436 bytes, then
/// [`Error::NoRoom`] exactly if `out` is shorter than the frame.
///
/// ```
/// let mut out = [0; gdl90::FRAME_MAX];
/// let length = gdl90::frame(&[0x7E], &mut out)?;
/// assert_eq!(out[..length], [0x7E, 0x7D, 0x5E, 0x7D, 0x5E, 0x00, 0x7E]);
/// # Ok::<(), gdl90::Error>(())
/// ```
#[inline]
pub fn frame(message: &[u8], out: &mut [u8]) -> Result<usize, Error> {
    raw::frame(message, out).result()
}

/// The frame of a message, as [`frame`] writes it, in bytes of its own.
///
/// # Errors
///
/// [`Error::Unframable`] unless the message has 1 to 436 bytes.
///
/// ```
/// let heartbeat = [0x00, 0x81, 0x41, 0xDB, 0xD0, 0x08, 0x02];
/// let framed = gdl90::framed(&heartbeat)?;
/// assert_eq!(framed, [0x7E, 0x00, 0x81, 0x41, 0xDB, 0xD0, 0x08, 0x02, 0xB3, 0x8B, 0x7E]);
/// # Ok::<(), gdl90::Error>(())
/// ```
pub fn framed(message: &[u8]) -> Result<Vec<u8>, Error> {
    let mut out = vec![0; FRAME_MAX];
    let length = frame(message, &mut out)?;
    out.truncate(length);
    Ok(out)
}
