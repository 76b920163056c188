//! Numbers with a mark, as the C functions have them.

use crate::raw::{NONE, PLAIN};
use crate::Error;

/// Mark and number.
#[inline]
pub fn marked<T: Default>(number: Option<T>) -> (u8, T) {
    match number {
        Some(number) => (PLAIN, number),
        None => (NONE, T::default()),
    }
}

/// The number without its mark; 8 for a mark that the field does not have
/// (RULES 'Structs for C').
#[inline]
pub fn unmarked<T>(mark: u8, number: T) -> Result<Option<T>, Error> {
    match mark {
        PLAIN => Ok(Some(number)),
        NONE => Ok(None),
        _ => Err(Error::OutOfRange),
    }
}
