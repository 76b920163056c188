//! The proved library held against the reference: what both sides' values are to
//! each other, both fed the same, memory that is lent, counts of numbers, the
//! collecting that is there only to be measured, and clocks.

pub mod clock;
pub mod collecting;
pub mod lent;
pub mod messages;
pub mod numbers;

extern "C" {
    fn by_value_answers(bytes: *const u8, bytes_len: usize) -> usize;
}

/// How many answers a whole stream gives, its state passed by value for every
/// byte.
#[inline]
pub fn answers_by_value(bytes: &[u8]) -> usize {
    // SAFETY: pointer and length are those of one live slice, which is only
    // read and not kept.
    unsafe { by_value_answers(bytes.as_ptr(), bytes.len()) }
}
