//! Fixed-seed generator: every run sees the same messages.

use crate::framing::{ESCAPE, FLAG};

/// Marsaglia's xorshift on 64 bits (shifts 13, 7, 17).
pub struct Xorshift(u64);

impl Xorshift {
    /// A zero state would stay zero, so the seed must not be zero.
    pub fn new(seed: u64) -> Self {
        assert_ne!(seed, 0, "xorshift needs a seed other than zero");
        Self(seed)
    }

    pub fn next_u64(&mut self) -> u64 {
        self.0 ^= self.0 << 13;
        self.0 ^= self.0 >> 7;
        self.0 ^= self.0 << 17;
        self.0
    }

    /// A number below `bound`. The slight bias does not matter for test data.
    pub fn below(&mut self, bound: usize) -> usize {
        ((self.next_u64() >> 32) as usize) % bound
    }

    pub fn message(&mut self, length: usize) -> Vec<u8> {
        let mut message = vec![0; length];
        for part in message.chunks_mut(8) {
            part.copy_from_slice(&self.next_u64().to_le_bytes()[..part.len()]);
        }
        message
    }

    /// Random bytes behind the id.
    pub fn message_with_id(&mut self, id: u8, length: usize) -> Vec<u8> {
        let mut message = self.message(length);
        message[0] = id;
        message
    }

    /// A message in which about `eighths` of eight bytes need an escape.
    pub fn message_with_escapes(&mut self, length: usize, eighths: usize) -> Vec<u8> {
        let mut message = self.message(length);
        for byte in &mut message {
            if self.below(8) < eighths {
                *byte = [ESCAPE, FLAG][self.below(2)];
            }
        }
        message
    }
}
