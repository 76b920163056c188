//! Memory that is lent to a call, between guards, and what it held before.

use std::hint::black_box;

/// Elements on each side of what is lent that no call may touch.
const GUARD: usize = 16;

pub struct Lent<T> {
    before: Vec<T>,
    now: Vec<T>,
}

impl<T: Copy + PartialEq> Lent<T> {
    /// So many elements between guards, what each holds given by its place.
    pub fn new(length: usize, element: impl Fn(usize) -> T) -> Self {
        let before: Vec<T> = (0..GUARD + length + GUARD).map(element).collect();
        let now = before.clone();
        Self { before, now }
    }

    pub fn lend(&mut self) -> &mut [T] {
        let behind = self.now.len() - GUARD;
        &mut self.now[GUARD..behind]
    }

    /// What was written, so many elements from the start on. All others are as they
    /// were, the guards too.
    pub fn assert_rest_unchanged(&self, written: usize) -> &[T] {
        // The compiler may hold that a call leaves the guards as they are.
        let now = black_box(&self.now);
        let (front, behind) = (..GUARD, GUARD + written..);
        let written = &now[GUARD..now.len() - GUARD][..written];
        assert!(now[front] == self.before[front], "in front of what is lent");
        let same = now[behind.clone()] == self.before[behind];
        assert!(same, "behind what is written");
        written
    }
}
