//! Buffers that may be written, inside larger ones.

use crate::digest::Digest;

/// Elements of the larger buffer before the one that is passed, and at least as many behind it.
const GUARD: usize = 8;
/// Elements of the larger buffer, for a register file or a byte map.
pub const ROOM: usize = 2_560;
/// The same for the listing's text.
pub const TEXT_ROOM: usize = 26_112;

/// A buffer inside a larger one, of which no other element may change.
pub struct Room<T> {
    /// All of the larger buffer, as it is before the call.
    pub whole: Vec<T>,
    /// Elements that are passed.
    pub size: usize,
}

impl<T: Copy + Into<u64>> Room<T> {
    /// Of `size` elements inside `whole`.
    ///
    /// # Panics
    ///
    /// If the larger buffer has no room for `size` elements and those around them.
    pub fn new(whole: Vec<T>, size: u16) -> Room<T> {
        let size = usize::from(size);
        assert!(size + 2 * GUARD <= whole.len(), "{size} elements");
        Room { whole, size }
    }

    /// What is passed, as it is before the call.
    pub fn passed(&self) -> &[T] {
        &self.whole[GUARD..][..self.size]
    }

    /// Calls `entry_point` on a copy, and gives what it returns with the digest of the whole copy
    /// afterwards.
    pub fn call<R>(&self, entry_point: impl FnOnce(&mut [T]) -> R) -> (R, Digest) {
        let mut whole = self.whole.clone();
        let returned = entry_point(&mut whole[GUARD..][..self.size]);
        (returned, Digest::of(&whole))
    }
}

/// What the larger buffer of a byte map holds before the call: numbers that differ from place to
/// place.
pub fn old_map(start: u16) -> Vec<u16> {
    let numbers = (0..ROOM).map(|i| usize::from(start) + 40_503 * i);
    numbers.map(|number| number as u16).collect()
}
