//! Buffers between guard elements, to see what a call writes.

use std::fmt;

/// Guard elements on each side: more than a register has bytes, and an odd number, so that a buffer
/// of bytes starts at an odd address.
const GUARD: usize = 65;

/// What a buffer is made of.
pub trait Element: Copy + PartialEq + fmt::UpperHex {
    /// The value of guard elements.
    const FILL: Self;
}

impl Element for u8 {
    const FILL: u8 = 0xA5;
}

impl Element for u16 {
    const FILL: u16 = 0xA5A5;
}

impl Element for u64 {
    const FILL: u64 = 0xA5A5_A5A5_A5A5_A5A5;
}

/// A buffer that is filled anew for each case.
#[derive(Default)]
pub struct Guarded<T = u8> {
    elements: Vec<T>,
}

impl<T: Element> Guarded<T> {
    /// Copies `content` between guard elements and gives the copy.
    pub fn fill(&mut self, content: &[T]) -> &mut [T] {
        self.fill_joined(content, &[])
    }

    /// Copies `content` and `behind`, one behind the other, and gives the copy of `content`.
    pub fn fill_joined(&mut self, content: &[T], behind: &[T]) -> &mut [T] {
        self.elements.clear();
        self.elements.resize(GUARD, T::FILL);
        self.elements.extend_from_slice(content);
        self.elements.extend_from_slice(behind);
        self.elements.resize(self.elements.len() + GUARD, T::FILL);
        &mut self.elements[GUARD..GUARD + content.len()]
    }

    /// What the copy and all behind it up to the guard elements hold now.
    pub fn content(&self) -> &[T] {
        &self.elements[GUARD..self.elements.len() - GUARD]
    }

    /// Whether the copy is `content` and the guard elements are as they were.
    pub fn is_unchanged(&self, content: &[T]) -> bool {
        self.difference(content).is_none()
    }

    /// The first place where the copy is not `expected`, or a guard element is not as it was.
    pub fn difference(&self, expected: &[T]) -> Option<Difference<T>> {
        self.joined_difference(expected, &[])
    }

    /// As `difference`, for a copy that [`fill_joined`](Guarded::fill_joined) made.
    pub fn joined_difference(&self, expected: &[T], behind: &[T]) -> Option<Difference<T>> {
        let guard = [T::FILL; GUARD];
        let parts = [&guard[..], expected, behind, &guard];
        let length: usize = parts.iter().map(|part| part.len()).sum();
        assert_eq!(
            length,
            self.elements.len(),
            "not the length that was filled"
        );
        let mut start = 0;
        for part in parts {
            let found = &self.elements[start..start + part.len()];
            if found != part {
                return first_difference(found, part, start as isize - GUARD as isize);
            }
            start += part.len();
        }
        None
    }
}

/// An element with a wrong value.
#[derive(Debug)]
pub struct Difference<T> {
    /// Its place in the buffer: negative before the buffer, and the length or more behind it.
    pub at: isize,
    pub found: T,
    pub expected: T,
}

impl<T: Element> fmt::Display for Difference<T> {
    fn fmt(&self, f: &mut fmt::Formatter) -> fmt::Result {
        let digits = 2 * size_of::<T>();
        let (at, found, expected) = (self.at, self.found, self.expected);
        write!(
            f,
            "element {at} is {found:0digits$X}, not {expected:0digits$X}"
        )
    }
}

/// The first difference of two slices of one length, the first of which starts at `start`.
fn first_difference<T: Element>(
    found: &[T],
    expected: &[T],
    start: isize,
) -> Option<Difference<T>> {
    let i = found.iter().zip(expected).position(|(f, e)| f != e)?;
    Some(Difference {
        at: start + i as isize,
        found: found[i],
        expected: expected[i],
    })
}
