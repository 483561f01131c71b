//! The digest of a buffer: two polynomials in its elements, modulo a prime.

use std::fmt;

/// The largest prime below 2^32.
const PRIME: u64 = 4_294_967_291;
const FACTORS: [u64; 2] = [2_654_435_761, 1_597_334_677];

/// Both numbers, the first in the upper half. Prints as 16 hexadecimal digits.
#[derive(Debug, Clone, Copy, PartialEq, Eq)]
pub struct Digest(pub u64);

impl Digest {
    /// From 1, times the factor plus the element, for every element in order.
    pub fn of<T: Copy + Into<u64>>(elements: &[T]) -> Digest {
        let mut sums = [1; 2];
        for &element in elements {
            for (sum, factor) in sums.iter_mut().zip(FACTORS) {
                *sum = (*sum * factor + element.into()) % PRIME;
            }
        }
        let [first, second] = sums;
        Digest(first << 32 | second)
    }
}

impl fmt::Display for Digest {
    fn fmt(&self, f: &mut fmt::Formatter) -> fmt::Result {
        write!(f, "{:016x}", self.0)
    }
}
