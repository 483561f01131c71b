//! What an entry point answers, as the results have it.

use crate::digest::Digest;
use std::fmt;

/// The status, further numbers, and the digest of everything that the call may write.
#[derive(Debug, Clone, PartialEq, Eq)]
pub struct Answer {
    pub status: u32,
    pub numbers: Vec<u64>,
    pub digest: Digest,
}

impl Answer {
    /// Reads a line of the results, if it is one: hexadecimal numbers with a space between.
    pub fn read(line: &str) -> Option<Answer> {
        let words = line.split(' ');
        let numbers: Result<Vec<_>, _> = words.map(|word| u64::from_str_radix(word, 16)).collect();
        match &numbers.ok()?[..] {
            [status, numbers @ .., digest] => Some(Answer {
                status: u32::try_from(*status).ok()?,
                numbers: numbers.to_vec(),
                digest: Digest(*digest),
            }),
            _ => None,
        }
    }
}

/// Prints as its line of the results.
impl fmt::Display for Answer {
    fn fmt(&self, f: &mut fmt::Formatter) -> fmt::Result {
        write!(f, "{:x} ", self.status)?;
        for number in &self.numbers {
            write!(f, "{number:x} ")?;
        }
        write!(f, "{}", self.digest)
    }
}
