//! Places in the register file, in words.

use tarhuspo::limits::{FILE_SIZE, MAP_ZERO};

/// Bytes of a register.
pub const REGISTER_SIZE: usize = 64;
pub const REGISTERS: usize = FILE_SIZE / REGISTER_SIZE;

/// Where a byte comes from.
#[derive(Clone, Copy, PartialEq, Eq)]
pub enum Source {
    /// It stays as it is.
    Kept,
    Zero,
    /// The byte at another place.
    From(usize),
}

impl Source {
    /// What entry `entry` of a byte map says of the byte at `place`.
    pub fn of(place: usize, entry: u16) -> Source {
        match usize::from(entry) {
            _ if entry == MAP_ZERO => Source::Zero,
            from if from == place => Source::Kept,
            from => Source::From(from),
        }
    }
}

/// Neighbouring bytes of one register whose sources are neighbours in one register too.
pub struct Run {
    pub start: usize,
    pub length: usize,
    /// Of the first byte.
    pub source: Source,
}

impl Run {
    fn continues(&self, place: usize, source: Source) -> bool {
        if place.is_multiple_of(REGISTER_SIZE) {
            return false;
        }
        match (self.source, source) {
            (Source::From(start), Source::From(next)) => {
                next == start + self.length && !next.is_multiple_of(REGISTER_SIZE)
            }
            (before, next) => before == next,
        }
    }

    /// The bytes from `start` up to `end`, which are in the run.
    pub fn part(&self, start: usize, end: usize) -> Run {
        let source = match self.source {
            Source::From(from) => Source::From(from + start - self.start),
            other => other,
        };
        let length = end - start;
        Run {
            start,
            length,
            source,
        }
    }
}

/// A whole byte map in runs, from register 0 on.
pub fn runs(map: &[u16]) -> Vec<Run> {
    let mut runs: Vec<Run> = Vec::new();
    for (place, entry) in map.iter().enumerate() {
        let source = Source::of(place, *entry);
        match runs.last_mut() {
            Some(run) if run.continues(place, source) => run.length += 1,
            _ => runs.push(Run {
                start: place,
                length: 1,
                source,
            }),
        }
    }
    runs
}

/// Bytes of one register, as in `zmm1[0..3]`.
pub fn span(start: usize, length: usize) -> String {
    let (register, first) = (start / REGISTER_SIZE, start % REGISTER_SIZE);
    format!("zmm{register}[{}]", range(first, length))
}

/// Numbers from `first` on, as in `0..3`, or one alone.
pub fn range(first: usize, length: usize) -> String {
    match length {
        1 => first.to_string(),
        _ => format!("{first}..{}", first + length - 1),
    }
}
