//! Sizes and records that the Rattle program `vectors` reads. docs/VECTORS.md has them in tables.

/// Inputs of each entry point.
pub const INPUTS: usize = 20_000;

/// Elements before and behind a buffer that is written. They are digested with it.
pub const GUARD: usize = 8;
/// Elements of such a buffer with its guards, and the most that it has without them.
pub const ROOM: usize = 2_560;
pub const MOST: usize = ROOM - 2 * GUARD;
/// The same for the listing's text.
pub const TEXT_ROOM: usize = 28_160;
pub const TEXT_MOST: usize = TEXT_ROOM - 2 * GUARD;

/// Most opmasks or general registers, bytes of memory and bytes of code of an input.
pub const MASKS_ROOM: usize = 24;
pub const MEMORY_MOST: usize = 255;
pub const CODE_ROOM: usize = 16_640;

/// Elements of a pool, from `start` on.
#[derive(Debug, Clone, Copy, PartialEq, Eq)]
pub struct Span {
    pub start: u16,
    pub length: u16,
}

impl Span {
    pub fn new(start: usize, length: usize) -> Span {
        Span {
            start: start as u16,
            length: length as u16,
        }
    }
}

/// A byte map of the pool with the entry at `place` set. No map has a place `NO_PLACE`.
#[derive(Debug, Clone, Copy, PartialEq, Eq)]
pub struct Map {
    pub span: Span,
    pub place: u16,
    pub entry: u16,
}

impl Map {
    pub const NO_PLACE: u16 = u16::MAX;
}

/// Little-endian fields, one after the other.
#[derive(Debug, Default)]
pub struct Record(pub Vec<u8>);

impl Record {
    pub fn u8(mut self, number: u16) -> Record {
        self.0.push(number as u8);
        self
    }

    pub fn u16(mut self, number: u16) -> Record {
        self.0.extend(number.to_le_bytes());
        self
    }

    pub fn u32(mut self, number: u32) -> Record {
        self.0.extend(number.to_le_bytes());
        self
    }

    pub fn u64(mut self, number: u64) -> Record {
        self.0.extend(number.to_le_bytes());
        self
    }

    /// A part of the pool of bytes, or of entries.
    pub fn span(self, span: Span) -> Record {
        self.u16(span.start).u16(span.length)
    }

    /// A part of the pool of opmasks, which has 256. General registers are one too.
    pub fn masks(self, span: Span) -> Record {
        self.u8(span.start).u8(span.length)
    }

    pub fn map(self, map: Map) -> Record {
        self.span(map.span).u16(map.place).u16(map.entry)
    }

    /// Code, after its length.
    pub fn code(self, code: &[u8]) -> Record {
        let mut record = self.u16(code.len() as u16);
        record.0.extend_from_slice(code);
        record
    }
}
