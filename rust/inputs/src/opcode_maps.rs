//! EVEX instructions under every opcode map and with every value of the fixed bits (request 7).

use crate::encoding::{Prefix, Shape};

/// The opcode maps that no row has.
pub const OTHER_OPCODE_MAPS: [u8; 5] = [0, 4, 5, 6, 7];

/// What the second byte of an EVEX prefix and the fixed bit of its third make of an instruction.
#[derive(Debug, Clone, Copy, PartialEq, Eq, PartialOrd, Ord)]
pub enum Outcome {
    /// A fixed bit is wrong: bit 3 of the second byte is 1, or bit 2 of the third is 0.
    FixedBits,
    /// The fixed bits are right, and the opcode map is not the row's.
    NoRow,
    Row,
}

impl Outcome {
    /// Status and reason of the first `length` bytes of an instruction that has `whole` and that is
    /// accepted in its row. Nothing is looked at before the opcode is there, which is the fifth byte.
    pub fn answer(self, length: usize, whole: usize) -> (u32, u32) {
        match self {
            _ if length < 5 => (2, 0),
            Outcome::FixedBits => (4, 1),
            Outcome::NoRow => (3, 0),
            Outcome::Row if length < whole => (2, 0),
            Outcome::Row => (0, 0),
        }
    }
}

impl Shape {
    /// What becomes of an EVEX instruction of this shape under a second byte `p` and a third byte `q`.
    /// No opcode of the table stands in two opcode maps.
    pub fn outcome(self, p: u8, q: u8) -> Outcome {
        let [bit_3, bit_2] = [p >> 3 & 1, q >> 2 & 1];
        match (bit_3, bit_2) {
            (0, 1) if p & 7 == self.row.map => Outcome::Row,
            (0, 1) => Outcome::NoRow,
            _ => Outcome::FixedBits,
        }
    }
}

/// The EVEX shapes.
pub fn evex_shapes() -> Vec<Shape> {
    let mut shapes = Shape::all();
    shapes.retain(|shape| shape.prefix == Prefix::Evex);
    shapes
}
