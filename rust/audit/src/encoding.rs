//! Instructions as fields, and their bytes.

use crate::random::Random;
use crate::shape::{Operand, Prefix, Shape};

/// Every field of an encoding, the right way round (inverted bits are inverted when written).
#[derive(Debug, Clone)]
pub struct Fields {
    pub prefix: Prefix,
    /// EVEX P bit 3, always 0.
    pub fixed_p: u8,
    /// EVEX Q bit 2, always 1.
    pub fixed_q: u8,
    /// Under EVEX P bits 2:0. Instructions in maps 4 to 7 are not ours, so that it is 1 to 3.
    pub map: u8,
    pub pp: u8,
    pub w: u8,
    pub width: u8,
    pub opcode: u8,
    pub destination: u8,
    /// V'.vvvv, 0 where there is no first source.
    pub first: u8,
    pub third: Third,
    pub mask: u8,
    pub zeroing: u8,
    pub broadcast: u8,
    pub immediate: Option<u8>,
}

/// The third operand. X and B beside it belong to the prefix.
#[derive(Debug, Clone)]
pub enum Third {
    /// Under VEX, X is ignored.
    Register { number: u8, ignored_x: u8 },
    /// ModRM mode and r/m, and the bytes that follow ModRM.
    Memory {
        mode: u8,
        rm: u8,
        x: u8,
        b: u8,
        tail: Vec<u8>,
    },
}

impl Fields {
    /// An instruction of this shape that all features together accept. Whatever the shape leaves
    /// free is random.
    pub fn random(shape: Shape, random: &mut Random) -> Fields {
        let row = shape.row;
        let is_evex = shape.is_evex();
        let registers = if is_evex { 32 } else { 16 };
        let destination = random.below(registers);
        let mut first = 0;
        if row.first {
            first = same_or_random(destination, registers, random);
        }
        let mask = if is_evex { random.below(8) } else { 0 };
        let w = match shape.prefix {
            Prefix::Vex2 => 0,
            Prefix::Vex3 if row.vex_any_w => random.bit(),
            Prefix::Vex3 => 0,
            Prefix::Evex => random.pick(row.evex_w),
        };
        Fields {
            prefix: shape.prefix,
            fixed_p: 0,
            fixed_q: 1,
            map: row.map,
            pp: row.pp,
            w,
            width: shape.width,
            opcode: row.opcode,
            destination,
            first,
            third: Third::random(shape, destination, random),
            mask,
            zeroing: if mask == 0 { 0 } else { random.bit() },
            broadcast: u8::from(shape.operand == Operand::Broadcast),
            immediate: row.immediate.then(|| random.byte()),
        }
    }

    /// The instruction's bytes.
    pub fn bytes(&self) -> Vec<u8> {
        let mut bytes = self.prefix_bytes();
        bytes.push(self.opcode);
        let reg = (self.destination & 7) << 3;
        match &self.third {
            Third::Register { number, .. } => bytes.push(3 << 6 | reg | number & 7),
            Third::Memory { mode, rm, tail, .. } => {
                bytes.push(mode << 6 | reg | rm);
                bytes.extend(tail);
            }
        }
        bytes.extend(self.immediate);
        bytes
    }

    fn prefix_bytes(&self) -> Vec<u8> {
        let (x, b) = self.x_and_b();
        let r = bit(self.destination, 3);
        let not_rxb = !(r << 7 | x << 6 | b << 5) & 0xE0;
        let vvvv_pp = (!self.first & 0xF) << 3 | self.pp;
        match self.prefix {
            Prefix::Vex2 => vec![0xC5, not_rxb & 0x80 | vvvv_pp | self.width << 2],
            Prefix::Vex3 => vec![
                0xC4,
                not_rxb | self.map,
                self.w << 7 | vvvv_pp | self.width << 2,
            ],
            Prefix::Evex => vec![
                0x62,
                not_rxb | not_bit_4(self.destination) << 4 | self.fixed_p << 3 | self.map,
                self.w << 7 | vvvv_pp | self.fixed_q << 2,
                self.evex_s(),
            ],
        }
    }

    /// The last byte of an EVEX prefix.
    fn evex_s(&self) -> u8 {
        let not_v_high = not_bit_4(self.first) << 3;
        self.zeroing << 7 | self.width << 5 | self.broadcast << 4 | not_v_high | self.mask
    }

    fn x_and_b(&self) -> (u8, u8) {
        match self.third {
            Third::Memory { x, b, .. } => (x, b),
            Third::Register { number, .. } if self.prefix == Prefix::Evex => {
                (bit(number, 4), bit(number, 3))
            }
            Third::Register { number, ignored_x } => (ignored_x, bit(number, 3)),
        }
    }
}

impl Third {
    fn random(shape: Shape, destination: u8, random: &mut Random) -> Third {
        if shape.operand != Operand::Register {
            return Third::random_memory(shape.prefix, random);
        }
        // The two-byte VEX prefix has no B.
        let limit = match shape.prefix {
            Prefix::Vex2 => 8,
            Prefix::Vex3 => 16,
            Prefix::Evex => 32,
        };
        let number = same_or_random(destination, limit, random);
        let ignored_x = match shape.prefix {
            Prefix::Vex3 => random.bit(),
            _ => 0,
        };
        Third::Register { number, ignored_x }
    }

    /// Any way to name memory: with or without base, index, displacement.
    fn random_memory(prefix: Prefix, random: &mut Random) -> Third {
        let mode = random.below(3);
        // A SIB byte has the most ways.
        let rm = match random.bit() {
            1 => 4,
            _ => often(5, random),
        };
        let (x, b) = match prefix {
            Prefix::Vex2 => (0, 0),
            _ => (random.bit(), random.bit()),
        };
        let mut tail = Vec::new();
        let mut base = rm;
        if rm == 4 {
            let index = often(4, random);
            base = often(5, random);
            tail.push(random.below(4) << 6 | index << 3 | base);
        }
        let size = match (mode, base) {
            (0, 5) | (2, _) => 4,
            (1, _) => 1,
            _ => 0,
        };
        tail.extend(random.bytes(size));
        Third::Memory {
            mode,
            rm,
            x,
            b,
            tail,
        }
    }
}

/// A number of three bits that means something else than the others: it comes more often.
fn often(number: u8, random: &mut Random) -> u8 {
    match random.one_in(4) {
        true => number,
        false => random.below(8),
    }
}

fn bit(number: u8, index: u32) -> u8 {
    number >> index & 1
}

/// The inverse of a register number's highest bit.
fn not_bit_4(number: u8) -> u8 {
    1 - bit(number, 4)
}

/// The given register every fourth time if it is below `limit`, else any that is.
fn same_or_random(register: u8, limit: u8, random: &mut Random) -> u8 {
    if register < limit && random.one_in(4) {
        return register;
    }
    random.below(limit)
}
