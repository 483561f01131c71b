//! Memory operands, field by field, and the sums that they stand for (request 4).

use crate::encoding::Prefix;
use crate::random::Random;

/// A memory operand as an encoding has it.
#[derive(Debug, Clone, Copy, PartialEq, Eq)]
pub struct Operand {
    /// 0 to 2; 3 is a register.
    pub mode: u8,
    pub rm: u8,
    /// Only there with rm 4.
    pub sib: u8,
    /// Not inverted. The two-byte VEX prefix has neither: both are 0.
    pub x: u8,
    pub b: u8,
    /// Of which the first ones are there, as many as there are to be.
    pub displacement: [u8; 4],
}

/// What index and displacement are added to.
#[derive(Debug, Clone, Copy, PartialEq, Eq)]
pub enum Base {
    Register(u8),
    NextInstruction,
    None,
}

/// An index register, and the power of 2 that it is multiplied by.
#[derive(Debug, Clone, Copy, PartialEq, Eq)]
pub struct Index {
    pub register: u8,
    pub scale: u8,
}

/// Displacements at which a sign, a carry or a size shows. One of a single byte is the first alone.
#[rustfmt::skip] // on few lines
pub const EDGES: [[u8; 4]; 10] = [
    [0x00, 0x00, 0x00, 0x00], [0x01, 0x00, 0x00, 0x00], [0xFF, 0xFF, 0xFF, 0xFF],
    [0x7F, 0x00, 0x00, 0x00], [0x80, 0x00, 0x00, 0x00], [0x80, 0xFF, 0xFF, 0xFF],
    [0xFF, 0xFF, 0xFF, 0x7F], [0x00, 0x00, 0x00, 0x80], [0x7F, 0xFF, 0xFF, 0xFF],
    [0xC0, 0x3F, 0x00, 0x80],
];

impl Operand {
    /// Any operand that the prefix can have. Every other one has a SIB, and a displacement is at an
    /// edge as often as not.
    pub fn random(prefix: Prefix, random: &mut Random) -> Operand {
        let rm = random.bits(3);
        let any = random.number().to_le_bytes();
        let edge = random.pick(&EDGES);
        let [x, b] = match prefix {
            Prefix::Vex2 => [0, 0],
            Prefix::Vex3 | Prefix::Evex => [random.bits(1), random.bits(1)],
        };
        Operand {
            mode: random.below(3) as u8,
            rm: random.pick(&[rm, 4]),
            sib: random.byte(),
            x,
            b,
            displacement: random.pick(&[edge, [any[0], any[1], any[2], any[3]]]),
        }
    }

    /// As [`random`](Operand::random), relative to the next instruction.
    pub fn relative(prefix: Prefix, random: &mut Random) -> Operand {
        Operand {
            mode: 0,
            rm: 5,
            ..Operand::random(prefix, random)
        }
    }

    /// As [`random`](Operand::random), with a displacement of one byte.
    pub fn near(prefix: Prefix, random: &mut Random) -> Operand {
        Operand {
            mode: 1,
            ..Operand::random(prefix, random)
        }
    }

    /// As [`random`](Operand::random), with a SIB that has no index, no base or neither, or r12 as
    /// the index if the prefix can name it.
    pub fn unusual_sib(prefix: Prefix, random: &mut Random) -> Operand {
        let operand = Operand {
            rm: 4,
            ..Operand::random(prefix, random)
        };
        let no_index = (operand.sib & 0xC7) | 4 << 3;
        let no_base = (operand.sib & 0xF8) | 5;
        let neither = (no_index & 0xF8) | 5;
        Operand {
            mode: random.pick(&[0, 0, operand.mode]),
            sib: random.pick(&[no_index, no_base, neither]),
            ..operand
        }
    }

    /// The operand of an instruction that is accepted; none if that is a register.
    pub fn read(code: &[u8]) -> Option<Operand> {
        let (modrm_at, p) = match *code {
            [0xC5, ..] => (3, 0xFF),
            [0xC4, p, ..] => (4, p),
            [0x62, p, ..] => (5, p),
            _ => return None,
        };
        let (&modrm, rest) = code.get(modrm_at..)?.split_first()?;
        let mut operand = Operand {
            mode: modrm >> 6,
            rm: modrm & 7,
            sib: 0,
            x: !p >> 6 & 1,
            b: !p >> 5 & 1,
            displacement: [0; 4],
        };
        let mut rest = rest.iter();
        if operand.has_sib() {
            operand.sib = *rest.next()?;
        }
        let size = operand.displacement_size();
        for byte in &mut operand.displacement[..size] {
            *byte = *rest.next()?;
        }
        (operand.mode != 3).then_some(operand)
    }

    pub fn has_sib(&self) -> bool {
        self.mode != 3 && self.rm == 4
    }

    /// The three bits that name a base, or say that there is none.
    fn base_bits(&self) -> u8 {
        if self.has_sib() {
            self.sib & 7
        } else {
            self.rm
        }
    }

    /// Bytes of the displacement.
    pub fn displacement_size(&self) -> usize {
        match (self.mode, self.base_bits()) {
            (0, 5) | (2, _) => 4,
            (1, _) => 1,
            _ => 0,
        }
    }

    pub fn base(&self) -> Base {
        match (self.mode, self.base_bits()) {
            (0, 5) if self.has_sib() => Base::None,
            (0, 5) => Base::NextInstruction,
            (_, bits) => Base::Register(self.b << 3 | bits),
        }
    }

    pub fn index(&self) -> Option<Index> {
        let register = self.x << 3 | self.sib >> 3 & 7;
        let scale = self.sib >> 6;
        (self.has_sib() && register != 4).then_some(Index { register, scale })
    }

    /// The displacement in bytes, where one of a single byte counts so many.
    pub fn distance(&self, unit: i64) -> i64 {
        match self.displacement_size() {
            0 => 0,
            1 => unit * i64::from(self.displacement[0] as i8),
            _ => i64::from(i32::from_le_bytes(self.displacement)),
        }
    }

    /// What register `number` is multiplied by in the sum: 0 if it is not in it.
    pub fn factor(&self, number: u8) -> u64 {
        let base = u64::from(self.base() == Base::Register(number));
        let index = self.index().filter(|index| index.register == number);
        base + index.map_or(0, |index| 1 << index.scale)
    }

    /// The whole sum, before it is taken modulo 2^64. `next` is where the next instruction stands.
    pub fn sum(&self, unit: i64, registers: &[u64], next: i128) -> i128 {
        let register = |number: u8| i128::from(registers[usize::from(number)]);
        let base = match self.base() {
            Base::Register(number) => register(number),
            Base::NextInstruction => next,
            Base::None => 0,
        };
        let index = self.index();
        let index = index.map_or(0, |index| register(index.register) << index.scale);
        base + index + i128::from(self.distance(unit))
    }
}
