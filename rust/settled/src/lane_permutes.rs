//! The six rows that request 1 adds: how their bytes are decoded, and what they move.
//!
//! Written from the request's words, the manual and document 01's rules, and from nothing of the
//! library: the rules of request 1 hold the library's answers to it.

use crate::decoded::Decoded;

const VPERMILPS: u32 = 6;
const VUNPCKHPS: u32 = 7;
const VUNPCKLPD: u32 = 8;
const VUNPCKHPD: u32 = 9;
const VPSHUFB: u32 = 10;

const AVX: u32 = 1;
const AVX2: u32 = 2;
const AVX512F: u32 = 4;
const AVX512VL: u32 = 8;
const AVX512BW: u32 = 32;

/// A line of the request's table, VEX and EVEX together.
struct Row {
    mnemonic: u32,
    /// pp, map and opcode.
    key: [u8; 3],
    /// What W may be under VEX, and under EVEX.
    w: [&'static [u8]; 2],
    /// With an immediate there is no first source.
    immediate: bool,
    /// Bytes of an element.
    element: usize,
}

const ZERO: &[u8] = &[0];
const ONE: &[u8] = &[1];
const ANY: &[u8] = &[0, 1];

#[rustfmt::skip] // a line for each of the table's
const ROWS: [Row; 6] = [
    Row { mnemonic: VPERMILPS, key: [1, 3, 0x04], w: [ZERO, ZERO], immediate: true, element: 4 },
    Row { mnemonic: VPERMILPS, key: [1, 2, 0x0C], w: [ZERO, ZERO], immediate: false, element: 4 },
    Row { mnemonic: VUNPCKHPS, key: [0, 1, 0x15], w: [ANY, ZERO], immediate: false, element: 4 },
    Row { mnemonic: VUNPCKLPD, key: [1, 1, 0x14], w: [ANY, ONE], immediate: false, element: 8 },
    Row { mnemonic: VUNPCKHPD, key: [1, 1, 0x15], w: [ANY, ONE], immediate: false, element: 8 },
    Row { mnemonic: VPSHUFB, key: [1, 2, 0x00], w: [ANY, ANY], immediate: false, element: 1 },
];

/// A prefix with its opcode. Fields that are written inverted are the right way round here.
struct Prefix {
    is_evex: bool,
    key: [u8; 3],
    w: u8,
    /// 0, 1, 2 for 128, 256, 512 bits.
    width: u8,
    /// R'.R, which stand above ModRM reg.
    destination: u8,
    /// V'.vvvv.
    first: u8,
    /// X.B, which stand above ModRM r/m; under VEX B alone.
    third: u8,
    zeroing: u8,
    broadcast: u8,
    mask: u8,
    /// Bytes of prefix and opcode.
    size: usize,
}

impl Prefix {
    /// Nothing if it ends too soon, has a wrong fixed bit, or is none. EVEX P bit 2 was a fixed bit
    /// until request 7; with it set the map is now one that no row has, so that it is nothing still.
    fn read(code: &[u8]) -> Option<Prefix> {
        match *code {
            // Without X, B, map and W: they are 0, 0, 1 and 0.
            [0xC5, p, opcode, ..] => Some(Prefix::vex(p & 0x80 | 0x61, p & 0x7F, opcode, 3)),
            [0xC4, p, q, opcode, ..] => Some(Prefix::vex(p, q, opcode, 4)),
            [0x62, p, q, s, opcode, ..] if p & 0x0C == 0 && q & 0x04 != 0 => {
                Some(Prefix::evex(p, q, s, opcode))
            }
            _ => None,
        }
    }

    fn vex(p: u8, q: u8, opcode: u8, size: usize) -> Prefix {
        Prefix {
            is_evex: false,
            key: [q & 3, p & 0x1F, opcode],
            w: q >> 7,
            width: q >> 2 & 1,
            destination: !p >> 7,
            first: !q >> 3 & 0xF,
            third: !p >> 5 & 1,
            zeroing: 0,
            broadcast: 0,
            mask: 0,
            size,
        }
    }

    fn evex(p: u8, q: u8, s: u8, opcode: u8) -> Prefix {
        Prefix {
            is_evex: true,
            key: [q & 3, p & 3, opcode],
            w: q >> 7,
            width: s >> 5 & 3,
            destination: (!p >> 4 & 1) << 1 | !p >> 7,
            first: (!s >> 3 & 1) << 4 | !q >> 3 & 0xF,
            third: !p >> 5 & 3,
            zeroing: s >> 7,
            broadcast: s >> 4 & 1,
            mask: s & 7,
            size: 5,
        }
    }

    /// Under VEX, W is not part of what a row is found by.
    fn is_of(&self, row: &Row) -> bool {
        self.key == row.key && (!self.is_evex || row.w[1].contains(&self.w))
    }

    /// Whether one of the fields that document 01 answers 4 for is wrong.
    fn is_wrong(&self, row: &Row, is_register: bool) -> bool {
        let w = !self.is_evex && !row.w[0].contains(&self.w);
        let width = self.width == 3;
        let vvvv = row.immediate && self.first != 0;
        let broadcast = self.broadcast == 1 && (is_register || row.mnemonic == VPSHUFB);
        let zeroing = self.zeroing == 1 && self.mask == 0;
        w || width || vvvv || broadcast || zeroing
    }

    /// The fields of an instruction that nothing is wrong with.
    fn decoded(&self, row: &Row, code: &[u8], memory: usize) -> Decoded {
        let modrm = code[self.size];
        let third = match memory {
            0 => self.third << 3 | modrm & 7,
            _ => 0,
        };
        let immediate = match (row.immediate, code) {
            (true, [.., immediate]) => *immediate,
            _ => 0,
        };
        Decoded {
            status: 0,
            length: code.len() as u32,
            memory: memory as u32,
            mnemonic: row.mnemonic,
            bits: 128 << self.width,
            evex: self.is_evex.into(),
            destination: (self.destination << 3 | modrm >> 3 & 7).into(),
            first: self.first.into(),
            third: third.into(),
            mask: self.mask.into(),
            zeroing: self.zeroing.into(),
            broadcast: self.broadcast.into(),
            has_immediate: row.immediate.into(),
            immediate: immediate.into(),
        }
    }

    fn needed_features(&self, row: &Row) -> u32 {
        let is_byte = row.mnemonic == VPSHUFB;
        let evex = if is_byte { AVX512BW } else { AVX512F };
        match (self.is_evex, self.width) {
            (true, 2) => evex,
            (true, _) => evex | AVX512VL,
            (false, 1) if is_byte => AVX2,
            (false, _) => AVX,
        }
    }
}

/// An accepted instruction of one of the rows.
pub struct Instruction {
    row: &'static Row,
    pub decoded: Decoded,
}

/// Decodes bytes that one of the rows has: an instruction, or answer 2, 4 or 5. Nothing for all
/// other bytes, also for those in which document 01 finds a fault before it looks for a row.
pub fn decode(code: &[u8], features: u32) -> Option<Result<Instruction, u32>> {
    let prefix = Prefix::read(code)?;
    let row = ROWS.iter().find(|row| prefix.is_of(row))?;
    Some(Instruction::read(row, &prefix, code, features))
}

/// Bytes of ModRM, SIB and displacement. Nothing if the code ends before that shows.
fn operand_size(code: &[u8]) -> Option<usize> {
    let modrm = code.first()?;
    let (mode, rm) = (modrm >> 6, modrm & 7);
    let (base, size) = match (mode, rm) {
        (3, _) => return Some(1),
        (_, 4) => (code.get(1)? & 7, 2),
        _ => (rm, 1),
    };
    let displacement = match (mode, base) {
        (0, 5) | (2, _) => 4,
        (1, _) => 1,
        _ => 0,
    };
    Some(size + displacement)
}

impl Instruction {
    /// In document 01's order: 2, then 4, then 5.
    fn read(
        row: &'static Row,
        prefix: &Prefix,
        code: &[u8],
        features: u32,
    ) -> Result<Instruction, u32> {
        let operand = operand_size(&code[prefix.size..]).ok_or(2_u32)?;
        let length = prefix.size + operand + usize::from(row.immediate);
        let code = code.get(..length).ok_or(2_u32)?;
        let is_register = code[prefix.size] >> 6 == 3;
        if prefix.is_wrong(row, is_register) {
            return Err(4);
        }
        if prefix.needed_features(row) & !features != 0 {
            return Err(5);
        }
        let memory = match (is_register, prefix.broadcast) {
            (true, _) => 0,
            (false, 0) => 16 << prefix.width,
            (false, _) => row.element,
        };
        let decoded = prefix.decoded(row, code, memory);
        Ok(Instruction { row, decoded })
    }

    /// Whether a byte map cannot have it: answer 7.
    pub fn has_no_map(&self) -> bool {
        let is_controlled = match self.decoded.mnemonic {
            VPSHUFB => true,
            VPERMILPS => !self.row.immediate,
            _ => false,
        };
        is_controlled || self.decoded.memory != 0
    }

    /// Changes the destination register, of bytes or of a byte map's entries. `memory` is what the
    /// instruction reads, and empty for a register form.
    pub fn carry_out<T>(&self, file: &mut [T], masks: &[u64], memory: &[T], zero: T)
    where
        T: Copy + Into<usize>,
    {
        let d = &self.decoded;
        let register = |number: u32| file[64 * number as usize..][..64].to_vec();
        let (first, mut new) = (register(d.first), register(d.destination));
        let third = match memory {
            [] => register(d.third),
            _ => memory.iter().copied().cycle().take(64).collect(),
        };
        let bytes = d.bits as usize / 8;
        new[bytes..].fill(zero);
        for (i, byte) in new[..bytes].iter_mut().enumerate() {
            let bit = masks[d.mask as usize] >> (i / self.row.element) & 1;
            if d.mask == 0 || bit == 1 {
                *byte = self.moved(i, &first, &third).unwrap_or(zero);
            } else if d.zeroing == 1 {
                *byte = zero;
            }
        }
        file[64 * d.destination as usize..][..64].copy_from_slice(&new);
    }

    /// What byte i of the destination becomes; nothing stands for zero.
    fn moved<T: Copy + Into<usize>>(&self, i: usize, first: &[T], third: &[T]) -> Option<T> {
        let size = self.row.element;
        // The lane's first byte, the element's number in the lane, and the byte's in the element.
        let (lane, element, byte) = (i / 16 * 16, i % 16 / size, i % size);
        let control: usize = third[i - byte].into();
        let half = if element % 2 == 0 { first } else { third };
        let (source, pick) = match self.decoded.mnemonic {
            VPERMILPS if self.row.immediate => {
                (third, self.decoded.immediate as usize >> (2 * element) & 3)
            }
            VPERMILPS => (first, control & 3),
            VUNPCKLPD => (half, element / 2),
            // The higher half of a lane's elements.
            VUNPCKHPS | VUNPCKHPD => (half, 8 / size + element / 2),
            _ if control & 0x80 != 0 => return None,
            _ => (first, control & 15),
        };
        Some(source[lane + size * pick + byte])
    }
}
