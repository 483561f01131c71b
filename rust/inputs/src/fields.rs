//! Fields of an encoding, written over what is there.

use crate::encoding::{Prefix, Shape};
use crate::operand::Operand;

/// Writes the low `count` bits of `value` at bit `at`.
fn put(byte: &mut u8, at: u32, count: u32, value: u8) {
    let mask = 0xFF >> (8 - count) << at;
    *byte = (*byte & !mask) | (value << at & mask);
}

impl Shape {
    /// How many registers the destination and a first source may be.
    pub fn registers(self) -> u8 {
        match self.prefix {
            Prefix::Vex2 | Prefix::Vex3 => 16,
            Prefix::Evex => 32,
        }
    }

    /// How many registers the third operand may be.
    pub fn third_registers(self) -> u8 {
        match self.prefix {
            Prefix::Vex2 => 8,
            Prefix::Vex3 => 16,
            Prefix::Evex => 32,
        }
    }

    /// 0, 1, 2 for 128, 256, 512 bits.
    pub fn set_width(self, code: &mut [u8], width: u8) {
        match self.prefix {
            Prefix::Vex2 => put(&mut code[1], 2, 1, width),
            Prefix::Vex3 => put(&mut code[2], 2, 1, width),
            Prefix::Evex => put(&mut code[3], 5, 2, width),
        }
    }

    /// The map, of an EVEX encoding.
    pub fn set_map(self, code: &mut [u8], map: u8) {
        put(&mut code[1], 0, 3, map);
    }

    /// The two fixed bits of an EVEX encoding: the second byte's, which is to be 0, and the third's,
    /// which is to be 1.
    pub fn set_fixed_bits(self, code: &mut [u8], second: u8, third: u8) {
        put(&mut code[1], 3, 1, second);
        put(&mut code[2], 2, 1, third);
    }

    /// Opmask and zeroing, of an EVEX encoding.
    pub fn set_mask(self, code: &mut [u8], mask: u8, zeroing: bool) {
        put(&mut code[3], 0, 3, mask);
        put(&mut code[3], 7, 1, u8::from(zeroing));
    }

    /// Of an EVEX encoding.
    pub fn set_broadcast(self, code: &mut [u8], broadcast: bool) {
        put(&mut code[3], 4, 1, u8::from(broadcast));
    }

    /// R'.R.reg; R' and R are stored inverted.
    pub fn set_destination(self, code: &mut [u8], number: u8) {
        put(&mut code[1], 7, 1, !number >> 3);
        if self.prefix == Prefix::Evex {
            put(&mut code[1], 4, 1, !number >> 4);
        }
        put(&mut code[self.opcode_at() + 1], 3, 3, number);
    }

    /// V'.vvvv, stored inverted. Only rows with a first source have it free.
    pub fn set_first(self, code: &mut [u8], number: u8) {
        let holder = match self.prefix {
            Prefix::Vex2 => 1,
            Prefix::Vex3 | Prefix::Evex => 2,
        };
        put(&mut code[holder], 3, 4, !number);
        if self.prefix == Prefix::Evex {
            put(&mut code[3], 3, 1, !number >> 4);
        }
    }

    /// X.B.rm of a register form; X and B are stored inverted.
    pub fn set_third(self, code: &mut [u8], number: u8) {
        if self.prefix != Prefix::Vex2 {
            put(&mut code[1], 5, 1, !number >> 3);
        }
        if self.prefix == Prefix::Evex {
            put(&mut code[1], 6, 1, !number >> 4);
        }
        put(&mut code[self.opcode_at() + 1], 0, 3, number);
    }

    /// Another memory operand in the place of a memory form's.
    pub fn set_operand(self, code: &mut Vec<u8>, operand: &Operand) {
        let modrm_at = self.opcode_at() + 1;
        let immediate = code.last().copied().filter(|_| self.row.immediate);
        let reg = code[modrm_at] & 0x38;
        code.truncate(modrm_at);
        code.push(operand.mode << 6 | reg | operand.rm);
        if operand.has_sib() {
            code.push(operand.sib);
        }
        code.extend_from_slice(&operand.displacement[..operand.displacement_size()]);
        code.extend(immediate);
        if self.prefix != Prefix::Vex2 {
            put(&mut code[1], 6, 1, !operand.x);
            put(&mut code[1], 5, 1, !operand.b);
        }
    }

    /// The last byte of a row with an immediate.
    pub fn set_immediate(self, code: &mut [u8], immediate: u8) {
        if let Some(last) = code.last_mut() {
            *last = immediate;
        }
    }
}
