//! The three prefix layouts (document 01, "Prefix bytes", and request 7).

use crate::decode::Field;
use crate::refusal::Refusal;

#[derive(Debug, Clone, Copy, PartialEq, Eq)]
pub(crate) enum Encoding {
    Vex,
    Evex,
}

/// A prefix and its opcode. Inverted fields are stored the right way round.
#[derive(Debug, Clone, Copy)]
pub(crate) struct Prefix {
    pub encoding: Encoding,
    /// Bytes up to and including the opcode.
    pub length: usize,
    pub map: u8,
    pub pp: u8,
    pub w: u8,
    /// L under VEX, the width field under EVEX: 0, 1, 2 for 128, 256, 512 bits.
    pub width: u8,
    /// R'.R, in place above ModRM reg.
    pub reg_high: u8,
    /// X.B, in place above ModRM r/m of a register operand; under VEX B alone.
    pub rm_high: u8,
    /// B, in place above r/m or the SIB's base of a memory operand.
    pub base_high: u8,
    /// X, in place above the SIB's index.
    pub index_high: u8,
    /// V'.vvvv
    pub vvvv: u8,
    pub zeroing: bool,
    pub broadcast: bool,
    pub mask: u8,
    pub opcode: u8,
}

impl Prefix {
    /// Reads prefix and opcode. The EVEX fixed bits, of which P has only bit 3 since request 7, are
    /// checked here, once all five bytes are there.
    pub(crate) fn read(code: &[u8]) -> Result<Prefix, Refusal> {
        match *code {
            [] => Err(Refusal::Short),
            [0xC5, p, opcode, ..] => Ok(vex2(p, opcode)),
            [0xC4, p, q, opcode, ..] => Ok(vex3(p, q, opcode)),
            [0x62, p, q, _, _, ..] if p & 0x08 != 0 || q & 0x04 == 0 => {
                Err(Refusal::Reserved(Field::FixedBits))
            }
            [0x62, p, q, s, opcode, ..] => Ok(evex(p, q, s, opcode)),
            [0xC4 | 0xC5 | 0x62, ..] => Err(Refusal::Short),
            _ => Err(Refusal::NoRow),
        }
    }
}

fn vex2(p: u8, opcode: u8) -> Prefix {
    Prefix {
        encoding: Encoding::Vex,
        length: 3,
        map: 1,
        pp: p & 3,
        w: 0,
        width: bit(p, 2),
        reg_high: bit(!p, 7) << 3,
        rm_high: 0,
        base_high: 0,
        index_high: 0,
        vvvv: (!p >> 3) & 0x0F,
        zeroing: false,
        broadcast: false,
        mask: 0,
        opcode,
    }
}

fn vex3(p: u8, q: u8, opcode: u8) -> Prefix {
    Prefix {
        encoding: Encoding::Vex,
        length: 4,
        map: p & 0x1F,
        pp: q & 3,
        w: bit(q, 7),
        width: bit(q, 2),
        reg_high: bit(!p, 7) << 3,
        rm_high: bit(!p, 5) << 3,
        base_high: bit(!p, 5) << 3,
        index_high: bit(!p, 6) << 3,
        vvvv: (!q >> 3) & 0x0F,
        zeroing: false,
        broadcast: false,
        mask: 0,
        opcode,
    }
}

fn evex(p: u8, q: u8, s: u8, opcode: u8) -> Prefix {
    Prefix {
        encoding: Encoding::Evex,
        length: 5,
        map: p & 7,
        pp: q & 3,
        w: bit(q, 7),
        width: (s >> 5) & 3,
        reg_high: (bit(!p, 4) << 4) | (bit(!p, 7) << 3),
        rm_high: (bit(!p, 6) << 4) | (bit(!p, 5) << 3),
        base_high: bit(!p, 5) << 3,
        index_high: bit(!p, 6) << 3,
        vvvv: (bit(!s, 3) << 4) | ((!q >> 3) & 0x0F),
        zeroing: bit(s, 7) == 1,
        broadcast: bit(s, 4) == 1,
        mask: s & 7,
        opcode,
    }
}

fn bit(byte: u8, index: u32) -> u8 {
    (byte >> index) & 1
}
