//! The audit's own instruction table, and the shapes of encodings that it has.

use crate::features::closed;
use reference::limits::feature;
use std::fmt;

/// The prefix of an encoding, by its first byte.
#[derive(Debug, Clone, Copy, PartialEq, Eq)]
pub enum Prefix {
    /// C5 and one more byte.
    Vex2,
    /// C4 and two more bytes.
    Vex3,
    /// 62 and three more bytes.
    Evex,
}

/// What the third operand is.
#[derive(Debug, Clone, Copy, PartialEq, Eq)]
pub enum Operand {
    Register,
    /// A whole vector in memory.
    Memory,
    /// One element in memory, repeated.
    Broadcast,
}

/// A line of the instruction table.
#[derive(Debug)]
pub struct Row {
    pub name: &'static str,
    /// The number that a decoding gives for the name.
    pub mnemonic: u32,
    pub pp: u8,
    pub map: u8,
    pub opcode: u8,
    pub immediate: bool,
    /// Whether vvvv names a first source.
    pub first: bool,
    /// The values of L under VEX; none if there is no VEX form.
    pub vex_l: &'static [u8],
    /// Whether W may be 1 under VEX.
    pub vex_any_w: bool,
    /// What 256-bit VEX needs.
    pub vex_256: u32,
    /// The values of W under EVEX; none if there is no EVEX form.
    pub evex_w: &'static [u8],
    /// What 512-bit EVEX needs.
    pub evex_512: u32,
    /// Bytes of a broadcast element; none if there is no broadcast.
    pub broadcast: Option<usize>,
}

/// What most rows with a first source have.
const TWO_SOURCES: Row = Row {
    name: "",
    mnemonic: 0,
    pp: 1,
    map: 0,
    opcode: 0,
    immediate: false,
    first: true,
    vex_l: &[0, 1],
    vex_any_w: false,
    vex_256: feature::AVX,
    evex_w: &[],
    evex_512: feature::AVX512F,
    broadcast: None,
};

/// What the rows without a first source have.
const ONE_SOURCE: Row = Row {
    immediate: true,
    first: false,
    ..TWO_SOURCES
};

/// What the rows have that take halves of lanes in turn.
const UNPACK: Row = Row {
    map: 1,
    vex_any_w: true,
    ..TWO_SOURCES
};

#[rustfmt::skip] // one paragraph for each line of the table
pub static ROWS: [Row; 12] = [
    Row { name: "VPERMILPD", mnemonic: 1, map: 3, opcode: 0x05,
          evex_w: &[1], broadcast: Some(8), ..ONE_SOURCE },
    Row { name: "VPERMILPD", mnemonic: 1, map: 2, opcode: 0x0D,
          evex_w: &[1], broadcast: Some(8), ..TWO_SOURCES },
    Row { name: "VPERMB", mnemonic: 2, map: 2, opcode: 0x8D,
          vex_l: &[], evex_w: &[0], evex_512: feature::AVX512_VBMI, ..TWO_SOURCES },
    Row { name: "VUNPCKLPS", mnemonic: 3, pp: 0, opcode: 0x14,
          evex_w: &[0], broadcast: Some(4), ..UNPACK },
    Row { name: "VPSHUFD", mnemonic: 4, map: 1, opcode: 0x70,
          vex_any_w: true, vex_256: feature::AVX2, evex_w: &[0], broadcast: Some(4),
          ..ONE_SOURCE },
    Row { name: "VPERM2F128", mnemonic: 5, map: 3, opcode: 0x06,
          vex_l: &[1], immediate: true, ..TWO_SOURCES },
    Row { name: "VPERMILPS", mnemonic: 6, map: 3, opcode: 0x04,
          evex_w: &[0], broadcast: Some(4), ..ONE_SOURCE },
    Row { name: "VPERMILPS", mnemonic: 6, map: 2, opcode: 0x0C,
          evex_w: &[0], broadcast: Some(4), ..TWO_SOURCES },
    Row { name: "VUNPCKHPS", mnemonic: 7, pp: 0, opcode: 0x15,
          evex_w: &[0], broadcast: Some(4), ..UNPACK },
    Row { name: "VUNPCKLPD", mnemonic: 8, opcode: 0x14,
          evex_w: &[1], broadcast: Some(8), ..UNPACK },
    Row { name: "VUNPCKHPD", mnemonic: 9, opcode: 0x15,
          evex_w: &[1], broadcast: Some(8), ..UNPACK },
    Row { name: "VPSHUFB", mnemonic: 10, map: 2, opcode: 0x00,
          vex_any_w: true, vex_256: feature::AVX2, evex_w: &[0, 1],
          evex_512: feature::AVX512BW, ..TWO_SOURCES },
];

impl Row {
    fn has(&self, prefix: Prefix, width: u8) -> bool {
        match prefix {
            // The two-byte VEX prefix stands for map 1.
            Prefix::Vex2 => self.map == 1 && self.vex_l.contains(&width),
            Prefix::Vex3 => self.vex_l.contains(&width),
            Prefix::Evex => !self.evex_w.is_empty(),
        }
    }
}

/// A row under one of its prefixes, with a width and a kind of third operand.
#[derive(Debug, Clone, Copy)]
pub struct Shape {
    pub row: &'static Row,
    pub prefix: Prefix,
    /// 0, 1, 2 for 128, 256, 512 bits.
    pub width: u8,
    pub operand: Operand,
}

impl Shape {
    /// Every shape that the table has.
    pub fn all() -> Vec<Shape> {
        let mut shapes = Vec::new();
        for row in &ROWS {
            for prefix in [Prefix::Vex2, Prefix::Vex3, Prefix::Evex] {
                let widths = [0, 1, 2].into_iter().filter(|w| row.has(prefix, *w));
                shapes.extend(widths.flat_map(|width| with_operands(row, prefix, width)));
            }
        }
        shapes
    }

    pub fn is_evex(self) -> bool {
        self.prefix == Prefix::Evex
    }

    pub fn form(self) -> Form {
        Form {
            name: self.row.name,
            is_evex: self.is_evex(),
            bits: 128 << self.width,
        }
    }

    /// Bytes of the memory operand.
    pub fn memory(self) -> usize {
        match self.operand {
            Operand::Register => 0,
            Operand::Memory => 16 << self.width,
            Operand::Broadcast => self.row.broadcast.unwrap_or(0),
        }
    }

    /// The features of every processor that has the instruction: those that it needs, and what
    /// they need.
    pub fn needed_features(self) -> u32 {
        closed(match (self.prefix, self.width) {
            (Prefix::Evex, 2) => self.row.evex_512,
            (Prefix::Evex, _) => self.row.evex_512 | feature::AVX512VL,
            (_, 1) => self.row.vex_256,
            _ => feature::AVX,
        })
    }
}

fn with_operands(row: &'static Row, prefix: Prefix, width: u8) -> impl Iterator<Item = Shape> {
    let has_broadcast = prefix == Prefix::Evex && row.broadcast.is_some();
    let operands = [Operand::Register, Operand::Memory, Operand::Broadcast];
    let operands = operands
        .into_iter()
        .filter(move |operand| has_broadcast || *operand != Operand::Broadcast);
    operands.map(move |operand| Shape {
        row,
        prefix,
        width,
        operand,
    })
}

/// A name, VEX or EVEX, and a width: what the report counts by.
#[derive(Debug, Clone, Copy, PartialEq, Eq, PartialOrd, Ord)]
pub struct Form {
    pub name: &'static str,
    pub is_evex: bool,
    pub bits: u32,
}

impl fmt::Display for Form {
    fn fmt(&self, f: &mut fmt::Formatter<'_>) -> fmt::Result {
        let encoding = if self.is_evex { "EVEX" } else { "VEX" };
        write!(f, "{} {encoding} {} bits", self.name, self.bits)
    }
}
