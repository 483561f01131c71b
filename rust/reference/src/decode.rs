//! Decoding one instruction: document 01's prefix layouts with the map of request 7, its instruction
//! table with the rows of request 1, and the order of its refusals with the reasons of request 3.

use crate::limits::{check_features, feature};
use crate::prefix::{Encoding, Prefix};
use crate::refusal::{Refusal, DONE};
use crate::table::{find, Mnemonic, Row};

/// A decoding. All fields but status and reason are 0 when the status is not 0.
#[derive(Debug, Clone, Copy, PartialEq, Eq, Default)]
pub struct Decoded {
    pub status: u32,
    pub length: u32,
    pub memory: u32,
    pub mnemonic: u32,
    pub bits: u32,
    pub evex: u32,
    pub destination: u32,
    pub first: u32,
    pub third: u32,
    pub mask: u32,
    pub zeroing: u32,
    pub broadcast: u32,
    pub has_immediate: u32,
    pub immediate: u32,
    /// With status 4 the number of the first wrong field, 1 to 6 (request 3). Else 0.
    pub reason: u32,
}

/// The reserved fields of answer 4, in the order they are looked at.
#[derive(Debug, Clone, Copy, PartialEq, Eq, PartialOrd, Ord)]
pub enum Field {
    /// Under EVEX: bit 3 of P, and bit 2 of Q. Bit 2 of P is part of the map (request 7).
    FixedBits,
    W,
    /// EVEX width 3, or VPERM2F128 with L 0.
    Width,
    /// vvvv or V' of a form with no first source.
    Vvvv,
    Broadcast,
    Zeroing,
}

impl Field {
    /// The number that stands for it as a reason, and behind the colon in a listing (request 3).
    pub fn number(self) -> u32 {
        match self {
            Field::FixedBits => 1,
            Field::W => 2,
            Field::Width => 3,
            Field::Vvvv => 4,
            Field::Broadcast => 5,
            Field::Zeroing => 6,
        }
    }
}

/// Where the third operand is.
#[derive(Debug, Clone, Copy, PartialEq, Eq)]
pub(crate) enum Third {
    Register(usize),
    Memory { broadcast: bool },
}

/// An accepted instruction.
#[derive(Debug, Clone, Copy)]
pub(crate) struct Instruction {
    pub row: &'static Row,
    pub encoding: Encoding,
    pub length: usize,
    /// Vector width in bytes.
    pub width: usize,
    pub destination: usize,
    pub first: usize,
    pub third: Third,
    pub mask: usize,
    pub zeroing: bool,
    pub immediate: u8,
}

impl Instruction {
    /// Wanted memory bytes (document 01, "What a step moves").
    pub(crate) fn memory(&self) -> usize {
        match self.third {
            Third::Register(_) => 0,
            Third::Memory { broadcast: true } => self.row.element,
            Third::Memory { broadcast: false } => self.width,
        }
    }

    /// Vector width in bits.
    pub(crate) fn bits(&self) -> usize {
        8 * self.width
    }
}

/// Decodes the instruction at the start of `code`; later bytes do not count.
pub fn decode(code: &[u8], features: u32) -> Decoded {
    match check_and_parse(code, features) {
        Ok(instruction) => decoded(&instruction),
        Err(refusal) => Decoded {
            status: refusal.number(),
            reason: refusal.reason(),
            ..Decoded::default()
        },
    }
}

/// The first wrong field of an instruction that answers 4.
pub fn reserved_field(code: &[u8], features: u32) -> Option<Field> {
    match check_and_parse(code, features) {
        Err(Refusal::Reserved(field)) => Some(field),
        _ => None,
    }
}

fn decoded(instruction: &Instruction) -> Decoded {
    let (third, broadcast) = match instruction.third {
        Third::Register(register) => (register, false),
        Third::Memory { broadcast } => (0, broadcast),
    };
    Decoded {
        status: DONE,
        length: instruction.length as u32,
        memory: instruction.memory() as u32,
        mnemonic: instruction.row.mnemonic.number(),
        bits: instruction.bits() as u32,
        evex: u32::from(instruction.encoding == Encoding::Evex),
        destination: instruction.destination as u32,
        first: instruction.first as u32,
        third: third as u32,
        mask: instruction.mask as u32,
        zeroing: u32::from(instruction.zeroing),
        broadcast: u32::from(broadcast),
        has_immediate: u32::from(instruction.row.has_immediate),
        immediate: u32::from(instruction.immediate),
        reason: 0,
    }
}

/// Decodes in the order of document 01's "Order for a step", 1 to 5.
fn check_and_parse(code: &[u8], features: u32) -> Result<Instruction, Refusal> {
    check_features(features)?;
    parse(code, features)
}

/// The same without 1, for callers that have looked at the features.
pub(crate) fn parse(code: &[u8], features: u32) -> Result<Instruction, Refusal> {
    let prefix = Prefix::read(code)?;
    let row = find(&prefix).ok_or(Refusal::NoRow)?;
    let tail = Tail::read(&code[prefix.length..], row.has_immediate)?;
    if let Some(field) = wrong_field(&prefix, row, tail.modrm) {
        return Err(Refusal::Reserved(field));
    }
    let needed = needed_features(&prefix, row);
    if features & needed != needed {
        return Err(Refusal::Feature);
    }
    Ok(instruction(&prefix, row, &tail))
}

fn instruction(prefix: &Prefix, row: &'static Row, tail: &Tail) -> Instruction {
    let third = if tail.modrm.is_register() {
        Third::Register(usize::from(prefix.rm_high | tail.modrm.rm))
    } else {
        Third::Memory {
            broadcast: prefix.broadcast,
        }
    };
    Instruction {
        row,
        encoding: prefix.encoding,
        length: prefix.length + tail.length,
        width: 16 << prefix.width,
        destination: usize::from(prefix.reg_high | tail.modrm.reg),
        first: usize::from(prefix.vvvv),
        third,
        mask: usize::from(prefix.mask),
        zeroing: prefix.zeroing,
        immediate: tail.immediate,
    }
}

/// The first of the fields that is wrong, of those that are looked at once the row is known.
fn wrong_field(prefix: &Prefix, row: &Row, modrm: ModRm) -> Option<Field> {
    let vex = row.vex.filter(|_| prefix.encoding == Encoding::Vex);
    let w = vex.is_some_and(|vex| prefix.w == 1 && !vex.allows_w1);
    let l = vex.is_some_and(|vex| prefix.width == 0 && !vex.allows_128);
    let checks = [
        (Field::W, w),
        (Field::Width, l || prefix.width == 3),
        (Field::Vvvv, prefix.vvvv != 0 && !row.has_first_source),
        (
            Field::Broadcast,
            prefix.broadcast && (modrm.is_register() || !row.allows_broadcast),
        ),
        (Field::Zeroing, prefix.zeroing && prefix.mask == 0),
    ];
    let first = checks.into_iter().find(|(_, wrong)| *wrong);
    first.map(|(field, _)| field)
}

/// Needed features (document 01, "The instruction table", and request 1).
fn needed_features(prefix: &Prefix, row: &Row) -> u32 {
    let below_512 = if prefix.width < 2 {
        feature::AVX512VL
    } else {
        0
    };
    match (prefix.encoding, row.mnemonic) {
        (Encoding::Vex, Mnemonic::Vpshufd | Mnemonic::Vpshufb) if prefix.width == 1 => {
            feature::AVX2
        }
        (Encoding::Vex, _) => feature::AVX,
        (Encoding::Evex, Mnemonic::Vpermb) => feature::AVX512_VBMI | below_512,
        (Encoding::Evex, Mnemonic::Vpshufb) => feature::AVX512BW | below_512,
        (Encoding::Evex, _) => feature::AVX512F | below_512,
    }
}

/// ModRM taken apart.
#[derive(Debug, Clone, Copy)]
pub(crate) struct ModRm {
    pub mode: u8,
    pub reg: u8,
    pub rm: u8,
}

impl ModRm {
    pub(crate) fn new(byte: u8) -> ModRm {
        ModRm {
            mode: byte >> 6,
            reg: (byte >> 3) & 7,
            rm: byte & 7,
        }
    }

    fn is_register(self) -> bool {
        self.mode == 3
    }

    pub(crate) fn has_sib(self) -> bool {
        !self.is_register() && self.rm == 4
    }
}

/// What follows the opcode: ModRM, SIB, displacement, immediate.
#[derive(Debug, Clone, Copy)]
struct Tail {
    modrm: ModRm,
    length: usize,
    immediate: u8,
}

impl Tail {
    fn read(bytes: &[u8], has_immediate: bool) -> Result<Tail, Refusal> {
        let modrm = ModRm::new(byte_at(bytes, 0)?);
        let mut length = 1;
        let mut base = modrm.rm;
        if modrm.has_sib() {
            base = byte_at(bytes, 1)? & 7;
            length += 1;
        }
        length += displacement_size(modrm.mode, base);
        let mut immediate = 0;
        if has_immediate {
            immediate = byte_at(bytes, length)?;
            length += 1;
        }
        if bytes.len() < length {
            return Err(Refusal::Short);
        }
        Ok(Tail {
            modrm,
            length,
            immediate,
        })
    }
}

fn byte_at(bytes: &[u8], index: usize) -> Result<u8, Refusal> {
    bytes.get(index).copied().ok_or(Refusal::Short)
}

/// Bytes of displacement. `base` is the SIB's low three bits if there is a SIB, else r/m.
pub(crate) fn displacement_size(mode: u8, base: u8) -> usize {
    match (mode, base) {
        (0, 5) => 4,
        (1, _) => 1,
        (2, _) => 4,
        _ => 0,
    }
}
