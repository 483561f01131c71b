//! The address of a memory operand (request 4), from general registers and the instruction's own
//! address.

use crate::decode::{displacement_size, parse, Instruction, ModRm, Third};
use crate::limits::check_registers;
use crate::prefix::{Encoding, Prefix};
use crate::refusal::{Refusal, DONE};

/// The answer with its reason, and the address if there is one.
#[derive(Debug, Clone, Copy, PartialEq, Eq, Default)]
pub struct Addressed {
    pub status: u32,
    /// As in [`Decoded`](crate::Decoded).
    pub reason: u32,
    /// Whether the instruction was accepted and has a memory operand.
    pub has_address: bool,
    /// 0 if there is none.
    pub address: u64,
}

/// Decodes the instruction at the start of `code` and works out where its memory operand is.
///
/// `registers` are the sixteen general registers in the order of their numbers: rax, rcx, rdx, rbx,
/// rsp, rbp, rsi, rdi, r8 to r15.
pub fn address(
    code: &[u8],
    features: u32,
    registers: &[u64],
    instruction_address: u64,
) -> Addressed {
    match work_out(code, features, registers, instruction_address) {
        Ok(address) => Addressed {
            status: DONE,
            reason: 0,
            has_address: address.is_some(),
            address: address.unwrap_or(0),
        },
        Err(refusal) => Addressed {
            status: refusal.number(),
            reason: refusal.reason(),
            ..Addressed::default()
        },
    }
}

/// The address, none for a register form. The refusals are 1, then 2 to 5 by decoding.
fn work_out(
    code: &[u8],
    features: u32,
    registers: &[u64],
    instruction_address: u64,
) -> Result<Option<u64>, Refusal> {
    check_registers(registers, features)?;
    let instruction = parse(code, features)?;
    let Third::Memory { broadcast } = instruction.third else {
        return Ok(None);
    };
    let prefix = Prefix::read(code)?;
    let operand = Operand::read(&code[prefix.length..]);
    let next = i128::from(instruction_address) + instruction.length as i128;
    let base = match operand.base(&prefix) {
        Base::Register(number) => i128::from(registers[number]),
        Base::NextInstruction => next,
        Base::None => 0,
    };
    let index = match operand.index(&prefix) {
        Some((number, scale)) => i128::from(registers[number]) * scale,
        None => 0,
    };
    let displacement = operand.displacement() * operand.factor(&instruction, broadcast);
    Ok(Some(wrapped(base + index + displacement)))
}

/// A sum modulo 2^64.
fn wrapped(sum: i128) -> u64 {
    sum.rem_euclid(1 << 64) as u64
}

/// What index and displacement are added to.
enum Base {
    Register(usize),
    NextInstruction,
    None,
}

/// The bytes that say where a memory operand is.
struct Operand<'a> {
    modrm: ModRm,
    sib: Option<Sib>,
    displacement: &'a [u8],
}

impl Operand<'_> {
    /// Reads ModRM and what follows it, in an instruction that was accepted: its bytes are there.
    fn read(bytes: &[u8]) -> Operand<'_> {
        let modrm = ModRm::new(bytes[0]);
        let sib = modrm.has_sib().then(|| Sib::new(bytes[1]));
        let low_base = sib.map_or(modrm.rm, |sib| sib.base);
        let rest = &bytes[if sib.is_some() { 2 } else { 1 }..];
        Operand {
            modrm,
            sib,
            displacement: &rest[..displacement_size(modrm.mode, low_base)],
        }
    }

    /// The two forms without a base register go by the three low bits alone: B does not count.
    fn base(&self, prefix: &Prefix) -> Base {
        match (self.modrm.mode, self.sib) {
            (0, None) if self.modrm.rm == 5 => Base::NextInstruction,
            (0, Some(Sib { base: 5, .. })) => Base::None,
            (_, Some(sib)) => Base::Register(usize::from(prefix.base_high | sib.base)),
            (_, None) => Base::Register(usize::from(prefix.base_high | self.modrm.rm)),
        }
    }

    /// The index register and its scale. Register 4 cannot be one, register 12 can.
    fn index(&self, prefix: &Prefix) -> Option<(usize, i128)> {
        let sib = self.sib?;
        let number = usize::from(prefix.index_high | sib.index);
        (number != 4).then_some((number, 1 << sib.scale))
    }

    /// The displacement as it is written, a signed number of 8 or 32 bits.
    fn displacement(&self) -> i128 {
        match *self.displacement {
            [byte] => i128::from(i8::from_le_bytes([byte])),
            [a, b, c, d] => i128::from(i32::from_le_bytes([a, b, c, d])),
            _ => 0,
        }
    }

    /// What the displacement is multiplied by: under EVEX, one of a single byte counts vectors, or
    /// elements with b 1.
    fn factor(&self, instruction: &Instruction, broadcast: bool) -> i128 {
        match (instruction.encoding, self.displacement.len()) {
            (Encoding::Evex, 1) if broadcast => instruction.row.element as i128,
            (Encoding::Evex, 1) => instruction.width as i128,
            _ => 1,
        }
    }
}

/// SIB taken apart.
#[derive(Debug, Clone, Copy)]
struct Sib {
    /// The power of 2 that the index is multiplied by.
    scale: u8,
    index: u8,
    base: u8,
}

impl Sib {
    fn new(byte: u8) -> Sib {
        Sib {
            scale: byte >> 6,
            index: (byte >> 3) & 7,
            base: byte & 7,
        }
    }
}
