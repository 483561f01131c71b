//! How instructions are led to their memory operands, and what engines say of that.

use crate::difference::hex;
use crate::engine::Addressed;
use crate::operand::Operand;
use std::fmt;

/// What an engine has to say of an address.
#[derive(Debug, Clone, Copy, PartialEq, Eq)]
pub enum Expected {
    /// Status 4 with this reason.
    Refusal { reason: u32 },
    /// A register form has none.
    None,
    /// A place for the whole operand within its page.
    InPage,
}

impl fmt::Display for Expected {
    fn fmt(&self, f: &mut fmt::Formatter<'_>) -> fmt::Result {
        match self {
            Expected::Refusal { reason } => write!(f, "status 4, reason {reason}, no address"),
            Expected::None => write!(f, "no address, for a register form"),
            Expected::InPage => write!(f, "an address in the operand's page"),
        }
    }
}

/// Names of the general registers, by their numbers in an encoding.
const GENERAL: [&str; 16] = [
    "rax", "rcx", "rdx", "rbx", "rsp", "rbp", "rsi", "rdi", "r8", "r9", "r10", "r11", "r12", "r13",
    "r14", "r15",
];

/// How an instruction was led to its memory operand.
#[derive(Debug, Clone)]
pub struct Lead {
    /// The instruction as it was run. Without a base register it has another displacement.
    pub code: Vec<u8>,
    /// Where it stood.
    pub entry: u64,
    /// General registers, by their numbers in an encoding.
    pub general: [u64; 16],
    /// How the instruction names its memory operand, if it has one.
    pub operand: Option<Operand>,
    /// Where the registers lead by the audit's own reckoning.
    pub target: u64,
    /// Where they lead by the engine's.
    pub engine: Addressed,
}

impl fmt::Display for Lead {
    fn fmt(&self, f: &mut fmt::Formatter<'_>) -> fmt::Result {
        writeln!(f, "run as: {} at {:016X}", hex(&self.code), self.entry)?;
        let (engine, target) = (self.engine, self.target);
        match self.operand {
            Some(_) => writeln!(f, "engine: {engine}; registers set for {target:016X}")?,
            None => writeln!(f, "engine: {engine}")?,
        }
        for (name, value) in GENERAL.iter().zip(self.general) {
            writeln!(f, "{name}: {value:016X}")?;
        }
        Ok(())
    }
}
