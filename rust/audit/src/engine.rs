//! What is compared with the processor.

use std::fmt;

/// What an engine says of an instruction.
#[derive(Debug, Clone, Copy, PartialEq, Eq)]
pub struct Answer {
    /// 0, or the number of a refusal.
    pub status: u32,
    /// The instruction's length in bytes, 0 with a refusal.
    pub length: u32,
    /// The number of the wrong field with status 4, else 0.
    pub reason: u32,
}

/// What an engine says of the address of a memory operand.
#[derive(Debug, Clone, Copy, PartialEq, Eq)]
pub struct Addressed {
    /// 0, or the number of a refusal.
    pub status: u32,
    /// The number of the wrong field with status 4, else 0.
    pub reason: u32,
    /// Whether there is a memory operand.
    pub has_address: bool,
    /// 0 where there is none.
    pub address: u64,
}

impl fmt::Display for Addressed {
    fn fmt(&self, f: &mut fmt::Formatter<'_>) -> fmt::Result {
        let Addressed {
            status,
            reason,
            has_address,
            address,
        } = *self;
        if status != 0 || reason != 0 {
            write!(f, "status {status}, reason {reason}, ")?;
        }
        match (has_address, address) {
            (true, _) => write!(f, "address {address:016X}"),
            (false, 0) => write!(f, "no address"),
            (false, _) => write!(f, "no address, but the number {address:016X}"),
        }
    }
}

/// A software engine that carries out one instruction.
pub trait Engine {
    fn name(&self) -> &str;

    /// Works out the address of the memory operand of the instruction at the start of `code`, from
    /// the sixteen general registers and the instruction's own address.
    fn address(
        &mut self,
        code: &[u8],
        features: u32,
        general: &[u64],
        instruction_address: u64,
    ) -> Addressed;

    /// Carries out the instruction at the start of `code` on the register file.
    fn step(
        &mut self,
        code: &[u8],
        file: &mut [u8],
        masks: &[u64],
        features: u32,
        memory: &[u8],
    ) -> Answer;
}

/// Code, features, general registers and the instruction's address in; the answer out.
pub type Address = fn(&[u8], u32, &[u64], u64) -> Addressed;
/// Code, register file, opmasks, features and memory operand in; the answer out.
pub type Step = fn(&[u8], &mut [u8], &[u64], u32, &[u8]) -> Answer;

/// An engine that is two functions.
pub struct Function {
    pub name: &'static str,
    pub address: Address,
    pub step: Step,
}

impl Engine for Function {
    fn name(&self) -> &str {
        self.name
    }

    fn address(
        &mut self,
        code: &[u8],
        features: u32,
        general: &[u64],
        instruction_address: u64,
    ) -> Addressed {
        (self.address)(code, features, general, instruction_address)
    }

    fn step(
        &mut self,
        code: &[u8],
        file: &mut [u8],
        masks: &[u64],
        features: u32,
        memory: &[u8],
    ) -> Answer {
        (self.step)(code, file, masks, features, memory)
    }
}

/// Every engine that the tests compare with the processor.
pub fn all() -> Vec<Function> {
    vec![reference(), library()]
}

/// The independent reference.
pub fn reference() -> Function {
    Function {
        name: "reference",
        address: |code, features, general, instruction_address| {
            let addressed = reference::address(code, features, general, instruction_address);
            Addressed {
                status: addressed.status,
                reason: addressed.reason,
                has_address: addressed.has_address,
                address: addressed.address,
            }
        },
        step: |code, file, masks, features, memory| {
            let stepped = reference::step(code, file, masks, features, memory);
            Answer {
                status: stepped.status,
                length: stepped.length,
                reason: stepped.reason,
            }
        },
    }
}

/// The proved library.
pub fn library() -> Function {
    Function {
        name: "tarhuspo",
        address: |code, features, general, instruction_address| {
            let addressed = tarhuspo::address(code, features, general, instruction_address);
            Addressed {
                status: addressed.status,
                reason: addressed.reason,
                has_address: addressed.has_address,
                address: addressed.address,
            }
        },
        step: |code, file, masks, features, memory| {
            let stepped = tarhuspo::step(code, file, masks, features, memory);
            Answer {
                status: stepped.status,
                length: stepped.length,
                reason: stepped.reason,
            }
        },
    }
}
