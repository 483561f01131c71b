//! A case in which engine and processor differ.

use crate::damage::{field_name, reason};
use crate::engine::Addressed;
use crate::lead::{Expected, Lead};
use crate::processor::Outcome;
use crate::shape::Form;
use crate::state::{State, REGISTER_SIZE};
use reference::Field;
use std::fmt;

/// One thing that is not as it should be.
#[derive(Debug, Clone, PartialEq, Eq)]
pub enum Finding {
    /// The reference sees another instruction in the bytes than the generator: they were not run.
    Encoding,
    /// What the processor did, and should have done.
    Processor { expected: Outcome, found: Outcome },
    /// The processor carried out what has b wrong, but not as with b 0.
    NotIgnored,
    /// What the engine says of the memory operand's address.
    Address {
        expected: Expected,
        found: Addressed,
    },
    /// The engine's status.
    Status { expected: u32, found: u32 },
    /// The engine's length.
    Length { expected: u32, found: u32 },
    /// The engine's reason of status 4.
    Reason { expected: u32, found: u32 },
    /// The lowest register byte that differs, and how many do.
    Register {
        register: usize,
        byte: usize,
        engine: u8,
        expected: u8,
        differing: usize,
    },
    /// The processor did not leave an opmask as it was.
    Mask { number: usize, found: u64 },
    /// Someone wrote where nothing may be written.
    Written(&'static str),
}

const READ_DIFFERENTLY: &str = "generator and reference read the bytes differently: not run";

impl fmt::Display for Finding {
    fn fmt(&self, f: &mut fmt::Formatter<'_>) -> fmt::Result {
        match self {
            Finding::Encoding => f.write_str(READ_DIFFERENTLY),
            Finding::Processor { expected, found } => {
                write!(f, "processor: {found}; expected: {expected}")
            }
            Finding::NotIgnored => f.write_str("processor: b is neither #UD nor ignored here"),
            Finding::Address { expected, found } => {
                write!(f, "engine: {found}; expected: {expected}")
            }
            Finding::Status { expected, found } => {
                write!(f, "engine: status {found}; expected: status {expected}")
            }
            Finding::Length { expected, found } => {
                write!(
                    f,
                    "engine: length {found} bytes; expected: {expected} bytes"
                )
            }
            Finding::Reason { expected, found } => {
                write!(f, "engine: reason {found}; expected: reason {expected}")
            }
            Finding::Register {
                register,
                byte,
                engine,
                expected,
                differing,
            } => write!(
                f,
                "register {register}, byte {byte}: engine {engine:02X}, processor {expected:02X} \
                 (the lowest of {differing} differing bytes)"
            ),
            Finding::Mask { number, found } => {
                write!(f, "processor: opmask {number} became {found:016X}")
            }
            Finding::Written(place) => write!(f, "{place}"),
        }
    }
}

/// Everything that is needed to repeat a case, and what was found.
#[derive(Debug, Clone)]
pub struct Difference {
    pub engine: String,
    pub seed: u64,
    pub case: u64,
    pub form: Form,
    /// The reserved field that is wrong, if any.
    pub damage: Option<Field>,
    pub code: Vec<u8>,
    /// Bytes behind the instruction that only the engine got.
    pub trailing: Vec<u8>,
    pub features: u32,
    pub memory: Vec<u8>,
    /// Registers and opmasks before the instruction.
    pub state: State,
    /// Nothing if the instruction was not run.
    pub lead: Option<Lead>,
    pub findings: Vec<Finding>,
}

impl fmt::Display for Difference {
    fn fmt(&self, f: &mut fmt::Formatter<'_>) -> fmt::Result {
        let (engine, seed, case) = (&self.engine, self.seed, self.case);
        writeln!(f, "difference: engine {engine}, seed {seed}, case {case}")?;
        for finding in &self.findings {
            writeln!(f, "  {finding}")?;
        }
        write!(f, "instruction: {} ({}", hex(&self.code), self.form)?;
        match self.damage {
            Some(field) => {
                let (name, reason) = (field_name(field), reason(field));
                writeln!(f, ", wrong field: {name}, reason {reason})")?;
            }
            None => writeln!(f, ")")?,
        }
        writeln!(
            f,
            "bytes behind it, for the engine: {}",
            hex(&self.trailing)
        )?;
        writeln!(f, "features: {}", self.features)?;
        writeln!(
            f,
            "memory, {} bytes: {}",
            self.memory.len(),
            hex(&self.memory)
        )?;
        if let Some(lead) = &self.lead {
            write!(f, "{lead}")?;
        }
        write_state(f, &self.state)?;
        write!(f, "repeat with: tarhuspo audit --seed {seed} --case {case}")
    }
}

fn write_state(f: &mut fmt::Formatter<'_>, state: &State) -> fmt::Result {
    for (number, mask) in state.masks.iter().enumerate() {
        writeln!(f, "k{number}: {mask:016X}")?;
    }
    for (number, register) in state.file.chunks(REGISTER_SIZE).enumerate() {
        let bytes = hex(register);
        writeln!(f, "register {number} before, byte 0 first: {bytes}")?;
    }
    Ok(())
}

/// Bytes between spaces.
pub fn hex(bytes: &[u8]) -> String {
    if bytes.is_empty() {
        return "none".to_string();
    }
    let bytes: Vec<_> = bytes.iter().map(|byte| format!("{byte:02X}")).collect();
    bytes.join(" ")
}
