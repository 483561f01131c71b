//! The registers that an instruction can read or write.

/// Bytes of one vector register.
pub const REGISTER_SIZE: usize = 64;
/// Vector registers.
pub const REGISTERS: usize = 32;
/// Bytes of the register file.
pub const FILE_SIZE: usize = REGISTER_SIZE * REGISTERS;
/// Opmask registers.
pub const MASKS: usize = 8;

/// Vector registers and opmasks. The layout is fixed because assembly reads and writes it.
#[repr(C, align(64))]
#[derive(Debug, Clone, PartialEq, Eq)]
pub struct State {
    /// Byte i of register r is at 64 r + i.
    pub file: [u8; FILE_SIZE],
    pub masks: [u64; MASKS],
}

impl State {
    /// Every byte and every mask 0.
    pub const ZERO: State = State {
        file: [0; FILE_SIZE],
        masks: [0; MASKS],
    };
}
