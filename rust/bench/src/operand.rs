//! What the third operand of a form is.

use compare::form::Form;

/// The numbers are those of the enumeration in `specialised.c`.
#[derive(Debug, Clone, Copy, PartialEq, Eq)]
pub enum Operand {
    Register = 0,
    /// A whole vector in memory.
    Memory = 1,
    /// One element in memory, repeated.
    Broadcast = 2,
}

impl Operand {
    pub const ALL: [Operand; 3] = [Operand::Register, Operand::Memory, Operand::Broadcast];

    pub fn of(form: Form) -> Operand {
        match (form.shape.memory, form.broadcast) {
            (false, _) => Operand::Register,
            (true, false) => Operand::Memory,
            (true, true) => Operand::Broadcast,
        }
    }

    pub fn name(self) -> &'static str {
        match self {
            Operand::Register => "register",
            Operand::Memory => "memory",
            Operand::Broadcast => "broadcast",
        }
    }
}
