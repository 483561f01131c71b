//! The refusals, with document 01's numbers and the reasons of request 3.

use crate::decode::Field;

/// The status of an accepted input.
pub(crate) const DONE: u32 = 0;

#[derive(Debug, Clone, Copy, PartialEq, Eq)]
pub(crate) enum Refusal {
    /// A buffer has the wrong size, a place is beyond the list, or no processor has the features.
    Size,
    /// The bytes end inside an instruction.
    Short,
    /// No row of the instruction table.
    NoRow,
    /// A reserved field has a wrong value.
    Reserved(Field),
    /// A needed feature is missing.
    Feature,
    /// The memory operand has the wrong length.
    Memory,
    /// A byte map cannot describe the step.
    Unmappable,
    /// The list is too long.
    CodeLimit,
    /// An entry of a byte map that is read is above 2,048.
    MapEntry,
}

impl Refusal {
    /// Document 01's number.
    pub(crate) fn number(self) -> u32 {
        match self {
            Refusal::Size => 1,
            Refusal::Short => 2,
            Refusal::NoRow => 3,
            Refusal::Reserved(_) => 4,
            Refusal::Feature => 5,
            Refusal::Memory => 6,
            Refusal::Unmappable => 7,
            Refusal::CodeLimit => 8,
            Refusal::MapEntry => 9,
        }
    }

    /// The wrong field's number for answer 4, and 0 for every other (request 3).
    pub(crate) fn reason(self) -> u32 {
        match self {
            Refusal::Reserved(field) => field.number(),
            _ => 0,
        }
    }
}

/// The status of an outcome that carries nothing else.
pub(crate) fn status(outcome: Result<(), Refusal>) -> u32 {
    match outcome {
        Ok(()) => DONE,
        Err(refusal) => refusal.number(),
    }
}
