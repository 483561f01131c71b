//! Inputs for the proved library and the independent reference, and counts of them.
//!
//! The generator has its own copy of the instruction table and of the prefix layouts. It shares no
//! code with the library or the reference, so that a slip in one of the three shows.

#![forbid(unsafe_code)]

pub mod addresses;
pub mod encoding;
pub mod faults;
pub mod feature_sets;
mod fields;
pub mod form;
pub mod limits;
pub mod lists;
pub mod opcode_maps;
pub mod operand;
pub mod random;
pub mod reserved;
pub mod state;
pub mod tally;
