//! The proved library and the independent reference compared, on inputs of the crate `inputs`.

pub mod addressing;
pub mod building;
pub mod controls;
pub mod coverage;
pub mod decoding;
pub mod display;
pub mod guard;
pub mod instructions;
pub mod listings;
pub mod mapping;
pub mod refusing;
pub mod running;
pub mod stepping;

pub use inputs::{addresses, encoding, faults, feature_sets, form, limits, lists};
pub use inputs::{opcode_maps, operand, random, reserved, state, tally};
