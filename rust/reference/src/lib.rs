//! Independent reference for the proved library.
//!
//! Written from document 01, requests 1, 3, 4, 5, 6 and 7 and the manual alone, so that the answers
//! of the two can be compared. The modules follow the order of document 01. Every function takes
//! buffers of any length and content; a refusal is a status number, with a reason for status 4, and
//! changes no byte.

#![forbid(unsafe_code)]

pub mod address;
pub mod bytemap;
pub mod decode;
pub mod limits;
pub mod listing;
mod prefix;
mod refusal;
pub mod run;
pub mod step;
mod table;

pub use address::{address, Addressed};
pub use bytemap::{apply, build, compose, Built};
pub use decode::{decode, reserved_field, Decoded, Field};
pub use listing::{listing, Listed};
pub use run::{run, Ran};
pub use step::{step, Stepped};
