//! Safe Rust interface to Tarhuspo, a proved decoder and emulator of AVX permute instructions.
//!
//! All of the work is done by a static library written and proved in Rattle. This crate declares
//! its C functions and turns slices into pointers and lengths. The proved functions accept every
//! input, so nothing is checked here.
//!
//! ```
//! use tarhuspo::{decode, features};
//!
//! let decoded = decode(&[0xC5, 0xF9, 0x70, 0xCA, 0x1B], features::ALL);
//! assert_eq!(decoded.status, 0);
//! assert_eq!(decoded.length, 5);
//! ```

mod address;
mod bytemap;
mod decode;
pub mod features;
mod ffi;
pub mod limits;
mod listing;
mod mnemonic;
pub mod reason;
mod run;
mod status;
mod step;
pub mod version;

pub use address::{address, Addressed};
pub use bytemap::{bytemap_apply, bytemap_build, bytemap_compose, Built};
pub use decode::{decode, Decoded};
pub use listing::{listing, Listed};
pub use mnemonic::mnemonic_name;
pub use reason::describe_reason;
pub use run::{run, Ran};
pub use status::describe;
pub use step::{step, Stepped};
