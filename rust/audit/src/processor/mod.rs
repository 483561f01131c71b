//! Instructions on this machine's processor.

use std::fmt;

#[cfg(all(
    target_arch = "x86_64",
    target_os = "linux",
    target_pointer_width = "64"
))]
mod native;

#[cfg(not(all(
    target_arch = "x86_64",
    target_os = "linux",
    target_pointer_width = "64"
)))]
#[path = "elsewhere.rs"]
mod native;

pub use native::{Prepared, Processor, Sequence};

/// How an instruction ended on the processor.
#[derive(Debug, Clone, Copy, PartialEq, Eq)]
pub enum Outcome {
    /// It was carried out, and this is how many bytes the processor took for it.
    Done { length: usize },
    /// #UD
    Undefined,
    /// It reached for memory outside its operand.
    Fault,
    /// It was not executed, and this is why.
    NotRun(&'static str),
}

impl fmt::Display for Outcome {
    fn fmt(&self, f: &mut fmt::Formatter<'_>) -> fmt::Result {
        match self {
            Outcome::Done { length } => write!(f, "done, {length} bytes long"),
            Outcome::Undefined => write!(f, "#UD"),
            Outcome::Fault => write!(f, "a fault"),
            Outcome::NotRun(reason) => write!(f, "not run: {reason}"),
        }
    }
}
