//! Audit against the processor.
//!
//! Runs vector permute instructions on this machine's own processor and compares the outcome with
//! that of a software [`Engine`]: after every instruction all 2,048 register bytes, all eight
//! opmasks, the memory operand and the guard bytes around each buffer. The engine also has to say
//! where the memory operand is: its bytes stand there, and the processor has to find them. Damaged
//! encodings must be refused by the engine with status 4 and the damaged field as the reason, and
//! raise #UD on the processor, but for b with a register as third operand, which some processors
//! ignore.
//!
//! Encodings with an EVEX map from 4 to 7 are never made nor executed: none of these instructions is
//! there, and newer processors may have others. With APX on, the fixed bits have a meaning, and wrong
//! ones are neither made nor executed. The report says both.
//!
//! The audit has its own instruction table and its own encoder. It shares no code with the engines;
//! the independent reference only decides whether bytes may be executed at all.
//!
//! For benchmarks there is [`Sequence`]: many instructions in a row, with nothing in between.

mod audit;
mod case;
mod compare;
mod cpuid;
mod damage;
pub mod detect;
mod difference;
mod encoding;
pub mod engine;
mod features;
mod guarded;
mod lead;
mod operand;
pub mod processor;
mod random;
mod report;
mod report_text;
mod setting;
mod shape;
mod state;

pub use audit::{audit, audit_watched, Failure, Limit, Options, Progress};
pub use cpuid::Words;
pub use detect::{Capabilities, RegisterSet};
pub use difference::{Difference, Finding};
pub use engine::{Addressed, Answer, Engine};
pub use features::Impossible;
pub use lead::{Expected, Lead};
pub use operand::{Base, Operand};
pub use processor::{Outcome, Prepared, Processor, Sequence};
pub use report::{Coverage, FormCount, Report, Skipped};
pub use setting::Setting;
pub use shape::Form;
pub use state::State;
