//! The base's inputs and answers, kept as they were before the first change request, and today's
//! library held to them.
//!
//! Nobody writes the files in `base/` again, and their layout stays too. An answer that differs
//! from the base's must be explained by a rule of a request ([`rules`]). What follows the library
//! as it changes is [`today`] alone.

#![forbid(unsafe_code)]

pub mod answer;
pub mod base;
pub mod comparison;
pub mod decoded;
pub mod digest;
pub mod entry_point;
pub mod frozen;
pub mod input;
pub mod landed;
pub mod lane_permutes;
pub mod needs;
pub mod pools;
pub mod reader;
pub mod records;
pub mod report;
pub mod request_3;
pub mod request_6;
pub mod request_7;
pub mod results;
pub mod room;
pub mod rules;
pub mod show;
pub mod today;
