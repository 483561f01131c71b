//! How a command ends.

use std::path::PathBuf;
use tarhuspo::{describe, describe_reason};

/// What is printed and written, once all of the work is done.
#[derive(Default)]
pub struct Answer {
    /// For standard output: text, or the bytes of a map or of registers.
    pub text: Vec<u8>,
    /// A file and its new content.
    pub file: Option<(PathBuf, Vec<u8>)>,
    /// The library refused, or two things differ: exit status 1.
    pub is_refused: bool,
}

impl Answer {
    pub fn text(text: impl Into<String>) -> Answer {
        Answer {
            text: text.into().into_bytes(),
            ..Answer::default()
        }
    }

    pub fn refused_if(self, is_refused: bool) -> Answer {
        Answer { is_refused, ..self }
    }
}

/// Why there is no answer, in one line for standard error.
pub enum Failure {
    /// Says what was expected: exit status 2.
    Usage(String),
    /// A refusal by a command that prints nothing else: exit status 1.
    Refused(String),
    /// A slip of the command itself: exit status 3.
    Internal(String),
}

impl From<String> for Failure {
    fn from(expected: String) -> Failure {
        Failure::Usage(expected)
    }
}

impl From<&str> for Failure {
    fn from(expected: &str) -> Failure {
        Failure::Usage(expected.to_string())
    }
}

/// A status number and its sentence. That of a reason says more than that of status 4.
pub fn in_words(status: u32, reason: u32) -> String {
    match status {
        4 => format!("4 (#UD), reason {reason}: {}", describe_reason(reason)),
        _ => format!("{status}: {}", describe(status)),
    }
}

/// The refusal of a whole input, for which there is no reason.
pub fn refusal(status: u32) -> String {
    format!("refused, status {}", in_words(status, 0))
}

/// The refusal of one instruction.
pub fn refusal_of(status: u32, reason: u32) -> String {
    format!("refused, status {}", in_words(status, reason))
}

/// The same for an instruction of a list.
pub fn refusal_at(place: u64, status: u32, reason: u32) -> String {
    let words = in_words(status, reason);
    format!("refused at place {place}, status {words}")
}
