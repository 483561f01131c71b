//! Inputs of the base, with everything that their records name.

use crate::room::Room;

/// An input of any entry point.
pub enum Input {
    Decode(Decode),
    Step(Step),
    Run(Run),
    Build(Build),
    Apply(Apply),
    Compose(Compose),
    Listing(Listing),
}

impl Input {
    /// The features that it has, if its entry point takes any.
    pub fn features(&self) -> Option<u32> {
        match self {
            Input::Decode(input) => Some(input.features),
            Input::Step(input) => Some(input.features),
            Input::Run(input) => Some(input.features),
            Input::Build(input) => Some(input.features),
            Input::Apply(_) | Input::Compose(_) | Input::Listing(_) => None,
        }
    }

    /// The list that it has, if its entry point takes one.
    pub fn list(&self) -> Option<&[u8]> {
        match self {
            Input::Run(input) => Some(&input.code),
            Input::Build(input) => Some(&input.code),
            Input::Listing(input) => Some(&input.code),
            Input::Decode(_) | Input::Step(_) | Input::Apply(_) | Input::Compose(_) => None,
        }
    }
}

/// Decoding writes to no buffer.
pub struct Decode {
    pub features: u32,
    pub code: Vec<u8>,
}

/// A step writes to `file`.
pub struct Step {
    pub features: u32,
    pub file: Room<u8>,
    pub masks: Vec<u64>,
    pub memory: Vec<u8>,
    pub code: Vec<u8>,
}

/// A run writes to `file`.
pub struct Run {
    pub features: u32,
    pub budget: u64,
    pub file: Room<u8>,
    pub masks: Vec<u64>,
    pub code: Vec<u8>,
}

/// Building writes to `map`.
pub struct Build {
    pub features: u32,
    pub map: Room<u16>,
    pub masks: Vec<u64>,
    pub code: Vec<u8>,
}

/// Applying a map reads `map` and writes to `file`.
pub struct Apply {
    pub map: Vec<u16>,
    pub file: Room<u8>,
}

/// Composing reads the two maps and writes to `out`.
pub struct Compose {
    pub first: Vec<u16>,
    pub second: Vec<u16>,
    pub out: Room<u16>,
}

/// Listing writes to `text`.
pub struct Listing {
    pub text: Room<u8>,
    pub code: Vec<u8>,
}
