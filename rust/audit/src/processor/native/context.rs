//! What assembly, signal handler and caller share during a run.

use crate::state::State;
use std::ffi::c_int;

const FILL: [u8; 64] = [0xA5; 64];

/// Place of the stack pointer among the general registers.
pub const RSP: usize = 4;

/// Assembly uses the offsets of these fields.
#[repr(C, align(64))]
pub struct Context {
    guard_low: [u8; 64],
    /// Loaded before the instruction.
    pub before: State,
    guard_middle: [u8; 64],
    /// Stored behind it.
    pub after: State,
    guard_high: [u8; 64],
    /// General registers for the instruction, by their numbers in an encoding.
    pub general: [u64; 16],
    /// Where the instruction starts.
    pub entry: u64,
    /// Where the signal handler continues.
    pub resume: u64,
    /// The caller's stack pointer.
    pub stack_pointer: u64,
    pub stop: Stop,
}

/// How an instruction ended: the signal, and the instruction pointer at that time.
#[derive(Debug, Clone, Copy, PartialEq, Eq)]
pub struct Stop {
    pub signal: c_int,
    pub place: u64,
}

impl Stop {
    pub const NONE: Stop = Stop {
        signal: 0,
        place: 0,
    };
}

impl Context {
    pub fn new() -> Context {
        Context {
            guard_low: FILL,
            before: State::ZERO,
            guard_middle: FILL,
            after: State::ZERO,
            guard_high: FILL,
            general: [0; 16],
            entry: 0,
            resume: 0,
            stack_pointer: 0,
            stop: Stop::NONE,
        }
    }

    /// Sets the registers to load. Those to be stored start with each bit inverted, so that a byte
    /// that is not stored cannot pass for unchanged.
    pub fn load(&mut self, state: &State) {
        self.before = state.clone();
        self.after = State {
            file: state.file.map(|byte| !byte),
            masks: state.masks.map(|mask| !mask),
        };
    }

    /// Whether nothing was written beside the two states.
    pub fn is_intact(&self) -> bool {
        [self.guard_low, self.guard_middle, self.guard_high] == [FILL; 3]
    }
}

#[cfg(test)]
mod tests {
    use super::{Context, State};

    #[test]
    fn every_guard_byte_counts() {
        let mut context = Context::new();
        for place in 0..64 {
            for side in 0..3 {
                guard(&mut context, side)[place] ^= 1;
                assert!(!context.is_intact(), "guard {side}, byte {place}");
                guard(&mut context, side)[place] ^= 1;
                assert!(context.is_intact());
            }
        }
    }

    fn guard(context: &mut Context, side: usize) -> &mut [u8; 64] {
        match side {
            0 => &mut context.guard_low,
            1 => &mut context.guard_middle,
            _ => &mut context.guard_high,
        }
    }

    #[test]
    fn no_register_starts_as_stored() {
        let mut context = Context::new();
        context.load(&State::ZERO);
        assert_eq!(context.before, State::ZERO);
        assert_eq!(context.after.file, [0xFF; 2_048]);
        assert_eq!(context.after.masks, [u64::MAX; 8]);
    }
}
