//! Running a list, with a budget.

use crate::limits::{check_code, check_state};
use crate::refusal::{Refusal, DONE};
use crate::step::step;

/// How many steps were done, the place of the next or the refused one, and the answer with its
/// reason.
#[derive(Debug, Clone, Copy, PartialEq, Eq, Default)]
pub struct Ran {
    pub steps: u64,
    pub place: u64,
    pub status: u32,
    /// As in [`Decoded`](crate::Decoded).
    pub reason: u32,
}

/// Runs the steps of `code` with no memory operand, at most `budget` of them.
pub fn run(code: &[u8], file: &mut [u8], masks: &[u64], features: u32, budget: u64) -> Ran {
    match accept(code, file, masks, features) {
        Ok(()) => run_steps(code, file, masks, features, budget),
        Err(refusal) => Ran {
            steps: 0,
            place: 0,
            status: refusal.number(),
            reason: refusal.reason(),
        },
    }
}

/// The refusals that come before any step: 1, then 8.
fn accept(code: &[u8], file: &[u8], masks: &[u64], features: u32) -> Result<(), Refusal> {
    check_state(file, masks, features)?;
    check_code(code)
}

fn run_steps(code: &[u8], file: &mut [u8], masks: &[u64], features: u32, budget: u64) -> Ran {
    let mut steps = 0;
    let mut place = 0;
    let (mut status, mut reason) = (DONE, 0);
    while steps < budget && place < code.len() {
        let stepped = step(&code[place..], file, masks, features, &[]);
        if stepped.status != DONE {
            (status, reason) = (stepped.status, stepped.reason);
            break;
        }
        steps += 1;
        place += stepped.length as usize;
    }
    Ran {
        steps,
        place: place as u64,
        status,
        reason,
    }
}
