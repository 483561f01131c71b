//! Instructions of one form, carried out by each engine: compared first, then timed.

use crate::inputs::Inputs;
use crate::specialised::Specialised;
use crate::timing::{medians, rate};
use audit::{Processor, Sequence, State};
use compare::form::Form;
use compare::random::Random;
use std::hint::black_box;
use tarhuspo::features;

pub const INPUTS: usize = 512;
/// How often a round carries out each input, by library and reference.
pub const PASSES: usize = 150;
/// More for what is faster, so that no round is short.
pub const SPECIALISED_PASSES: usize = 1_000;
pub const PROCESSOR_PASSES: usize = 50_000;
/// Memory operands, which the inputs have in turn: few, so that they stay in the nearest cache.
const OPERANDS: usize = 64;
/// Results are compared after so few steps because many permutes in a row leave little but zeros.
const COMPARED: usize = 8;

/// An instruction and its memory operand, which is empty for a register form.
type Input<'a> = (&'a [u8], &'a [u8]);

/// Instructions of one form, and what they start from.
pub struct Steps {
    codes: Inputs,
    operands: Inputs,
    start: State,
    specialised: Specialised,
}

/// Carries out one instruction with its memory operand, and gives status and length.
fn library_step(code: &[u8], state: &mut State, memory: &[u8]) -> (u32, u32) {
    let State { file, masks } = state;
    let stepped = tarhuspo::step(code, file, masks, features::ALL, memory);
    (stepped.status, stepped.length)
}

/// As `library_step`.
fn reference_step(code: &[u8], state: &mut State, memory: &[u8]) -> (u32, u32) {
    let State { file, masks } = state;
    let stepped = reference::step(code, file, masks, features::ALL, memory);
    (stepped.status, stepped.length)
}

impl Steps {
    pub fn new(form: Form) -> Steps {
        let mut random = Random::new(3);
        let mut codes = Inputs::new("steps");
        for _ in 0..INPUTS {
            codes.push(&form.encode(&mut random));
        }
        let mut start = State::ZERO;
        random.fill(&mut start.file);
        start.masks.fill_with(|| random.number());
        let mut operands = Inputs::new("operands");
        for _ in 0..OPERANDS {
            operands.push(&random.bytes(form.memory()));
        }
        Steps {
            codes,
            operands,
            start,
            specialised: Specialised::of(form).expect("a C function for every form"),
        }
    }

    fn inputs(&self) -> Vec<Input<'_>> {
        let operands = self.operands.iter().cycle();
        self.codes.iter().zip(operands).collect()
    }

    /// Whether all engines accept every instruction and leave the same registers.
    pub fn agree(&self, mut processor: Option<&mut Processor>) -> bool {
        let specialised = self.specialised;
        self.inputs().chunks(COMPARED).all(|inputs| {
            let expected = self.after(inputs, library_step);
            let sequence = join(inputs, processor.as_deref_mut());
            let by_processor = sequence.map(|sequence| {
                let mut state = self.start.clone();
                sequence.run(&mut state, 1);
                state
            });
            expected.is_some()
                && self.after(inputs, reference_step) == expected
                && self.after(inputs, |c, s, m| specialised.step(c, s, m)) == expected
                && (by_processor.is_none() || by_processor == expected)
        })
    }

    /// The registers after some instructions, or nothing if one is not accepted.
    fn after(
        &self,
        inputs: &[Input],
        step: impl Fn(&[u8], &mut State, &[u8]) -> (u32, u32),
    ) -> Option<State> {
        let mut state = self.start.clone();
        let mut is_done =
            |&(code, memory): &Input| step(code, &mut state, memory) == (0, code.len() as u32);
        inputs.iter().all(&mut is_done).then_some(state)
    }

    /// Steps per second of library, reference, specialised C and, if it has the instruction and
    /// that has no memory operand, the processor.
    pub fn rates(&self, processor: Option<&mut Processor>) -> Vec<f64> {
        let inputs = self.inputs();
        let specialised = self.specialised;
        let library = || self.time(&inputs, PASSES, library_step);
        let reference = || self.time(&inputs, PASSES, reference_step);
        let specialised = || {
            self.time(&inputs, SPECIALISED_PASSES, |code, state, memory| {
                specialised.step(code, state, memory)
            })
        };
        match join(&inputs, processor) {
            None => medians(&[&library, &reference, &specialised]),
            Some(sequence) => medians(&[&library, &reference, &specialised, &|| {
                self.time_processor(&sequence)
            }]),
        }
    }

    fn time(
        &self,
        inputs: &[Input],
        passes: usize,
        step: impl Fn(&[u8], &mut State, &[u8]) -> (u32, u32),
    ) -> f64 {
        rate(inputs.len() * passes, || {
            for _ in 0..passes {
                let mut state = self.start.clone();
                for &(code, memory) in inputs {
                    let (code, memory) = black_box((code, memory));
                    black_box(step(code, black_box(&mut state), memory));
                }
            }
        })
    }

    fn time_processor(&self, sequence: &Sequence) -> f64 {
        let mut state = self.start.clone();
        rate(self.codes.len() * PROCESSOR_PASSES, || {
            sequence.run(&mut state, PROCESSOR_PASSES as u64);
        })
    }
}

/// The instructions as machine code, unless the processor lacks them or they have memory operands.
fn join(inputs: &[Input], processor: Option<&mut Processor>) -> Option<Sequence> {
    let codes: Vec<_> = inputs.iter().map(|(code, _)| *code).collect();
    processor?.sequence(&codes).ok()
}
