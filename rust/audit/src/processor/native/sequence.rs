//! Many instructions in one call, to time the instructions themselves.

use super::enter;
use super::pages::CodePages;
use super::permit::{accepted, Permit};
use super::{Outcome, Processor};
use crate::detect::RegisterSet;
use crate::state::State;
use std::io;

/// RET
const RETURN: u8 = 0xC3;

/// Instructions one after another, without a trap between them.
pub struct Sequence {
    pages: CodePages,
}

impl Sequence {
    /// Loads all registers of `state`, carries out all instructions `passes` times, and stores all
    /// registers.
    pub fn run(&self, state: &mut State, passes: u64) {
        // SAFETY: `Processor::sequence` has seen that the processor has these registers, and that it
        // carries out each of the instructions and takes exactly its bytes for it. They are permutes
        // of registers, which write vector registers only, and a return follows them.
        unsafe { enter::repeat_zmm(state, passes, self.pages.address()) };
    }
}

impl Processor {
    /// Joins instructions. Each must be one that the reference accepts and that has no memory
    /// operand, and is run alone first, to see that the processor has it and agrees on its length.
    /// It takes a processor with AVX-512.
    pub fn sequence(&mut self, codes: &[&[u8]]) -> io::Result<Sequence> {
        if self.register_set != RegisterSet::Zmm32 {
            return Err(unsupported("no AVX-512"));
        }
        if !codes.iter().all(|code| self.is_register_step(code)) {
            return Err(unsupported("not a step on registers here"));
        }
        let mut joined = codes.concat();
        joined.push(RETURN);
        let pages = CodePages::new(&joined)?;
        Ok(Sequence { pages })
    }

    fn is_register_step(&mut self, code: &[u8]) -> bool {
        let length = code.len();
        accepted(code) == Some(Permit { memory: 0 })
            && self.run(code, &State::ZERO, &[]) == Outcome::Done { length }
    }
}

fn unsupported(message: &str) -> io::Error {
    io::Error::new(io::ErrorKind::Unsupported, message)
}

#[cfg(test)]
mod tests {
    use super::{Processor, RegisterSet, Sequence, State};
    use crate::case::{Case, Plan};
    use crate::detect::Capabilities;
    use crate::shape::Operand;
    use reference::limits::feature;

    /// A processor with all registers. If there is none, one line says so.
    fn processor() -> Option<Processor> {
        let capabilities = Capabilities::detect().expect("possible features");
        if capabilities.register_set() != Some(RegisterSet::Zmm32) {
            println!("skipped: no AVX-512 on this machine");
            return None;
        }
        Some(Processor::new(capabilities).expect("pages to execute instructions in"))
    }

    fn register_forms(count: u64) -> Vec<Case> {
        let plan = Plan::new(Capabilities::detect().expect("possible features"));
        let cases = (0..count).map(|number| plan.case(3, number));
        let is_wanted =
            |case: &Case| case.damage.is_none() && case.shape.operand == Operand::Register;
        cases.filter(is_wanted).collect()
    }

    fn after(sequence: &Sequence, passes: u64, start: &State) -> State {
        let mut state = start.clone();
        sequence.run(&mut state, passes);
        state
    }

    fn step_all(codes: &[&[u8]], State { file, masks }: &mut State) {
        for code in codes {
            let stepped = reference::step(code, file, masks, feature::ALL, &[]);
            assert_eq!(stepped.status, 0, "{code:02X?}");
        }
    }

    /// Short sequences, from which the registers do not end as zeros.
    #[test]
    fn passes_are_those_of_the_reference() {
        let Some(mut processor) = processor() else {
            return;
        };
        for cases in register_forms(4_000).chunks(4) {
            let codes: Vec<_> = cases.iter().map(|case| case.code.as_slice()).collect();
            let sequence = processor.sequence(&codes).expect("register forms");
            let mut expected = cases[0].state.clone();
            for passes in 0..3 {
                let found = after(&sequence, passes, &cases[0].state);
                assert!(found == expected, "{passes} passes of {codes:02X?}");
                step_all(&codes, &mut expected);
            }
        }
    }

    #[test]
    fn sequence_may_take_many_pages() {
        let Some(mut processor) = processor() else {
            return;
        };
        let cases = register_forms(4_000);
        let codes: Vec<_> = cases.iter().map(|case| case.code.as_slice()).collect();
        assert!(codes.concat().len() > 4_096);
        let sequence = processor.sequence(&codes).expect("register forms");
        let mut expected = cases[0].state.clone();
        step_all(&codes, &mut expected);
        assert!(after(&sequence, 1, &cases[0].state) == expected);
    }

    #[test]
    fn no_instruction_changes_nothing() {
        let Some(mut processor) = processor() else {
            return;
        };
        let start = &register_forms(100)[0].state;
        let sequence = processor.sequence(&[]).expect("a return alone");
        assert!(after(&sequence, 1_000, start) == *start);
    }

    #[test]
    fn other_bytes_make_no_sequence() {
        let Some(mut processor) = processor() else {
            return;
        };
        let good: &[u8] = &[0xC5, 0xF9, 0x70, 0xCA, 0x1B];
        let twice = [good, good].concat();
        let bad: [&[u8]; 6] = [
            &[],
            &[0x90],
            &good[..4],
            &twice,
            &[0xC5, 0xF9, 0x70, 0x08, 0x1B], // memory
            &[0xC5, 0xE9, 0x70, 0xCA, 0x1B], // vvvv
        ];
        assert!(processor.sequence(&[good, good]).is_ok());
        for code in bad {
            assert!(processor.sequence(&[good, code]).is_err(), "{code:02X?}");
        }
    }
}
