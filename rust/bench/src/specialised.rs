//! The functions of `specialised.c`, each for one form alone.

use crate::operand::Operand;
use audit::State;
use compare::form::Form;
use std::ffi::{c_char, c_int, CString};

/// Takes the code with its length, the register file, the opmasks, and the memory operand with its
/// length. Gives the length of the instruction, or 0 if the bytes are not of the form.
type Function =
    unsafe extern "C" fn(*const u8, usize, *mut u8, *const u64, *const u8, usize) -> usize;

extern "C" {
    /// `name` is a C string. All else is numbers, of which 1 is yes and 0 is no.
    fn specialised_find(
        name: *const c_char,
        immediate: c_int,
        bits: c_int,
        masked: c_int,
        operand: c_int,
    ) -> Option<Function>;
}

/// The function of one form.
#[derive(Clone, Copy)]
pub struct Specialised(Function);

impl Specialised {
    /// That of a form without zeroing, in the encoding that the step table has.
    pub fn of(form: Form) -> Option<Specialised> {
        let row = form.shape.row;
        let name = CString::new(row.name).ok()?;
        // SAFETY: the function reads the string, which ends with a zero, and keeps no pointer.
        let found = unsafe {
            specialised_find(
                name.as_ptr(),
                row.immediate.into(),
                128 << form.width,
                form.masked.into(),
                Operand::of(form) as c_int,
            )
        };
        found.map(Specialised)
    }

    /// Carries out one instruction, and gives status and length. The status is 1 if the bytes are
    /// not of the form.
    pub fn step(self, code: &[u8], state: &mut State, memory: &[u8]) -> (u32, u32) {
        let State { file, masks } = state;
        // SAFETY: the pointers are valid for what the function takes from behind them: so many
        // bytes of code and memory as it is told, 2,048 of the file and 8 opmasks. It writes to
        // the file alone, which is borrowed mutably, and keeps no pointer.
        let length = unsafe {
            (self.0)(
                code.as_ptr(),
                code.len(),
                file.as_mut_ptr(),
                masks.as_ptr(),
                memory.as_ptr(),
                memory.len(),
            )
        };
        (u32::from(length == 0), length as u32)
    }
}

#[cfg(test)]
mod tests {
    use super::{Form, Specialised, State};
    use crate::stepping::measured_forms;
    use compare::form::Combination;
    use compare::random::Random;
    use tarhuspo::{features, mnemonic_name};

    /// Cases of each kind for each form.
    const CASES: usize = 300;

    /// The form of an instruction, as the library decodes it.
    fn combination(code: &[u8]) -> Option<Combination> {
        let decoded = tarhuspo::decode(code, features::ALL);
        Some(Combination {
            // A refused one has no mnemonic.
            name: mnemonic_name(decoded.mnemonic)?,
            immediate: decoded.has_immediate != 0,
            evex: decoded.evex != 0,
            bits: decoded.bits,
            masked: decoded.mask != 0,
            zeroing: decoded.zeroing != 0,
            broadcast: decoded.broadcast != 0,
            memory: decoded.memory != 0,
        })
    }

    /// Accepted are exactly the instructions of the form that the library accepts, with its result.
    /// Nothing else changes a byte. Gives whether this one was accepted.
    fn check(form: Form, code: &[u8], memory: &[u8], random: &mut Random) -> bool {
        let mut expected = State::ZERO;
        random.fill(&mut expected.file);
        expected.masks.fill_with(|| random.number());
        let mut found = expected.clone();
        let mut answer = (1, 0);
        if combination(code) == Some(form.combination()) {
            let State { file, masks } = &mut expected;
            let stepped = tarhuspo::step(code, file, masks, features::ALL, memory);
            answer = (u32::from(stepped.status != 0), stepped.length);
        }
        let specialised = Specialised::of(form).expect("a C function for every form");
        assert_eq!(
            specialised.step(code, &mut found, memory),
            answer,
            "{form:?}: {code:02X?}"
        );
        assert!(found == expected, "{form:?}: {code:02X?}");
        answer.0 == 0
    }

    #[test]
    fn own_form_is_carried_out() {
        let mut random = Random::new(10);
        for form in measured_forms() {
            for _ in 0..CASES {
                let mut code = form.encode(&mut random);
                // Bytes behind the instruction do not count.
                let behind = random.below(3);
                code.extend(random.bytes(behind));
                let memory = random.bytes(form.memory());
                assert!(check(form, &code, &memory, &mut random));
            }
        }
    }

    #[test]
    fn other_forms_are_not() {
        let mut random = Random::new(11);
        let all = Form::all();
        for form in measured_forms() {
            for other in &all {
                let code = other.encode(&mut random);
                let memory = random.bytes(other.memory());
                let is_own = other.combination() == form.combination();
                assert_eq!(check(form, &code, &memory, &mut random), is_own);
            }
        }
    }

    #[test]
    fn damaged_ones_are_as_the_library_says() {
        let mut random = Random::new(12);
        for form in measured_forms() {
            let memory = random.bytes(form.memory());
            for _ in 0..CASES {
                let mut code = form.encode(&mut random);
                let at = random.below(code.len());
                code[at] ^= 1 << random.below(8);
                check(form, &code, &memory, &mut random);

                let code = form.encode(&mut random);
                // A copy that ends there, so that a tool can see reads behind it.
                let cut = code[..random.below(code.len())].to_vec();
                assert!(!check(form, &cut, &memory, &mut random));
            }
        }
    }

    #[test]
    fn wrong_memory_operands_are_refused() {
        let mut random = Random::new(13);
        for form in measured_forms() {
            let lengths = [0, 4, 8, 16, 32, 64, form.memory() + 1];
            for length in lengths
                .into_iter()
                .filter(|&length| length != form.memory())
            {
                let code = form.encode(&mut random);
                let memory = random.bytes(length);
                assert!(!check(form, &code, &memory, &mut random));
            }
        }
    }
}
