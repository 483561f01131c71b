//! Lists of instructions.

use crate::form::Form;
use crate::random::Random;

/// Instructions end to end.
#[derive(Debug, Clone, Default)]
pub struct List {
    pub code: Vec<u8>,
    /// Where each instruction starts.
    pub starts: Vec<usize>,
}

impl List {
    pub fn push(&mut self, instruction: &[u8]) {
        self.starts.push(self.code.len());
        self.code.extend_from_slice(instruction);
    }

    /// How many instructions there are.
    pub fn count(&self) -> usize {
        self.starts.len()
    }

    /// Where the first `count` instructions end.
    pub fn end_of(&self, count: usize) -> usize {
        self.starts.get(count).copied().unwrap_or(self.code.len())
    }
}

/// The forms that lists are made of.
#[derive(Debug, Clone)]
pub struct Mix {
    forms: Vec<Form>,
}

impl Mix {
    /// Forms that a run accepts with these features: those without a memory operand.
    pub fn runnable(features: u32) -> Mix {
        Mix::of(|form| form.is_enabled(features) && !form.shape.memory)
    }

    /// Those that a byte map can describe: their control is not in a register either.
    pub fn mappable(features: u32) -> Mix {
        Mix::runnable(features).but(Form::has_register_control)
    }

    /// All forms that fit.
    pub fn of(fits: impl Fn(Form) -> bool) -> Mix {
        let all = Form::all().into_iter();
        Mix {
            forms: all.filter(|&form| fits(form)).collect(),
        }
    }

    fn but(mut self, excluded: fn(Form) -> bool) -> Mix {
        self.forms.retain(|&form| !excluded(form));
        self
    }

    pub fn is_empty(&self) -> bool {
        self.forms.is_empty()
    }

    /// An instruction with registers below `limit`.
    pub fn instruction(&self, limit: u8, random: &mut Random) -> Vec<u8> {
        let form = random.pick(&self.forms);
        let mut code = form.encode(random);
        let mut below = |registers: u8| random.below(registers.min(limit).into()) as u8;
        let shape = form.shape;
        shape.set_destination(&mut code, below(shape.registers()));
        if shape.row.first {
            shape.set_first(&mut code, below(shape.registers()));
        }
        if !shape.memory {
            shape.set_third(&mut code, below(shape.third_registers()));
        }
        code
    }

    /// A list of `count` instructions. Every other list has few registers, so that its instructions
    /// use each other's results.
    pub fn list(&self, count: usize, random: &mut Random) -> List {
        let limit = random.pick(&[4, 32]);
        let mut list = List::default();
        for _ in 0..count {
            list.push(&self.instruction(limit, random));
        }
        list
    }

    /// A list of exactly `length` bytes, at least 28. Its last instructions are of 4 and 5 bytes.
    pub fn list_of_length(&self, length: usize, random: &mut Random) -> List {
        // Longest register form, and what instructions of 4 and 5 bytes can always fill.
        const LONGEST: usize = 7;
        const ALWAYS: usize = 12;
        let mut list = List::default();
        while list.code.len() + LONGEST + ALWAYS <= length {
            list.push(&self.instruction(32, random));
        }
        while !(length - list.code.len()).is_multiple_of(4) {
            // vpshufd xmm1, xmm2, 0x1b
            list.push(&[0xC5, 0xF9, 0x70, 0xCA, 0x1B]);
        }
        while list.code.len() < length {
            // vunpcklps xmm3, xmm2, xmm1
            list.push(&[0xC5, 0xE8, 0x14, 0xD9]);
        }
        list
    }
}
