//! Random codes, features and sizes, right ones and wrong ones.

use crate::layout::{Span, CODE_ROOM, MASKS_ROOM, MOST};
use inputs::encoding::{Prefix, Row, ROWS};
use inputs::faults::Fault;
use inputs::feature_sets;
use inputs::form::Form;
use inputs::limits::features::ALL;
use inputs::limits::{CODE_LIMIT, FILE_SIZE, GPR_COUNT, MASK_COUNT};
use inputs::operand::Operand;
use inputs::random::Random;

/// Most opmasks of an input. There is room for more, but then the inputs would be others.
const MASKS_MOST: usize = 16;

pub struct Maker {
    pub random: Random,
    /// The forms of each row of the table.
    rows: Vec<Vec<Form>>,
    /// Instructions made so far.
    made: usize,
    /// Choices made in turn so far.
    turns: usize,
}

impl Maker {
    pub fn new(seed: u64) -> Maker {
        Maker {
            random: Random::new(seed),
            rows: ROWS.iter().map(forms_of).collect(),
            made: 0,
            turns: 0,
        }
    }

    /// One of the choices. They take turns, so that a few inputs have every one.
    pub fn in_turn<T: Copy>(&mut self, choices: &[T]) -> T {
        let turn = self.turns % choices.len();
        self.turns += 1;
        choices[turn]
    }

    /// A form that fits. The rows take turns, so that a dozen inputs have every one.
    fn form(&mut self, fits: fn(&Form) -> bool) -> Form {
        let forms = self.rows[self.made % self.rows.len()].iter().copied();
        self.made += 1;
        let forms: Vec<_> = forms.filter(fits).collect();
        self.random.pick(&forms)
    }

    /// An instruction that all features together accept.
    pub fn accepted(&mut self) -> Vec<u8> {
        self.form(|_| true).encode(&mut self.random)
    }

    /// As [`accepted`](Maker::accepted), a memory form with an operand made by `operand`.
    pub fn with_operand(&mut self, operand: fn(Prefix, &mut Random) -> Operand) -> Vec<u8> {
        let form = self.form(|form| form.shape.memory);
        let mut code = form.encode(&mut self.random);
        let operand = operand(form.shape.prefix, &mut self.random);
        form.shape.set_operand(&mut code, &operand);
        code
    }

    pub fn flip(&mut self, code: &mut [u8]) {
        let bit = self.random.below(8 * code.len());
        code[bit / 8] ^= 1 << (bit % 8);
    }

    pub fn replace(&mut self, code: &mut [u8]) {
        let at = self.random.below(code.len());
        code[at] = self.random.byte();
    }

    pub fn cut(&mut self, code: &mut Vec<u8>) {
        code.truncate(self.random.below(code.len()));
    }

    /// Puts up to 16 more bytes behind the code.
    pub fn extend(&mut self, code: &mut Vec<u8>) {
        let more = 1 + self.random.below(16);
        code.extend(self.random.bytes(more));
    }

    /// Puts so many bytes behind the code that a list would be too long.
    pub fn extend_past_limit(&mut self, code: &mut Vec<u8>) {
        let length = CODE_LIMIT + 1 + self.random.below(CODE_ROOM - CODE_LIMIT);
        code.extend(self.random.bytes(length - code.len()));
    }

    /// An encoding with a fault that all features together can have; else no bytes.
    pub fn fault(&mut self, fault: Fault) -> Vec<u8> {
        let bad = fault.encode(ALL, &mut self.random);
        bad.map_or_else(Vec::new, |bad| bad.code)
    }

    /// An encoding with another opcode map or with wrong fixed bits, cut.
    pub fn opcode_map_and_cut(&mut self) -> Vec<u8> {
        let fault = self.random.pick(&[Fault::OtherOpcodeMap, Fault::FixedBits]);
        let mut code = self.fault(fault);
        self.cut(&mut code);
        code
    }

    pub fn behind_prefix(&mut self) -> Vec<u8> {
        let mut code = self.random.bytes(15);
        code[0] = self.random.pick(&[0xC4, 0xC5, 0x62]);
        code
    }

    pub fn any_bytes(&mut self, most: usize) -> Vec<u8> {
        let count = self.random.below(most + 1);
        self.random.bytes(count)
    }

    /// A set of features that passes.
    pub fn features(&mut self) -> u32 {
        feature_sets::possible(&mut self.random)
    }

    /// A set that no processor has.
    pub fn impossible_features(&mut self) -> u32 {
        feature_sets::impossible(&mut self.random)
    }

    /// A feature number over 63.
    pub fn unknown_features(&mut self) -> u32 {
        feature_sets::unknown(&mut self.random)
    }

    /// Either of these two.
    pub fn wrong_features(&mut self) -> u32 {
        feature_sets::refused(&mut self.random)
    }

    /// The start of a part of a pool, any of the pool's 65,536 places.
    pub fn start(&mut self) -> usize {
        self.random.below(1 << 16)
    }

    /// A part of a pool with `length` elements.
    pub fn span(&mut self, length: usize) -> Span {
        Span::new(self.start(), length)
    }

    /// A register file, or a map to be written.
    pub fn file(&mut self) -> Span {
        self.span(FILE_SIZE)
    }

    pub fn wrong_file(&mut self) -> Span {
        let length = self.wrong_size(FILE_SIZE, MOST);
        self.span(length)
    }

    pub fn masks(&mut self) -> Span {
        Span::new(self.random.below(256), MASK_COUNT)
    }

    pub fn wrong_masks(&mut self) -> Span {
        let count = self.wrong_size(MASK_COUNT, MASKS_MOST);
        Span::new(self.random.below(256), count)
    }

    /// General registers, which are a part of the pool of opmasks.
    pub fn gprs(&mut self) -> Span {
        Span::new(self.random.below(256), GPR_COUNT)
    }

    pub fn wrong_gprs(&mut self) -> Span {
        let count = self.wrong_size(GPR_COUNT, MASKS_ROOM);
        Span::new(self.random.below(256), count)
    }

    /// A size up to `most`, but not the right one.
    pub fn wrong_size(&mut self, right: usize, most: usize) -> usize {
        let random = &mut self.random;
        match random.below(6) {
            0 => right - 1,
            1 => right + 1,
            2 => random.pick(&[0, 1, right / 2, most]),
            3 => right + 1 + random.below(most - right),
            _ => random.below(right),
        }
    }
}

fn forms_of(row: &'static Row) -> Vec<Form> {
    let is_own = |form: &Form| std::ptr::eq(form.shape.row, row);
    Form::all().into_iter().filter(is_own).collect()
}
