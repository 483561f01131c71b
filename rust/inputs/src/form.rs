//! Every form of accepted instruction: all that matters to a step but registers and immediate.

use crate::encoding::{Prefix, Shape};
use crate::limits::features;
use crate::random::Random;

/// A shape with its width, masking and broadcast.
#[derive(Debug, Clone, Copy)]
pub struct Form {
    pub shape: Shape,
    /// 0, 1, 2 for 128, 256, 512 bits.
    pub width: u8,
    pub masked: bool,
    pub zeroing: bool,
    pub broadcast: bool,
}

/// A form without what a decoding does not tell apart: the two VEX prefixes.
#[derive(Debug, Clone, Copy, PartialEq, Eq, PartialOrd, Ord)]
pub struct Combination {
    pub name: &'static str,
    pub immediate: bool,
    pub evex: bool,
    pub bits: u32,
    pub masked: bool,
    pub zeroing: bool,
    pub broadcast: bool,
    pub memory: bool,
}

impl Form {
    /// Every form that the table has.
    pub fn all() -> Vec<Form> {
        let mut forms = Vec::new();
        for shape in Shape::all() {
            for &width in widths(shape) {
                forms.extend(forms_of(shape, width));
            }
        }
        forms
    }

    /// An instruction of this form that all features together accept. Registers, immediate and
    /// whatever else is free are random.
    pub fn encode(self, random: &mut Random) -> Vec<u8> {
        let shape = self.shape;
        let mut code = shape.encode(random);
        shape.set_width(&mut code, self.width);
        if shape.prefix == Prefix::Evex {
            let mask = if self.masked { 1 + random.below(7) } else { 0 };
            shape.set_mask(&mut code, mask as u8, self.zeroing);
            shape.set_broadcast(&mut code, self.broadcast);
        }
        code
    }

    /// Vector width in bytes.
    pub fn bytes(self) -> usize {
        16 << self.width
    }

    /// Bytes of the memory operand.
    pub fn memory(self) -> usize {
        match (self.shape.memory, self.broadcast) {
            (false, _) => 0,
            (true, false) => self.bytes(),
            (true, true) => self.shape.row.element,
        }
    }

    /// The features that this form needs.
    pub fn features(self) -> u32 {
        let name = self.shape.row.name;
        match (self.shape.prefix, self.width) {
            (Prefix::Evex, 2) => evex_feature(name),
            (Prefix::Evex, _) => evex_feature(name) | features::AVX512VL,
            (_, 1) if matches!(name, "VPSHUFD" | "VPSHUFB") => features::AVX2,
            _ => features::AVX,
        }
    }

    /// Whether `features`, a set that passes, have all that this form needs.
    pub fn is_enabled(self, features: u32) -> bool {
        self.features() & !features == 0
    }

    /// Whether a register or memory holds what is to be moved where.
    pub fn has_register_control(self) -> bool {
        self.shape.row.control.is_some()
    }

    pub fn combination(self) -> Combination {
        Combination {
            name: self.shape.row.name,
            immediate: self.shape.row.immediate,
            evex: self.shape.prefix == Prefix::Evex,
            bits: 128 << self.width,
            masked: self.masked,
            zeroing: self.zeroing,
            broadcast: self.broadcast,
            memory: self.shape.memory,
        }
    }
}

/// The feature of an EVEX form, whatever its width.
fn evex_feature(name: &str) -> u32 {
    match name {
        "VPERMB" => features::AVX512_VBMI,
        "VPSHUFB" => features::AVX512BW,
        _ => features::AVX512F,
    }
}

fn widths(shape: Shape) -> &'static [u8] {
    match shape.prefix {
        Prefix::Vex2 | Prefix::Vex3 => shape.row.vex_l,
        Prefix::Evex => &[0, 1, 2],
    }
}

fn forms_of(shape: Shape, width: u8) -> Vec<Form> {
    let plain = Form {
        shape,
        width,
        masked: false,
        zeroing: false,
        broadcast: false,
    };
    let masked = Form {
        masked: true,
        ..plain
    };
    let zeroed = Form {
        zeroing: true,
        ..masked
    };
    let mut forms = vec![plain];
    if shape.prefix == Prefix::Evex {
        forms.extend([masked, zeroed]);
    }
    if can_broadcast(shape) {
        let broadcast = true;
        let also: Vec<_> = forms
            .iter()
            .map(|form| Form { broadcast, ..*form })
            .collect();
        forms.extend(also);
    }
    forms
}

fn can_broadcast(shape: Shape) -> bool {
    shape.prefix == Prefix::Evex && shape.memory && shape.row.broadcast
}
