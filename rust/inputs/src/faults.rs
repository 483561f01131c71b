//! Instructions that a list is refused for.

use crate::encoding::Prefix;
use crate::form::Form;
use crate::limits::features::ALL;
use crate::lists::{List, Mix};
use crate::opcode_maps::{evex_shapes, OTHER_OPCODE_MAPS};
use crate::random::Random;
use crate::reserved::{possible_pairs, Field, Pair, Wrong};
use std::sync::LazyLock;

/// Why an instruction is refused.
#[derive(Debug, Clone, Copy, PartialEq, Eq)]
pub enum Fault {
    /// The bytes end inside the instruction. Nothing can follow it.
    Short,
    NoRow,
    /// An EVEX opcode map that no row has: 0, or 4 to 7 (request 7).
    OtherOpcodeMap,
    /// Wrong fixed bits, under any opcode map.
    FixedBits,
    /// One reserved field is wrong.
    Reserved,
    /// Two or more reserved fields are.
    SeveralReserved,
    Feature,
    /// A memory operand.
    Memory,
    /// A control in a register, which only a byte map cannot have.
    Control,
}

/// A refused instruction, with its reason: 1 to 6 if a reserved field is wrong, else 0.
#[derive(Debug, Clone)]
pub struct Bad {
    pub code: Vec<u8>,
    pub reason: u32,
}

/// The faults of a run, with their statuses.
pub const RUN_FAULTS: [(Fault, u32); 8] = [
    (Fault::Short, 2),
    (Fault::NoRow, 3),
    (Fault::OtherOpcodeMap, 3),
    (Fault::FixedBits, 4),
    (Fault::Reserved, 4),
    (Fault::SeveralReserved, 4),
    (Fault::Feature, 5),
    (Fault::Memory, 6),
];

/// The faults of building a byte map, with their statuses.
pub const BUILD_FAULTS: [(Fault, u32); 9] = [
    (Fault::Short, 2),
    (Fault::NoRow, 3),
    (Fault::OtherOpcodeMap, 3),
    (Fault::FixedBits, 4),
    (Fault::Reserved, 4),
    (Fault::SeveralReserved, 4),
    (Fault::Feature, 5),
    (Fault::Memory, 7),
    (Fault::Control, 7),
];

/// All features, and sets that pass with which some instructions are accepted and others not.
#[rustfmt::skip] // on one line
pub const FEATURE_SETS: [u32; 9] = [
    ALL, ALL - 32, ALL - 16, ALL - 8, ALL - 2, 1, 3, 5, 13,
];

impl Fault {
    /// An instruction with this fault and none that is looked at before it, or nothing if these
    /// features, which have to pass, have none.
    pub fn encode(self, features: u32, random: &mut Random) -> Option<Bad> {
        let mix = match self {
            Fault::NoRow => return Some(without_reason(no_row(random))),
            Fault::OtherOpcodeMap => return Some(without_reason(other_opcode_map(random))),
            Fault::FixedBits => return Some(fixed_bits(random)),
            Fault::Reserved => return Some(reserved(random)),
            Fault::SeveralReserved => return Some(several_reserved(random)),
            Fault::Short => Mix::of(|form| form.is_enabled(features)),
            Fault::Feature => Mix::of(|form| !form.is_enabled(features)),
            Fault::Memory => Mix::of(|form| form.is_enabled(features) && form.shape.memory),
            Fault::Control => Mix::of(|form| {
                form.is_enabled(features) && form.has_register_control() && !form.shape.memory
            }),
        };
        if mix.is_empty() {
            return None;
        }
        let mut code = mix.instruction(32, random);
        if self == Fault::Short {
            code.truncate(1 + random.below(code.len() - 1));
        }
        Some(without_reason(code))
    }

    /// The list with `bad` at `position`: in front of the instruction that is there, or alone at
    /// the end if nothing can follow.
    pub fn insert(self, list: &List, position: usize, bad: &Bad) -> Vec<u8> {
        let (before, behind) = list.code.split_at(list.end_of(position));
        let behind = if self == Fault::Short { &[] } else { behind };
        [before, &bad.code, behind].concat()
    }
}

fn without_reason(code: Vec<u8>) -> Bad {
    Bad { code, reason: 0 }
}

/// An encoding that no row has: by its first byte, its opcode, or its EVEX W. None of them belongs to
/// a permute, so that new rows change nothing here.
fn no_row(random: &mut Random) -> Vec<u8> {
    // With the other W, VPERMB's opcode is VPERMW, and VPSHUFB's is VPSHUFB still.
    let has_one_w = |form: Form| !matches!(form.shape.row.name, "VPERMB" | "VPSHUFB");
    let evex = Mix::of(|form| is_evex(form) && has_one_w(form));
    let mut code = evex.instruction(32, random);
    match random.below(3) {
        0 => code[0] = random.pick(&[0x00, 0x0F, 0x90, 0xC3, 0xFF]),
        1 => code[4] = random.pick(&[0x0B, 0x58, 0xA2, 0xFE, 0xFF]),
        _ => code[2] ^= 0x80,
    }
    code
}

/// An EVEX instruction under an opcode map that no row has, each as often.
fn other_opcode_map(random: &mut Random) -> Vec<u8> {
    let shape = random.pick(&evex_shapes());
    let mut code = shape.encode(random);
    shape.set_map(&mut code, random.pick(&OTHER_OPCODE_MAPS));
    code
}

/// An EVEX instruction with either fixed bit wrong or both, under any opcode map, each as often.
fn fixed_bits(random: &mut Random) -> Bad {
    let shape = random.pick(&evex_shapes());
    let mut code = shape.encode(random);
    shape.set_map(&mut code, random.bits(3));
    let (second, third) = random.pick(&[(1, 1), (0, 0), (1, 0)]);
    shape.set_fixed_bits(&mut code, second, third);
    Bad { code, reason: 1 }
}

/// An encoding with one reserved field that is wrong, each of the six as often.
fn reserved(random: &mut Random) -> Bad {
    let field = random.pick(&Field::ALL);
    wrong(&Wrong::single(field), random)
}

/// An encoding with two or more of them, each pair as often as the first two.
fn several_reserved(random: &mut Random) -> Bad {
    static PAIRS: LazyLock<Vec<Pair>> = LazyLock::new(possible_pairs);
    let pair = random.pick(&PAIRS);
    wrong(&Wrong::several(pair), random)
}

fn wrong(choices: &[&Wrong], random: &mut Random) -> Bad {
    let wrong = random.pick(choices);
    Bad {
        code: wrong.encode(random),
        reason: wrong.reason(),
    }
}

fn is_evex(form: Form) -> bool {
    form.shape.prefix == Prefix::Evex
}
