//! Inputs of a step.

use crate::digest::Digest;
use crate::layout::{Record, Span, MEMORY_MOST, ROOM};
use crate::maker::Maker;
use crate::pools::{passed, Pools};
use crate::section::{Answer, Input, Kind};
use inputs::faults::Fault;
use inputs::limits::features::ALL;
use inputs::lists::Mix;

pub const STATUSES: [u32; 7] = [0, 1, 2, 3, 4, 5, 6];

pub struct Step {
    pub features: u32,
    file: Span,
    masks: Span,
    memory: Span,
    pub code: Vec<u8>,
}

pub const KINDS: [Kind<Step>; 23] = [
    ("accepted", 6_400, accepted),
    ("few registers", 2_000, few_registers),
    ("bytes behind", 800, bytes_behind),
    ("length of memory", 1_800, memory_length),
    ("size of the file", 600, file_size),
    ("number of opmasks", 500, mask_count),
    ("impossible features", 450, impossible_features),
    ("features over 63", 300, unknown_features),
    ("any set that passes", 1_250, any_features),
    ("one bit flipped", 1_500, flipped),
    ("one byte replaced", 500, replaced),
    ("cut", 500, cut),
    ("no row", 200, no_row),
    ("another opcode map", 300, other_opcode_map),
    ("fixed bits, any opcode map", 700, fixed_bits),
    ("opcode map or fixed bits, cut", 200, opcode_map_and_cut),
    ("reserved field", 600, reserved),
    ("several reserved fields", 500, several_reserved),
    ("reserved fields, cut", 200, reserved_and_cut),
    ("several faults", 288, several_faults),
    ("15 bytes from a prefix", 300, behind_prefix),
    ("any bytes", 109, any_bytes),
    ("over 16,384 bytes", 3, past_limit),
];

impl Input for Step {
    fn record(&self) -> Record {
        let record = Record::default().u32(self.features).span(self.file);
        let record = record.masks(self.masks).u16(self.memory.start);
        record.u8(self.memory.length).code(&self.code)
    }

    fn answer(&self, pools: &Pools) -> Answer {
        let mut file = pools.bytes(self.file.start, ROOM);
        let stepped = reference::step(
            &self.code,
            passed(&mut file, self.file),
            &pools.masks(self.masks),
            self.features,
            &pools.bytes(self.memory.start, self.memory.length.into()),
        );
        Answer {
            status: stepped.status,
            reason: Some(stepped.reason),
            numbers: vec![stepped.length.into(), stepped.reason.into()],
            digest: Some(Digest::of(&file)),
        }
    }
}

impl Step {
    /// All features, right sizes, and the memory that the code wants.
    fn new(code: Vec<u8>, maker: &mut Maker) -> Step {
        let wanted = reference::decode(&code, ALL).memory;
        Step {
            features: ALL,
            file: maker.file(),
            masks: maker.masks(),
            memory: maker.span(wanted as usize),
            code,
        }
    }
}

fn accepted(maker: &mut Maker) -> Step {
    let code = maker.accepted();
    Step::new(code, maker)
}

/// Registers that are often the same.
fn few_registers(maker: &mut Maker) -> Step {
    let limit = 1 + maker.random.bits(2);
    let code = Mix::of(|_| true).instruction(limit, &mut maker.random);
    Step::new(code, maker)
}

fn bytes_behind(maker: &mut Maker) -> Step {
    let mut code = maker.accepted();
    maker.extend(&mut code);
    Step::new(code, maker)
}

fn memory_length(maker: &mut Maker) -> Step {
    let mut input = accepted(maker);
    let right = input.memory.length;
    let random = &mut maker.random;
    let near = random.pick(&[right.saturating_sub(1), right + 1, 2 * right, right / 2]);
    let usual = random.pick(&[0, 4, 8, 16, 32, 64, 128]);
    let any = random.below(MEMORY_MOST + 1) as u16;
    input.memory.length = random.pick(&[near, usual, any]);
    input
}

fn file_size(maker: &mut Maker) -> Step {
    let file = maker.wrong_file();
    let input = accepted(maker);
    Step { file, ..input }
}

fn mask_count(maker: &mut Maker) -> Step {
    let masks = maker.wrong_masks();
    let input = accepted(maker);
    Step { masks, ..input }
}

fn impossible_features(maker: &mut Maker) -> Step {
    let features = maker.impossible_features();
    let input = accepted(maker);
    Step { features, ..input }
}

fn unknown_features(maker: &mut Maker) -> Step {
    let features = maker.unknown_features();
    let input = accepted(maker);
    Step { features, ..input }
}

fn any_features(maker: &mut Maker) -> Step {
    let features = maker.features();
    let input = accepted(maker);
    Step { features, ..input }
}

fn flipped(maker: &mut Maker) -> Step {
    let mut code = maker.accepted();
    maker.flip(&mut code);
    Step::new(code, maker)
}

fn replaced(maker: &mut Maker) -> Step {
    let mut code = maker.accepted();
    maker.replace(&mut code);
    Step::new(code, maker)
}

fn cut(maker: &mut Maker) -> Step {
    let mut input = any_features(maker);
    maker.cut(&mut input.code);
    input
}

fn no_row(maker: &mut Maker) -> Step {
    fault(Fault::NoRow, maker)
}

fn other_opcode_map(maker: &mut Maker) -> Step {
    fault(Fault::OtherOpcodeMap, maker)
}

fn fixed_bits(maker: &mut Maker) -> Step {
    fault(Fault::FixedBits, maker)
}

/// Short bytes, or what the map or the fixed bits answer before that shows.
fn opcode_map_and_cut(maker: &mut Maker) -> Step {
    let features = maker.features();
    let code = maker.opcode_map_and_cut();
    let input = Step::new(code, maker);
    Step { features, ..input }
}

fn reserved(maker: &mut Maker) -> Step {
    fault(Fault::Reserved, maker)
}

fn several_reserved(maker: &mut Maker) -> Step {
    fault(Fault::SeveralReserved, maker)
}

/// Short bytes, or wrong fixed bits before that shows.
fn reserved_and_cut(maker: &mut Maker) -> Step {
    let mut input = several_reserved(maker);
    maker.cut(&mut input.code);
    input
}

fn fault(fault: Fault, maker: &mut Maker) -> Step {
    let features = maker.features();
    let code = maker.fault(fault);
    let input = Step::new(code, maker);
    Step { features, ..input }
}

/// Which of two or more faults is answered.
fn several_faults(maker: &mut Maker) -> Step {
    let mut input = memory_length(maker);
    if maker.random.flag() {
        maker.flip(&mut input.code);
    }
    match maker.random.below(6) {
        0 => input.file = maker.wrong_file(),
        1 => input.masks = maker.wrong_masks(),
        2 => input.features = maker.wrong_features(),
        3 => maker.cut(&mut input.code),
        _ => input.features = maker.features(),
    }
    input
}

fn behind_prefix(maker: &mut Maker) -> Step {
    let code = maker.behind_prefix();
    Step::new(code, maker)
}

fn any_bytes(maker: &mut Maker) -> Step {
    let code = maker.any_bytes(20);
    Step::new(code, maker)
}

fn past_limit(maker: &mut Maker) -> Step {
    let mut code = maker.accepted();
    maker.extend_past_limit(&mut code);
    Step::new(code, maker)
}
