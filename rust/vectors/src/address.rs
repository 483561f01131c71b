//! Inputs of working out an address.

use crate::layout::{Record, Span};
use crate::maker::Maker;
use crate::pools::Pools;
use crate::section::{Answer, Input, Kind};
use inputs::encoding::Prefix;
use inputs::faults::Fault;
use inputs::limits::features::ALL;
use inputs::operand::Operand;
use inputs::random::Random;
use inputs::state::gpr;

pub const STATUSES: [u32; 6] = [0, 1, 2, 3, 4, 5];

pub struct Address {
    pub features: u32,
    /// Where the instruction stands.
    pub own: u64,
    registers: Span,
    pub code: Vec<u8>,
}

pub const KINDS: [Kind<Address>; 24] = [
    ("any operand", 3_900, any_operand),
    ("one byte of displacement", 2_500, near),
    ("relative to the next one", 1_500, relative),
    ("no index or no base", 2_000, unusual_sib),
    ("accepted", 2_200, accepted),
    ("bytes behind", 700, bytes_behind),
    ("number of registers", 700, register_count),
    ("impossible features", 450, impossible_features),
    ("features over 63", 200, unknown_features),
    ("any set that passes", 750, any_features),
    ("one bit flipped", 1_000, flipped),
    ("one byte replaced", 400, replaced),
    ("cut", 500, cut),
    ("no row", 200, no_row),
    ("another opcode map", 200, other_opcode_map),
    ("fixed bits, any opcode map", 700, fixed_bits),
    ("opcode map or fixed bits, cut", 100, opcode_map_and_cut),
    ("reserved field", 500, reserved),
    ("several reserved fields", 600, several_reserved),
    ("reserved fields, cut", 200, reserved_and_cut),
    ("several faults", 288, several_faults),
    ("15 bytes from a prefix", 300, behind_prefix),
    ("any bytes", 109, any_bytes),
    ("over 16,384 bytes", 3, past_limit),
];

impl Input for Address {
    fn record(&self) -> Record {
        let record = Record::default().u32(self.features).u64(self.own);
        record.masks(self.registers).code(&self.code)
    }

    fn answer(&self, pools: &Pools) -> Answer {
        let registers = self.registers(pools);
        let found = reference::address(&self.code, self.features, &registers, self.own);
        Answer {
            status: found.status,
            reason: Some(found.reason),
            numbers: vec![found.reason.into(), found.has_address.into(), found.address],
            digest: None,
        }
    }
}

impl Address {
    /// All features, sixteen registers, and any place for the instruction.
    fn new(code: Vec<u8>, maker: &mut Maker) -> Address {
        Address {
            features: ALL,
            own: gpr(&mut maker.random),
            registers: maker.gprs(),
            code,
        }
    }

    /// The general registers that are passed: a part of the pool of opmasks.
    pub fn registers(&self, pools: &Pools) -> Vec<u64> {
        pools.masks(self.registers)
    }
}

/// A memory form with an operand made by `operand`.
fn with_operand(operand: fn(Prefix, &mut Random) -> Operand, maker: &mut Maker) -> Address {
    let code = maker.with_operand(operand);
    Address::new(code, maker)
}

fn any_operand(maker: &mut Maker) -> Address {
    with_operand(Operand::random, maker)
}

fn near(maker: &mut Maker) -> Address {
    with_operand(Operand::near, maker)
}

fn relative(maker: &mut Maker) -> Address {
    with_operand(Operand::relative, maker)
}

fn unusual_sib(maker: &mut Maker) -> Address {
    with_operand(Operand::unusual_sib, maker)
}

/// Register forms too.
fn accepted(maker: &mut Maker) -> Address {
    let code = maker.accepted();
    Address::new(code, maker)
}

fn bytes_behind(maker: &mut Maker) -> Address {
    let mut input = any_operand(maker);
    maker.extend(&mut input.code);
    input
}

fn register_count(maker: &mut Maker) -> Address {
    let registers = maker.wrong_gprs();
    let input = any_operand(maker);
    Address { registers, ..input }
}

fn impossible_features(maker: &mut Maker) -> Address {
    let features = maker.impossible_features();
    let input = any_operand(maker);
    Address { features, ..input }
}

fn unknown_features(maker: &mut Maker) -> Address {
    let features = maker.unknown_features();
    let input = any_operand(maker);
    Address { features, ..input }
}

fn any_features(maker: &mut Maker) -> Address {
    let features = maker.features();
    let input = any_operand(maker);
    Address { features, ..input }
}

fn flipped(maker: &mut Maker) -> Address {
    let mut input = any_operand(maker);
    maker.flip(&mut input.code);
    input
}

fn replaced(maker: &mut Maker) -> Address {
    let mut input = any_operand(maker);
    maker.replace(&mut input.code);
    input
}

fn cut(maker: &mut Maker) -> Address {
    let mut input = any_features(maker);
    maker.cut(&mut input.code);
    input
}

fn no_row(maker: &mut Maker) -> Address {
    fault(Fault::NoRow, maker)
}

fn other_opcode_map(maker: &mut Maker) -> Address {
    fault(Fault::OtherOpcodeMap, maker)
}

fn fixed_bits(maker: &mut Maker) -> Address {
    fault(Fault::FixedBits, maker)
}

/// Short bytes, or what the map or the fixed bits answer before that shows.
fn opcode_map_and_cut(maker: &mut Maker) -> Address {
    let features = maker.features();
    let code = maker.opcode_map_and_cut();
    let input = Address::new(code, maker);
    Address { features, ..input }
}

fn reserved(maker: &mut Maker) -> Address {
    fault(Fault::Reserved, maker)
}

fn several_reserved(maker: &mut Maker) -> Address {
    fault(Fault::SeveralReserved, maker)
}

/// Short bytes, or wrong fixed bits before that shows.
fn reserved_and_cut(maker: &mut Maker) -> Address {
    let mut input = several_reserved(maker);
    maker.cut(&mut input.code);
    input
}

fn fault(fault: Fault, maker: &mut Maker) -> Address {
    let features = maker.features();
    let code = maker.fault(fault);
    let input = Address::new(code, maker);
    Address { features, ..input }
}

/// Which of two or more faults is answered.
fn several_faults(maker: &mut Maker) -> Address {
    let mut input = flipped(maker);
    if maker.random.flag() {
        maker.cut(&mut input.code);
    }
    match maker.random.below(4) {
        0 => input.registers = maker.wrong_gprs(),
        1 => input.features = maker.wrong_features(),
        _ => input.features = maker.features(),
    }
    input
}

fn behind_prefix(maker: &mut Maker) -> Address {
    let code = maker.behind_prefix();
    Address::new(code, maker)
}

fn any_bytes(maker: &mut Maker) -> Address {
    let code = maker.any_bytes(20);
    Address::new(code, maker)
}

fn past_limit(maker: &mut Maker) -> Address {
    let mut code = maker.with_operand(Operand::random);
    maker.extend_past_limit(&mut code);
    Address::new(code, maker)
}
