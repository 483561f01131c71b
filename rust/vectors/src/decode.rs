//! Inputs of decoding.

use crate::digest::Digest;
use crate::layout::Record;
use crate::maker::Maker;
use crate::pools::Pools;
use crate::section::{Answer, Input, Kind};
use inputs::faults::Fault;
use inputs::limits::features::ALL;

pub const STATUSES: [u32; 6] = [0, 1, 2, 3, 4, 5];

pub struct Decode {
    pub features: u32,
    pub code: Vec<u8>,
}

pub const KINDS: [Kind<Decode>; 19] = [
    ("accepted", 4_900, accepted),
    ("bytes behind", 1_500, bytes_behind),
    ("any set that passes", 2_200, any_features),
    ("impossible features", 500, impossible_features),
    ("features over 63", 400, unknown_features),
    ("one bit flipped", 2_600, flipped),
    ("one byte replaced", 1_000, replaced),
    ("cut", 1_000, cut),
    ("no row", 600, no_row),
    ("another opcode map", 300, other_opcode_map),
    ("fixed bits, any opcode map", 700, fixed_bits),
    ("opcode map or fixed bits, cut", 200, opcode_map_and_cut),
    ("reserved field", 1_000, reserved),
    ("several reserved fields", 1_000, several_reserved),
    ("reserved fields, cut", 300, reserved_and_cut),
    ("one bit flipped, cut", 788, flipped_and_cut),
    ("15 bytes from a prefix", 700, behind_prefix),
    ("any bytes", 309, any_bytes),
    ("over 16,384 bytes", 3, past_limit),
];

impl Input for Decode {
    fn record(&self) -> Record {
        Record::default().u32(self.features).code(&self.code)
    }

    fn answer(&self, _: &Pools) -> Answer {
        let d = reference::decode(&self.code, self.features);
        let numbers = [
            d.status,
            d.length,
            d.memory,
            d.mnemonic,
            d.bits,
            d.evex,
            d.destination,
            d.first,
            d.third,
            d.mask,
            d.zeroing,
            d.broadcast,
            d.has_immediate,
            d.immediate,
            d.reason,
        ];
        Answer {
            status: d.status,
            reason: Some(d.reason),
            numbers: vec![d.length.into(), d.reason.into()],
            digest: Some(Digest::of(&numbers)),
        }
    }
}

/// With all features.
fn all(code: Vec<u8>) -> Decode {
    let features = ALL;
    Decode { features, code }
}

fn accepted(maker: &mut Maker) -> Decode {
    all(maker.accepted())
}

fn bytes_behind(maker: &mut Maker) -> Decode {
    let mut input = accepted(maker);
    maker.extend(&mut input.code);
    input
}

fn any_features(maker: &mut Maker) -> Decode {
    Decode {
        features: maker.features(),
        code: maker.accepted(),
    }
}

fn impossible_features(maker: &mut Maker) -> Decode {
    let features = maker.impossible_features();
    under(features, maker)
}

fn unknown_features(maker: &mut Maker) -> Decode {
    let features = maker.unknown_features();
    under(features, maker)
}

/// Code of every kind, which does not count under wrong features.
fn under(features: u32, maker: &mut Maker) -> Decode {
    let mut code = maker.accepted();
    match maker.random.below(4) {
        0 => maker.cut(&mut code),
        1 => maker.flip(&mut code),
        2 => code = maker.fault(Fault::SeveralReserved),
        _ => {}
    }
    Decode { features, code }
}

fn flipped(maker: &mut Maker) -> Decode {
    let mut input = accepted(maker);
    maker.flip(&mut input.code);
    input
}

fn replaced(maker: &mut Maker) -> Decode {
    let mut input = accepted(maker);
    maker.replace(&mut input.code);
    input
}

fn cut(maker: &mut Maker) -> Decode {
    let mut input = any_features(maker);
    maker.cut(&mut input.code);
    input
}

fn no_row(maker: &mut Maker) -> Decode {
    fault(Fault::NoRow, maker)
}

fn other_opcode_map(maker: &mut Maker) -> Decode {
    fault(Fault::OtherOpcodeMap, maker)
}

fn fixed_bits(maker: &mut Maker) -> Decode {
    fault(Fault::FixedBits, maker)
}

/// Short bytes, or what the map or the fixed bits answer before that shows.
fn opcode_map_and_cut(maker: &mut Maker) -> Decode {
    Decode {
        features: maker.features(),
        code: maker.opcode_map_and_cut(),
    }
}

fn reserved(maker: &mut Maker) -> Decode {
    fault(Fault::Reserved, maker)
}

fn several_reserved(maker: &mut Maker) -> Decode {
    fault(Fault::SeveralReserved, maker)
}

/// Short bytes, or wrong fixed bits before that shows.
fn reserved_and_cut(maker: &mut Maker) -> Decode {
    let mut input = several_reserved(maker);
    maker.cut(&mut input.code);
    input
}

fn fault(fault: Fault, maker: &mut Maker) -> Decode {
    let features = maker.features();
    let code = maker.fault(fault);
    Decode { features, code }
}

fn flipped_and_cut(maker: &mut Maker) -> Decode {
    let mut input = any_features(maker);
    maker.flip(&mut input.code);
    maker.cut(&mut input.code);
    input
}

fn behind_prefix(maker: &mut Maker) -> Decode {
    Decode {
        features: maker.features(),
        code: maker.behind_prefix(),
    }
}

fn any_bytes(maker: &mut Maker) -> Decode {
    Decode {
        features: maker.features(),
        code: maker.any_bytes(20),
    }
}

fn past_limit(maker: &mut Maker) -> Decode {
    let mut input = accepted(maker);
    maker.extend_past_limit(&mut input.code);
    input
}
