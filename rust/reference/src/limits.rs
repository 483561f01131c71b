//! Sizes and feature bits, and the refusals of wrong ones.

use crate::refusal::Refusal;

/// Bytes of one register.
pub const REGISTER_SIZE: usize = 64;
/// Bytes of the register file: 32 registers.
pub const FILE_SIZE: usize = 2_048;
/// Opmask registers.
pub const MASK_COUNT: usize = 8;
/// General registers, which addresses are made of (request 4).
pub const GPR_COUNT: usize = 16;
/// Bytes of one lane.
pub const LANE_SIZE: usize = 16;
/// Most bytes of a list (request 5).
pub const CODE_LIMIT: usize = 16_384;
/// Entries of a byte map (document 01: route sheet), one for each byte of the file.
pub const MAP_SIZE: usize = FILE_SIZE;
/// The byte map entry for a zero byte.
pub const MAP_ZERO: u16 = 2_048;
/// Least bytes of the text that a piece of a listing is written to (request 5).
pub const TEXT_LEAST: usize = 64;

/// Feature bits.
pub mod feature {
    pub const AVX: u32 = 1 << 0;
    pub const AVX2: u32 = 1 << 1;
    pub const AVX512F: u32 = 1 << 2;
    pub const AVX512VL: u32 = 1 << 3;
    pub const AVX512_VBMI: u32 = 1 << 4;
    pub const AVX512BW: u32 = 1 << 5;
    /// All of them, the greatest feature number there is.
    pub const ALL: u32 = 63;
}

/// Answer 1 for the features: a number with an unknown bit, or a set that no processor has.
pub(crate) fn check_features(features: u32) -> Result<(), Refusal> {
    if features > feature::ALL || lacks_another(features) {
        return Err(Refusal::Size);
    }
    Ok(())
}

/// Request 6: whether there is any other bit without AVX, or one of the three that extend AVX512F
/// without AVX512F.
fn lacks_another(features: u32) -> bool {
    let has = |bits: u32| features & bits != 0;
    let extends_f = feature::AVX512VL | feature::AVX512_VBMI | feature::AVX512BW;
    (has(!feature::AVX) && !has(feature::AVX)) || (has(extends_f) && !has(feature::AVX512F))
}

/// Answer 1 for opmasks and features.
pub(crate) fn check_masks(masks: &[u64], features: u32) -> Result<(), Refusal> {
    if masks.len() != MASK_COUNT {
        return Err(Refusal::Size);
    }
    check_features(features)
}

/// Answer 1 for register file, opmasks and features.
pub(crate) fn check_state(file: &[u8], masks: &[u64], features: u32) -> Result<(), Refusal> {
    if file.len() != FILE_SIZE {
        return Err(Refusal::Size);
    }
    check_masks(masks, features)
}

/// Answer 1 for general registers and features.
pub(crate) fn check_registers(registers: &[u64], features: u32) -> Result<(), Refusal> {
    if registers.len() != GPR_COUNT {
        return Err(Refusal::Size);
    }
    check_features(features)
}

/// Answer 8.
pub(crate) fn check_code(code: &[u8]) -> Result<(), Refusal> {
    if code.len() > CODE_LIMIT {
        return Err(Refusal::CodeLimit);
    }
    Ok(())
}
