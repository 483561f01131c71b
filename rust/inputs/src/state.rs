//! Random registers, opmasks and general registers.

use crate::limits::{FILE_SIZE, GPR_COUNT, MASK_COUNT};
use crate::random::Random;

/// A new register file, of the right size.
pub fn refill_file(file: &mut Vec<u8>, random: &mut Random) {
    file.resize(FILE_SIZE, 0);
    random.fill(file);
}

/// New opmasks, in the right number.
pub fn refill_masks(masks: &mut Vec<u64>, random: &mut Random) {
    masks.resize(MASK_COUNT, 0);
    masks.fill_with(|| opmask(random));
}

/// Mostly random bits; now and then none, all, or a single one.
fn opmask(random: &mut Random) -> u64 {
    match random.below(8) {
        0 => 0,
        1 => u64::MAX,
        2 => 1 << random.below(64),
        _ => random.number(),
    }
}

/// New general registers, in the right number.
pub fn refill_gprs(registers: &mut Vec<u64>, random: &mut Random) {
    registers.resize(GPR_COUNT, 0);
    registers.fill_with(|| gpr(random));
}

/// What a general register holds, or where an instruction stands: mostly anything, and now and then
/// a small number, one close to 2^64 or 2^63, all ones or a single one.
pub fn gpr(random: &mut Random) -> u64 {
    let small = random.below(1 << 14) as u64;
    match random.below(12) {
        0 => small,
        1 => u64::MAX - small,
        2 => (1 << 63) - (1 << 13) + small,
        3 => u64::MAX,
        4 => 1 << random.below(64),
        5 => 0,
        _ => random.number(),
    }
}
