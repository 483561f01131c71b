//! Feature numbers: sets that a processor can have, and numbers that answer 1 (request 6).

use crate::limits::features::{ALL, AVX, AVX2, AVX512F, AVX512VL, SETS};
use crate::random::Random;

/// Some numbers that answer 1: sets without AVX or without AVX512F where another needs it, and
/// numbers over 63.
pub const REFUSED: [u32; 9] = [
    AVX2,
    AVX512F,
    AVX | AVX512VL,
    ALL - AVX512F,
    ALL - AVX,
    ALL + 1,
    ALL + 1 + AVX,
    1 << 31,
    u32::MAX,
];

/// Whether a number is one of the sets that pass.
pub fn passes(features: u32) -> bool {
    SETS.contains(&features)
}

/// All numbers of 8 bits; each higher bit alone, beside AVX, beside all features and beside all but
/// AVX; and the largest.
pub fn numbers() -> Vec<u32> {
    let mut numbers: Vec<u32> = (0..=255).collect();
    for high in (8..32).map(|bit| 1 << bit) {
        numbers.extend([high, high | AVX, high | ALL, high | (ALL - AVX)]);
    }
    numbers.extend([u32::MAX << 6, u32::MAX >> 1, u32::MAX - 1, u32::MAX]);
    numbers
}

/// A set that passes, each as often.
pub fn possible(random: &mut Random) -> u32 {
    random.pick(&SETS)
}

/// A number up to 63 that is no such set, each as often.
pub fn impossible(random: &mut Random) -> u32 {
    loop {
        let features = random.below(ALL as usize + 1) as u32;
        if !passes(features) {
            return features;
        }
    }
}

/// A number over 63.
pub fn unknown(random: &mut Random) -> u32 {
    let set = possible(random);
    match random.below(5) {
        0 => ALL + 1 + random.below(8) as u32,
        1 => 1 << (6 + random.below(26)),
        2 => set | 1 << (6 + random.below(26)),
        3 => u32::MAX - random.below(ALL as usize + 1) as u32,
        _ => (random.number() as u32).max(ALL + 1),
    }
}

/// A number that answers 1, of either kind as often.
pub fn refused(random: &mut Random) -> u32 {
    match random.flag() {
        true => impossible(random),
        false => unknown(random),
    }
}

/// A set that passes, but a number that answers 1 in one of eight.
pub fn any(random: &mut Random) -> u32 {
    match random.below(8) {
        0 => refused(random),
        _ => possible(random),
    }
}
