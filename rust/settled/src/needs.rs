//! Which features an instruction of the base's rows needs: document 01's sentence below its table.
//!
//! Today's library cannot be asked about a set that no processor has, since request 6. So it is asked
//! with all features of the base, and answer 5 is decided here.

use crate::decoded::Decoded;

const VPERMB: u32 = 2;
const VPSHUFD: u32 = 4;

const AVX: u32 = 1;
const AVX2: u32 = 2;
const AVX512F: u32 = 4;
const AVX512VL: u32 = 8;
const AVX512_VBMI: u32 = 16;

/// The features that an accepted instruction of the base needs.
pub fn needed_features(decoded: &Decoded) -> u32 {
    let evex = match decoded.mnemonic {
        VPERMB => AVX512_VBMI,
        _ => AVX512F,
    };
    match (decoded.evex, decoded.mnemonic, decoded.bits) {
        (0, VPSHUFD, 256) => AVX2,
        (0, _, _) => AVX,
        (_, _, 512) => evex,
        _ => evex | AVX512VL,
    }
}
