//! Processor features: one bit each, added up to the number that [`decode`](crate::decode),
//! [`address`](crate::address()), [`step`](crate::step()), [`run`](crate::run()) and
//! [`bytemap_build`](crate::bytemap_build) take.
//!
//! ```
//! use tarhuspo::{decode, features};
//!
//! // vpshufd ymm1, ymm2, 0x1b needs AVX2.
//! let code = [0xC5, 0xFD, 0x70, 0xCA, 0x1B];
//! assert_eq!(decode(&code, features::AVX).status, 5);
//! assert_eq!(decode(&code, features::AVX | features::AVX2).status, 0);
//!
//! // vpshufb zmm1, zmm2, zmm3 needs AVX512BW.
//! let code = [0x62, 0xF2, 0x6D, 0x48, 0x00, 0xCB];
//! assert_eq!(decode(&code, features::ALL - features::AVX512BW).status, 5);
//! let least = features::AVX | features::AVX512F | features::AVX512BW;
//! assert_eq!(decode(&code, least).status, 0);
//! ```
//!
//! A set that no processor has is refused with status 1, before anything else is looked at:
//! [`possible`] says which sets there are.

/// 128- and 256-bit VEX instructions.
pub const AVX: u32 = 1 << 0;
/// 256-bit VEX integer instructions.
pub const AVX2: u32 = 1 << 1;
/// EVEX instructions, but for the byte permutes.
pub const AVX512F: u32 = 1 << 2;
/// EVEX instructions of 128 and 256 bits.
pub const AVX512VL: u32 = 1 << 3;
/// EVEX byte permutes across lanes: VPERMB.
pub const AVX512_VBMI: u32 = 1 << 4;
/// EVEX byte permutes within lanes: VPSHUFB.
pub const AVX512BW: u32 = 1 << 5;

/// Every feature. A larger number is refused with status 1.
pub const ALL: u32 = AVX | AVX2 | AVX512F | AVX512VL | AVX512_VBMI | AVX512BW;

/// The features with the names that processor vendors use, in lower case.
///
/// ```
/// use tarhuspo::features;
///
/// let sum: u32 = features::NAMED.iter().map(|(_, bit)| bit).sum();
/// assert_eq!(sum, features::ALL);
/// ```
pub const NAMED: [(&str, u32); 6] = [
    ("avx", AVX),
    ("avx2", AVX2),
    ("avx512f", AVX512F),
    ("avx512vl", AVX512VL),
    ("avx512_vbmi", AVX512_VBMI),
    ("avx512bw", AVX512BW),
];

/// Whether the library takes these features: a processor can have them, and no other bit is set.
///
/// Every other feature needs [`AVX`], and [`AVX512VL`], [`AVX512_VBMI`] and [`AVX512BW`] need
/// [`AVX512F`] as well. No feature at all is a set too. So 19 numbers pass; any other is refused
/// with status 1 by each function that takes features, which then changes nothing.
///
/// ```
/// use tarhuspo::limits::{FILE_SIZE, MASK_COUNT};
/// use tarhuspo::{features, step};
///
/// assert!(features::possible(0) && features::possible(features::ALL));
/// assert!(features::possible(features::AVX | features::AVX512F | features::AVX512VL));
/// assert!(!features::possible(features::AVX | features::AVX512VL));
/// assert!(!features::possible(features::ALL - features::AVX));
/// assert!(!features::possible(features::ALL + 1));
/// assert_eq!((0..256).filter(|number| features::possible(*number)).count(), 19);
///
/// // vpshufd xmm1, xmm2, 0x1b needs AVX alone, which is there.
/// let code = [0xC5, 0xF9, 0x70, 0xCA, 0x1B];
/// let (mut file, masks) = ([1; FILE_SIZE], [0; MASK_COUNT]);
/// let stepped = step(&code, &mut file, &masks, features::AVX | features::AVX512VL, &[]);
/// assert_eq!((stepped.status, file), (1, [1; FILE_SIZE]));
/// ```
pub fn possible(features: u32) -> bool {
    // The library itself is asked: decoding no bytes is 1, or 2 if the features pass.
    crate::decode(&[], features).status != 1
}

#[cfg(test)]
mod tests {
    use super::{possible, ALL};

    /// AVX is 1, AVX2 2, AVX512F 4, AVX512VL 8, AVX512_VBMI 16 and AVX512BW 32.
    const POSSIBLE: [u32; 19] = [
        0, 1, 3, 5, 7, 13, 15, 21, 23, 29, 31, 37, 39, 45, 47, 53, 55, 61, 63,
    ];

    #[test]
    fn these_are_all_that_a_processor_can_have() {
        for features in 0..=255 {
            let expected = POSSIBLE.contains(&features);
            assert_eq!(possible(features), expected, "{features}");
        }
    }

    /// Also if the bits below are those of a set.
    #[test]
    fn no_other_bit_may_be_set() {
        for bit in 6..u32::BITS {
            for features in POSSIBLE {
                assert!(!possible(features | 1 << bit), "{features}, bit {bit}");
            }
        }
        assert!(!possible(u32::MAX) && !possible(!ALL));
    }
}
