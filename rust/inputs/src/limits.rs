//! Sizes, limits and feature bits.

/// Bytes of the register file.
pub const FILE_SIZE: usize = 2_048;
/// Opmask registers.
pub const MASK_COUNT: usize = 8;
/// General registers.
pub const GPR_COUNT: usize = 16;
/// Most bytes of a list, and what that was before request 5.
pub const CODE_LIMIT: usize = 16_384;
pub const OLD_CODE_LIMIT: usize = 4_096;
/// A budget that is enough for every list, and what that was before request 5.
pub const MOST_STEPS: u64 = 4_096;
pub const OLD_MOST_STEPS: u64 = 1_024;
/// Entries of a byte map.
pub const MAP_SIZE: usize = FILE_SIZE;
/// The byte map entry for a zero byte.
pub const MAP_ZERO: u16 = 2_048;
/// Least bytes of a listing's text, and what that was before requests 3 and 5.
pub const TEXT_LEAST: usize = 64;
pub const OLD_TEXT_SIZES: [usize; 2] = [25_624, 27_672];
/// A text of so many bytes holds the listing of every list.
pub const TEXT_WHOLE: usize = 110_616;

/// Feature bits.
pub mod features {
    pub const AVX: u32 = 1 << 0;
    pub const AVX2: u32 = 1 << 1;
    pub const AVX512F: u32 = 1 << 2;
    pub const AVX512VL: u32 = 1 << 3;
    pub const AVX512_VBMI: u32 = 1 << 4;
    pub const AVX512BW: u32 = 1 << 5;
    pub const ALL: u32 = 63;
    /// The sets that a processor can have, which pass (request 6): by AVX and AVX2, then by AVX512F
    /// with the three that need it.
    #[rustfmt::skip] // a line for each three that AVX512F comes with
    pub const SETS: [u32; 19] = [
        0, 1, 3,
        5, 7,
        13, 15,
        21, 23,
        29, 31,
        37, 39,
        45, 47,
        53, 55,
        61, 63,
    ];
}
