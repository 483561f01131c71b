//! What request 6 refuses: sets of features that no processor has.

/// AVX, and AVX512F with those that the request says need it: AVX512VL, AVX512_VBMI and AVX512BW.
const AVX: u32 = 1;
const AVX512F: u32 = 4;
const NEED_AVX512F: u32 = 8 + 16 + 32;

/// Whether a number that the feature limit lets pass answers 1 all the same: with any other bit but
/// without AVX, or with one of the three but without AVX512F.
pub fn no_processor_has(features: u32) -> bool {
    let lacks = |feature: u32| features & feature == 0;
    (features != 0 && lacks(AVX)) || (!lacks(NEED_AVX512F) && lacks(AVX512F))
}
