//! Why status 4 was given: the number of the reserved field of the encoding that is wrong.
//!
//! Where several fields are wrong, it is the first in the order of these constants. With every
//! status but 4 the reason is 0.
//!
//! ```
//! use tarhuspo::{decode, features, reason};
//!
//! // vpshufd zmm1{z}, zmm2, 0x1b: zeroing without an opmask.
//! let mut code = [0x62, 0xF1, 0x7D, 0xC8, 0x70, 0xCA, 0x1B];
//! assert_eq!(decode(&code, features::ALL).reason, reason::Z);
//!
//! // The same with L'L 11b, which comes before it.
//! code[3] = 0xE8;
//! assert_eq!(decode(&code, features::ALL).reason, reason::WIDTH);
//! ```

/// EVEX: bit 3 of the second byte, and bit 2 of the third.
pub const FIXED_BITS: u32 = 1;
/// VEX.W, in a form that has W 0 alone.
pub const W: u32 = 2;
/// The vector width: L'L 11b under EVEX, or L 0 of VPERM2F128.
pub const WIDTH: u32 = 3;
/// vvvv, or V' under EVEX, in a form without a first source.
pub const VVVV: u32 = 4;
/// EVEX.b, with a register as third operand or on an instruction without broadcast.
pub const B: u32 = 5;
/// EVEX.z, without an opmask.
pub const Z: u32 = 6;

/// One sentence on the field that a reason number names, and what it must be.
///
/// ```
/// use tarhuspo::{decode, describe_reason, features};
///
/// // vpermilpd ymm1, ymm2, 0x05 with W 1, which is for EVEX.
/// let decoded = decode(&[0xC4, 0xE3, 0xFD, 0x05, 0xCA, 0x05], features::ALL);
/// assert_eq!(decoded.status, 4);
/// assert_eq!(
///     describe_reason(decoded.reason),
///     "W must be 0 in the VEX form of this instruction."
/// );
/// ```
pub fn describe_reason(reason: u32) -> &'static str {
    match reason {
        0 => "There is no reason: only status 4 comes with one.",
        FIXED_BITS => {
            "The EVEX fixed bits must be 0 (bit 3 of the second byte) and 1 (bit 2 of the third)."
        }
        W => "W must be 0 in the VEX form of this instruction.",
        WIDTH => {
            "The width must be one that exists: EVEX has none for L'L 11b, and VPERM2F128 has L 1 \
             alone."
        }
        VVVV => {
            "vvvv must be 1111b: this form has no first source, and under EVEX V' must be 1 too."
        }
        B => {
            "b must be 0 with a register as third operand, and on VPERMB and VPSHUFB, which have \
             no broadcast."
        }
        Z => "z must be 0 without an opmask (aaa 000b).",
        _ => "This is not a reason number of the library.",
    }
}

#[cfg(test)]
mod tests {
    use super::*;

    #[test]
    fn each_reason_has_its_own_sentence() {
        let sentences: Vec<_> = (0..=7).map(describe_reason).collect();
        for (i, sentence) in sentences.iter().enumerate() {
            assert!(sentence.ends_with('.') && !sentence.contains('\n'));
            assert!(
                !sentences[..i].contains(sentence),
                "reason {i} repeats a sentence"
            );
        }
        assert_eq!(describe_reason(u32::MAX), describe_reason(7));
    }

    #[test]
    fn reasons_are_numbered_in_the_order_of_refusal() {
        assert_eq!([FIXED_BITS, W, WIDTH, VVVV, B, Z], [1, 2, 3, 4, 5, 6]);
    }
}
