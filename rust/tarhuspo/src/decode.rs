//! Decoding of one instruction.

use crate::{ffi, mnemonic};

/// What decoding found. Every field but `status` and `reason` is 0 when `status` is not 0.
///
/// ```
/// use tarhuspo::{decode, features};
///
/// // vpshufd zmm1{k1}{z}, zmm2, 0x1b
/// let decoded = decode(&[0x62, 0xF1, 0x7D, 0xC9, 0x70, 0xCA, 0x1B], features::ALL);
/// assert_eq!((decoded.destination, decoded.third), (1, 2));
/// assert_eq!((decoded.mask, decoded.zeroing), (1, 1));
/// ```
#[repr(C)]
#[derive(Debug, Clone, Copy, PartialEq, Eq)]
pub struct Decoded {
    /// 0 if the instruction was accepted, else 1 to 5; [`describe`](crate::describe) has each.
    pub status: u32,
    /// Length of the instruction in bytes.
    pub length: u32,
    /// Bytes of memory that the instruction reads, 0 if the third operand is a register.
    pub memory: u32,
    /// Number of the mnemonic, from 1; [`mnemonic_name`](crate::mnemonic_name) has the names.
    pub mnemonic: u32,
    /// Vector width: 128, 256 or 512.
    pub bits: u32,
    /// 1 for an EVEX encoding, 0 for VEX.
    pub evex: u32,
    /// Destination register, 0 to 31.
    pub destination: u32,
    /// First source register, 0 where the form has none.
    pub first: u32,
    /// Register of the third operand, 0 if that is in memory.
    pub third: u32,
    /// Opmask register; 0 is no masking, as always under VEX.
    pub mask: u32,
    /// 1 if masked-off elements are zeroed, 0 if they are merged.
    pub zeroing: u32,
    /// 1 if the memory operand is one element, broadcast to all.
    pub broadcast: u32,
    /// 1 if the form has an immediate byte.
    pub has_immediate: u32,
    /// The immediate byte, 0 where the form has none.
    pub immediate: u32,
    /// With status 4, which reserved field is wrong: one of [`reason`](crate::reason). Else 0.
    pub reason: u32,
}

// The proved library was compiled for this layout: 15 numbers of 4 bytes, no padding.
const _: () = assert!(size_of::<Decoded>() == 60 && align_of::<Decoded>() == 4);

impl Decoded {
    /// Whether the instruction has a first source. Forms with an immediate permute their third
    /// operand alone, except for VPERM2F128, which picks from two.
    ///
    /// ```
    /// use tarhuspo::{decode, features};
    ///
    /// // vpermilps xmm1, xmm2, 0x1b, and vpermilps xmm1, xmm2, xmm3
    /// let immediate = decode(&[0xC4, 0xE3, 0x79, 0x04, 0xCA, 0x1B], features::ALL);
    /// let register = decode(&[0xC4, 0xE2, 0x69, 0x0C, 0xCB], features::ALL);
    /// assert_eq!(immediate.mnemonic, register.mnemonic);
    /// assert!(!immediate.has_first() && register.has_first());
    /// ```
    pub fn has_first(&self) -> bool {
        let accepted = self.status == 0;
        accepted && (self.has_immediate == 0 || self.mnemonic == mnemonic::VPERM2F128)
    }
}

/// Decodes the instruction at the start of `code` for a processor with the given `features`.
///
/// Bytes after the instruction are ignored, and `code` may have any length. `features` is a sum of
/// the constants in [`features`](crate::features), one that a processor can have: all but the
/// [`possible`](crate::features::possible) ones are refused with status 1.
///
/// ```
/// use tarhuspo::{decode, features};
///
/// let accepted = decode(&[0xC5, 0xE8, 0x14, 0xCB, 0x90], features::ALL);
/// assert_eq!((accepted.status, accepted.length), (0, 4));
///
/// let refused = decode(&[], features::ALL);
/// assert_eq!((refused.status, refused.length), (2, 0));
///
/// // AVX512VL without AVX512F, which no processor has: the code is not looked at.
/// assert_eq!(decode(&[], features::AVX | features::AVX512VL).status, 1);
/// ```
///
/// With status 4 comes the reserved field that is wrong:
///
/// ```
/// use tarhuspo::{decode, features, reason};
///
/// // vpshufd has no first source, so vvvv must be 1111b.
/// let refused = decode(&[0xC5, 0xE9, 0x70, 0xCA, 0x1B], features::ALL);
/// assert_eq!((refused.status, refused.reason), (4, reason::VVVV));
/// ```
///
/// Under EVEX bits 2 to 0 of the second byte are the map, and only bit 3 is reserved there:
///
/// ```
/// use tarhuspo::{decode, features, reason};
///
/// // vpshufd zmm1, zmm2, 0x1b with map 5, in which no supported instruction is, and with bit 3.
/// let mut code = [0x62, 0xF5, 0x7D, 0x48, 0x70, 0xCA, 0x1B];
/// assert_eq!(decode(&code, features::ALL).status, 3);
/// code[1] = 0xF9;
/// assert_eq!(decode(&code, features::ALL).reason, reason::FIXED_BITS);
/// ```
pub fn decode(code: &[u8], features: u32) -> Decoded {
    // SAFETY: a slice's pointer is non-null and valid for reads of its length, and the library
    // reads nothing else, writes nothing and keeps no pointer.
    unsafe { ffi::tarhuspo_decode(code.as_ptr(), code.len(), features) }
}
