//! One instruction on a register file.

use crate::ffi;

/// What a step gave.
#[repr(C)]
#[derive(Debug, Clone, Copy, PartialEq, Eq)]
pub struct Stepped {
    /// 0 if the instruction was carried out, else 1 to 6; [`describe`](crate::describe) has each.
    pub status: u32,
    /// Length of the instruction in bytes, 0 if it was refused.
    pub length: u32,
    /// With status 4, which reserved field is wrong: one of [`reason`](crate::reason). Else 0.
    pub reason: u32,
}

// The proved library was compiled for this layout: 3 numbers of 4 bytes, no padding.
const _: () = assert!(size_of::<Stepped>() == 12 && align_of::<Stepped>() == 4);

/// Carries out the instruction at the start of `code` on the register file.
///
/// `file` has 2,048 bytes: byte i of register r is `file[64 * r + i]`, lowest byte first. `masks`
/// are the 8 opmasks; number 0 stands for no masking, so its content does not count. `memory` is
/// the memory operand, with exactly the bytes that the instruction reads, and empty for a register
/// form: [`decode`](crate::decode) tells how many. Other sizes are refused;
/// [`limits`](crate::limits) has them as constants. `features` are those of
/// [`decode`](crate::decode).
///
/// An accepted instruction changes the 64 bytes of its destination register and nothing else; those
/// above the vector width become 0. A refused one changes nothing.
///
/// ```
/// use tarhuspo::limits::{FILE_SIZE, MASK_COUNT};
/// use tarhuspo::{features, step};
///
/// let mut file = [0; FILE_SIZE];
/// file[128..144].copy_from_slice(&[0, 0, 0, 0, 1, 1, 1, 1, 2, 2, 2, 2, 3, 3, 3, 3]);
/// let masks = [u64::MAX; MASK_COUNT];
///
/// // vpshufd xmm1, xmm2, 0x1b reverses the four doublewords of a lane.
/// let code = [0xC5, 0xF9, 0x70, 0xCA, 0x1B];
/// let stepped = step(&code, &mut file, &masks, features::ALL, &[]);
/// assert_eq!((stepped.status, stepped.length), (0, 5));
/// assert_eq!(file[64..80], [3, 3, 3, 3, 2, 2, 2, 2, 1, 1, 1, 1, 0, 0, 0, 0]);
/// ```
///
/// The same with a memory operand, and then with one that has the wrong length:
///
/// ```
/// # use tarhuspo::limits::{FILE_SIZE, MASK_COUNT};
/// # use tarhuspo::{features, step};
/// # let (mut file, masks) = ([7; FILE_SIZE], [0; MASK_COUNT]);
/// // vpshufd zmm1, dword [memory]{1to16}, 0x00 reads 4 bytes.
/// let code = [0x62, 0xF1, 0x7D, 0x58, 0x70, 0x08, 0x00];
/// let stepped = step(&code, &mut file, &masks, features::ALL, &[5, 6, 7, 8]);
/// assert_eq!((stepped.status, stepped.length), (0, 7));
/// assert_eq!(file[64..128], [5, 6, 7, 8].repeat(16));
///
/// let before = file;
/// let stepped = step(&code, &mut file, &masks, features::ALL, &[5, 6, 7]);
/// assert_eq!((stepped.status, stepped.length), (6, 0));
/// assert_eq!(file, before);
/// ```
pub fn step(code: &[u8], file: &mut [u8], masks: &[u64], features: u32, memory: &[u8]) -> Stepped {
    // SAFETY: a slice's pointer is non-null, aligned and valid for its length, and `file` overlaps
    // no other slice, because it is borrowed mutably. The library reads these slices, writes to
    // `file` alone and keeps no pointer.
    unsafe {
        ffi::tarhuspo_step(
            code.as_ptr(),
            code.len(),
            file.as_mut_ptr(),
            file.len(),
            masks.as_ptr(),
            masks.len(),
            features,
            memory.as_ptr(),
            memory.len(),
        )
    }
}
