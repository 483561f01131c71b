//! Byte maps: what a list of instructions does to every register file.
//!
//! A byte map has 2,048 entries, one for each byte of the file: the place in the old file that the
//! new byte comes from, or 2,048 for a zero.

use crate::ffi;

/// What building gave.
#[repr(C)]
#[derive(Debug, Clone, Copy, PartialEq, Eq)]
pub struct Built {
    /// The length of the code if it was accepted, else where the refused instruction starts, or 0
    /// for the statuses 1 and 8.
    pub place: u64,
    /// 0 if the map was written, else 1 to 5, 7 or 8; [`describe`](crate::describe) has each.
    pub status: u32,
    /// With status 4, which reserved field is wrong: one of [`reason`](crate::reason). Else 0.
    pub reason: u32,
}

// The proved library was compiled for this layout: a number of 8 bytes, two of 4, no padding.
const _: () = assert!(size_of::<Built>() == 16 && align_of::<Built>() == 8);

/// Writes the byte map of a list of instructions into `map`, whatever that held before.
///
/// Applying the map does to every register file what running `code` with the same `masks` and
/// `features` does; these are as for [`step`](crate::step()). `code` has at most 16,384 bytes.
/// Instructions with a memory operand, VPERMB, VPSHUFB, and VPERMILPD or VPERMILPS with its control
/// in a register are refused with status 7: what they move depends on more than code and opmasks. A
/// refusal changes no entry.
///
/// ```
/// use tarhuspo::limits::{FILE_SIZE, MAP_SIZE, MASK_COUNT};
/// use tarhuspo::{bytemap_apply, bytemap_build, features, run};
///
/// // vpshufd xmm1, xmm2, 0x1b
/// let code = [0xC5, 0xF9, 0x70, 0xCA, 0x1B];
/// let (mut map, masks) = ([0; MAP_SIZE], [0; MASK_COUNT]);
/// let built = bytemap_build(&code, &masks, features::ALL, &mut map);
/// assert_eq!((built.place, built.status), (5, 0));
/// // The last doubleword of register 2 comes first, and bytes above the width are zeroed.
/// assert_eq!((map[64], map[79], map[80]), (140, 131, 2_048));
///
/// let mut mapped: [u8; FILE_SIZE] = std::array::from_fn(|i| i as u8);
/// let mut stepped = mapped;
/// assert_eq!(bytemap_apply(&map, &mut mapped), 0);
/// assert_eq!(run(&code, &mut stepped, &masks, features::ALL, 4_096).status, 0);
/// assert_eq!(mapped, stepped);
/// ```
pub fn bytemap_build(code: &[u8], masks: &[u64], features: u32, map: &mut [u16]) -> Built {
    // SAFETY: a slice's pointer is non-null, aligned and valid for its length, and `map` overlaps
    // no other slice, because it is borrowed mutably. The library reads these slices, writes to
    // `map` alone and keeps no pointer.
    unsafe {
        ffi::tarhuspo_bytemap_build(
            code.as_ptr(),
            code.len(),
            masks.as_ptr(),
            masks.len(),
            features,
            map.as_mut_ptr(),
            map.len(),
        )
    }
}

/// Replaces each byte of the register file by the one that the map names, and gives the status: 0,
/// 1 for a wrong size, or 9 for an entry above 2,048. A refusal changes no byte.
///
/// ```
/// use tarhuspo::bytemap_apply;
/// use tarhuspo::limits::{FILE_SIZE, MAP_SIZE, MAP_ZERO};
///
/// let mut map: [u16; MAP_SIZE] = std::array::from_fn(|i| i as u16);
/// let mut file = [5; FILE_SIZE];
/// map[3] = MAP_ZERO;
/// assert_eq!(bytemap_apply(&map, &mut file), 0);
/// assert_eq!(file[2..5], [5, 0, 5]);
///
/// map[9] = MAP_ZERO + 1;
/// assert_eq!(bytemap_apply(&map, &mut file), 9);
/// ```
pub fn bytemap_apply(map: &[u16], file: &mut [u8]) -> u32 {
    // SAFETY: as in `bytemap_build`, with `file` as what is written to.
    unsafe { ffi::tarhuspo_bytemap_apply(map.as_ptr(), map.len(), file.as_mut_ptr(), file.len()) }
}

/// Writes into `out`, whatever that held before, the map that does what `first` and then `second`
/// do, and gives the status: 0, 1 for a wrong size, or 9 for an entry above 2,048 in `first` or
/// `second`. A refusal changes no entry.
///
/// ```
/// use tarhuspo::limits::{MAP_SIZE, MAP_ZERO};
/// use tarhuspo::bytemap_compose;
///
/// let same: [u16; MAP_SIZE] = std::array::from_fn(|i| i as u16);
/// let (mut first, mut second, mut both) = (same, same, same);
/// first[7] = 100;
/// second[0] = 7;
/// second[1] = MAP_ZERO;
/// assert_eq!(bytemap_compose(&first, &second, &mut both), 0);
/// assert_eq!((both[0], both[1], both[7]), (100, MAP_ZERO, 100));
/// ```
pub fn bytemap_compose(first: &[u16], second: &[u16], out: &mut [u16]) -> u32 {
    // SAFETY: as in `bytemap_build`, with `out` as what is written to.
    unsafe {
        ffi::tarhuspo_bytemap_compose(
            first.as_ptr(),
            first.len(),
            second.as_ptr(),
            second.len(),
            out.as_mut_ptr(),
            out.len(),
        )
    }
}
