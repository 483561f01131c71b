//! A list of instructions on a register file.

use crate::ffi;

/// What a run gave.
#[repr(C)]
#[derive(Debug, Clone, Copy, PartialEq, Eq)]
pub struct Ran {
    /// Instructions that were carried out.
    pub steps: u64,
    /// Where in the code the next instruction starts, or the refused one.
    pub place: u64,
    /// 0 if the end was reached or the budget spent, else why the instruction at `place` was
    /// refused, or 1 or 8 with the two numbers 0; [`describe`](crate::describe) has each.
    pub status: u32,
    /// With status 4, which reserved field is wrong: one of [`reason`](crate::reason). Else 0.
    pub reason: u32,
}

// The proved library was compiled for this layout: two numbers of 8 bytes, two of 4, no padding.
const _: () = assert!(size_of::<Ran>() == 24 && align_of::<Ran>() == 8);

/// Carries out the instructions of `code`, at most `budget` of them, one after the other.
///
/// `file`, `masks` and `features` are those of [`step`](crate::step()). There is no memory operand,
/// so a memory form is refused with status 6. `code` has at most 16,384 bytes.
///
/// A run ends at the end of the code, at an instruction that is refused, or when the budget is
/// spent. The instructions before that have been carried out. No list needs a larger budget than
/// 4,096.
///
/// ```
/// use tarhuspo::limits::{FILE_SIZE, MASK_COUNT};
/// use tarhuspo::{features, run};
///
/// let (mut file, masks) = ([1; FILE_SIZE], [0; MASK_COUNT]);
/// // vunpcklps xmm1, xmm2, xmm3, then vpshufd xmm1, xmm1, 0x1b, then a byte that starts nothing.
/// let code = [0xC5, 0xE8, 0x14, 0xCB, 0xC5, 0xF9, 0x70, 0xC9, 0x1B, 0x90];
///
/// let ran = run(&code, &mut file, &masks, features::ALL, 4_096);
/// assert_eq!((ran.steps, ran.place, ran.status), (2, 9, 3));
///
/// // With the budget spent, the next instruction is not looked at.
/// let ran = run(&code, &mut file, &masks, features::ALL, 2);
/// assert_eq!((ran.steps, ran.place, ran.status), (2, 9, 0));
/// ```
///
/// A reserved field that is wrong is named:
///
/// ```
/// # use tarhuspo::limits::{FILE_SIZE, MASK_COUNT};
/// use tarhuspo::{features, reason, run};
///
/// # let (mut file, masks) = ([1; FILE_SIZE], [0; MASK_COUNT]);
/// // vunpcklps xmm1, xmm2, xmm3, then vperm2f128 with L 0.
/// let code = [0xC5, 0xE8, 0x14, 0xCB, 0xC4, 0xE3, 0x69, 0x06, 0xCB, 0x31];
/// let ran = run(&code, &mut file, &masks, features::ALL, 4_096);
/// assert_eq!((ran.place, ran.status, ran.reason), (4, 4, reason::WIDTH));
/// ```
pub fn run(code: &[u8], file: &mut [u8], masks: &[u64], features: u32, budget: u64) -> Ran {
    // SAFETY: a slice's pointer is non-null, aligned and valid for its length, and `file` overlaps
    // no other slice, because it is borrowed mutably. The library reads these slices, writes to
    // `file` alone and keeps no pointer.
    unsafe {
        ffi::tarhuspo_run(
            code.as_ptr(),
            code.len(),
            file.as_mut_ptr(),
            file.len(),
            masks.as_ptr(),
            masks.len(),
            features,
            budget,
        )
    }
}
