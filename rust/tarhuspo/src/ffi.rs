//! The C functions of the static library, as `include/tarhuspo.h` declares them.
//!
//! Every pointer must be non-null, aligned and valid for its length, also where that is 0, and a
//! buffer that is written to must not overlap another.

use crate::{Built, Decoded, Ran, Stepped};

/// The struct of the header, where a yes or no is a number. [`crate::Addressed`] has it as a bool.
#[repr(C)]
pub struct Addressed {
    pub address: u64,
    pub status: u32,
    pub reason: u32,
    pub has_address: u32,
}

// The proved library was compiled for this layout: a number of 8 bytes, three of 4, and padding.
const _: () = assert!(size_of::<Addressed>() == 24 && align_of::<Addressed>() == 8);

/// The struct of the header, as above. [`crate::Listed`] has `more` as a bool.
#[repr(C)]
pub struct Listed {
    pub written: u64,
    pub next: u64,
    pub status: u32,
    pub more: u32,
}

// The proved library was compiled for this layout: two numbers of 8 bytes, two of 4, no padding.
const _: () = assert!(size_of::<Listed>() == 24 && align_of::<Listed>() == 8);

extern "C" {
    pub fn tarhuspo_decode(code: *const u8, code_len: usize, features: u32) -> Decoded;

    pub fn tarhuspo_address(
        code: *const u8,
        code_len: usize,
        features: u32,
        registers: *const u64,
        registers_len: usize,
        instruction_address: u64,
    ) -> Addressed;

    pub fn tarhuspo_step(
        code: *const u8,
        code_len: usize,
        file: *mut u8,
        file_len: usize,
        masks: *const u64,
        masks_len: usize,
        features: u32,
        memory: *const u8,
        memory_len: usize,
    ) -> Stepped;

    pub fn tarhuspo_run(
        code: *const u8,
        code_len: usize,
        file: *mut u8,
        file_len: usize,
        masks: *const u64,
        masks_len: usize,
        features: u32,
        budget: u64,
    ) -> Ran;

    pub fn tarhuspo_bytemap_build(
        code: *const u8,
        code_len: usize,
        masks: *const u64,
        masks_len: usize,
        features: u32,
        map: *mut u16,
        map_len: usize,
    ) -> Built;

    pub fn tarhuspo_bytemap_apply(
        map: *const u16,
        map_len: usize,
        file: *mut u8,
        file_len: usize,
    ) -> u32;

    pub fn tarhuspo_bytemap_compose(
        first: *const u16,
        first_len: usize,
        second: *const u16,
        second_len: usize,
        out: *mut u16,
        out_len: usize,
    ) -> u32;

    pub fn tarhuspo_listing(
        code: *const u8,
        code_len: usize,
        place: usize,
        text: *mut u8,
        text_len: usize,
    ) -> Listed;
}
