//! Sizes and limits of the library. A buffer of another size is refused with status 1 (a text only if
//! it is smaller than [`TEXT_LEAST`]), a list of instructions above its limit with status 8.
//!
//! ```
//! use tarhuspo::limits::{CODE_LIMIT, FILE_SIZE, MASK_COUNT, MOST_STEPS};
//! use tarhuspo::{features, run};
//!
//! // vunpcklps xmm1, xmm2, xmm3: with 4 bytes, no instruction is shorter.
//! let mut code = [0xC5, 0xE8, 0x14, 0xCB].repeat(CODE_LIMIT / 4);
//! let (mut file, masks) = ([0; FILE_SIZE], [0; MASK_COUNT]);
//! let ran = run(&code, &mut file, &masks, features::ALL, MOST_STEPS);
//! assert_eq!((ran.steps, ran.place, ran.status), (4_096, 16_384, 0));
//!
//! code.push(0xC5);
//! assert_eq!(run(&code, &mut file, &masks, features::ALL, MOST_STEPS).status, 8);
//! assert_eq!(run(&code, &mut file[1..], &masks, features::ALL, MOST_STEPS).status, 1);
//! ```

/// Bytes of the register file: 32 registers of 64 bytes.
pub const FILE_SIZE: usize = 2_048;
/// Number of opmask registers.
pub const MASK_COUNT: usize = 8;
/// Number of general registers, which make up an address.
pub const GPR_COUNT: usize = 16;
/// Most bytes of a list of instructions.
pub const CODE_LIMIT: usize = 16_384;
/// A number of instructions that no list within [`CODE_LIMIT`] exceeds: each has at least 4 bytes.
pub const MOST_STEPS: u64 = 4_096;
/// Entries of a byte map, one for each byte of the register file.
pub const MAP_SIZE: usize = FILE_SIZE;
/// The entry of a byte map that stands for a zero byte.
pub const MAP_ZERO: u16 = 2_048;
/// Least bytes of the text of a listing. They hold the line of headings and one more, so that every
/// piece moves on.
pub const TEXT_LEAST: usize = 64;
/// Bytes of text that hold the whole listing of every list, in one piece: 24 of headings, and 27
/// for each of [`MOST_STEPS`] lines.
pub const TEXT_WHOLE: usize = 110_616;
