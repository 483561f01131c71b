//! Register files, a random number source and shared checks.

use reference::limits::feature::{AVX, AVX2, AVX512F};
use reference::limits::feature::{AVX512BW as BW, AVX512VL as VL, AVX512_VBMI as VBMI};
use reference::limits::{FILE_SIZE, REGISTER_SIZE};
use reference::{step, Decoded, Stepped};

pub const ALL: u32 = 63;
/// All features of document 01, which has no AVX512BW, and all features.
pub const EITHER: [u32; 2] = [31, ALL];
/// The sets of features that pass (request 6): none, AVX with or without AVX2, and AVX512F with each
/// of the three that need it.
#[rustfmt::skip] // without AVX2 and with it
pub const SETS: [u32; 19] = [
    0, AVX, AVX | AVX2,
    F, F | AVX2,
    F | VL, F | VL | AVX2,
    F | VBMI, F | VBMI | AVX2,
    F | VBMI | VL, F | VBMI | VL | AVX2,
    F | BW, F | BW | AVX2,
    F | BW | VL, F | BW | VL | AVX2,
    F | BW | VBMI, F | BW | VBMI | AVX2,
    F | BW | VBMI | VL, F | BW | VBMI | VL | AVX2,
];
const F: u32 = AVX | AVX512F;
/// Opmasks that let every element through.
pub const OPEN: [u64; 8] = [u64::MAX; 8];

/// A register file with as many different bytes as there are: each four registers hold every value
/// once, and no two registers hold the same bytes in the same order.
pub fn varied_file() -> Vec<u8> {
    (0..FILE_SIZE)
        .map(|place| ((place + 37 * (place / 256)) % 256) as u8)
        .collect()
}

pub fn register(file: &[u8], number: usize) -> &[u8] {
    &file[number * REGISTER_SIZE..(number + 1) * REGISTER_SIZE]
}

/// Elements of `size` bytes in the given order, followed by zeros up to a whole register.
pub fn picked(source: &[u8], size: usize, indices: &[usize]) -> Vec<u8> {
    let elements = indices.iter().map(|&j| &source[j * size..(j + 1) * size]);
    padded(elements.flatten().copied().collect())
}

/// Bytes followed by zeros up to a whole register.
pub fn padded(mut bytes: Vec<u8>) -> Vec<u8> {
    bytes.resize(REGISTER_SIZE, 0);
    bytes
}

/// What a step takes beside features and register file.
#[derive(Debug, Clone, Copy)]
pub struct Call<'a> {
    pub code: &'a [u8],
    pub masks: &'a [u64],
    pub memory: &'a [u8],
}

impl Call<'_> {
    /// A register form that is not masked.
    pub fn new(code: &[u8]) -> Call<'_> {
        Call {
            code,
            masks: &OPEN,
            memory: &[],
        }
    }
}

/// Steps from `start` under each of the features and checks all 2,048 bytes: one register has the
/// expected bytes, the others are as before.
pub fn check_step(call: Call, features: &[u32], start: &[u8], number: usize, expected: &[u8]) {
    let mut wanted = start.to_vec();
    wanted[number * REGISTER_SIZE..(number + 1) * REGISTER_SIZE].copy_from_slice(expected);
    let done = Stepped {
        status: 0,
        length: call.code.len() as u32,
        reason: 0,
    };
    for &features in features {
        let mut file = start.to_vec();
        let stepped = step(call.code, &mut file, call.masks, features, call.memory);
        assert_eq!(stepped, done, "{call:02X?}");
        assert_eq!(file, wanted, "{call:02X?}");
    }
}

/// A decoding that refuses. The reason is 0 but for status 4.
pub fn refusal(status: u32, reason: u32) -> Decoded {
    Decoded {
        status,
        reason,
        ..Decoded::default()
    }
}

/// A small random number source (splitmix64).
pub struct Random(pub u64);

impl Random {
    pub fn word(&mut self) -> u64 {
        self.0 = self.0.wrapping_add(0x9E37_79B9_7F4A_7C15);
        let mut word = self.0;
        word = (word ^ (word >> 30)).wrapping_mul(0xBF58_476D_1CE4_E5B9);
        word = (word ^ (word >> 27)).wrapping_mul(0x94D0_49BB_1331_11EB);
        word ^ (word >> 31)
    }

    pub fn below(&mut self, limit: usize) -> usize {
        (self.word() % limit as u64) as usize
    }

    pub fn byte(&mut self) -> u8 {
        self.word() as u8
    }

    pub fn flag(&mut self) -> bool {
        self.word() & 1 == 1
    }

    pub fn bytes(&mut self, count: usize) -> Vec<u8> {
        (0..count).map(|_| self.byte()).collect()
    }

    pub fn file(&mut self) -> Vec<u8> {
        self.bytes(FILE_SIZE)
    }

    pub fn masks(&mut self) -> [u64; 8] {
        std::array::from_fn(|_| self.word())
    }

    pub fn pick<T: Copy>(&mut self, choices: &[T]) -> T {
        choices[self.below(choices.len())]
    }
}
