//! The operation texts of the manual pages, bit positions and all, against the step.

use crate::sample::{Kind, Operand, Sample};
use crate::support::{Random, ALL};
use reference::{step, Stepped};

/// Page 000: control bit of the immediate, destination, source for 0, source for 1.
const VPERMILPD: [[usize; 4]; 8] = [
    [0, 0, 0, 64],
    [1, 64, 0, 64],
    [2, 128, 128, 192],
    [3, 192, 128, 192],
    [4, 256, 256, 320],
    [5, 320, 256, 320],
    [6, 384, 384, 448],
    [7, 448, 384, 448],
];

/// Page 000, variable versions: the control bit of each quadword.
const VPERMILPD_CONTROL: [usize; 8] = [1, 65, 129, 193, 257, 321, 385, 449];

/// Page 002: destination, source 1 or 2, bit of the source.
const VUNPCKLPS: [[usize; 3]; 16] = [
    [0, 1, 0],
    [32, 2, 0],
    [64, 1, 32],
    [96, 2, 32],
    [128, 1, 128],
    [160, 2, 128],
    [192, 1, 160],
    [224, 2, 160],
    [256, 1, 256],
    [288, 2, 256],
    [320, 1, 288],
    [352, 2, 288],
    [384, 1, 384],
    [416, 2, 384],
    [448, 1, 416],
    [480, 2, 416],
];

/// Page 003: destination, lowest bit of the source's lane, lowest bit of the order field.
const VPSHUFD: [[usize; 3]; 16] = [
    [0, 0, 0],
    [32, 0, 2],
    [64, 0, 4],
    [96, 0, 6],
    [128, 128, 0],
    [160, 128, 2],
    [192, 128, 4],
    [224, 128, 6],
    [256, 256, 0],
    [288, 256, 2],
    [320, 256, 4],
    [352, 256, 6],
    [384, 384, 0],
    [416, 384, 2],
    [448, 384, 4],
    [480, 384, 6],
];

/// VPERMILPS, variable versions: destination, lowest bit of the source's lane, lowest of the two
/// control bits.
const VPERMILPS_CONTROL: [[usize; 3]; 16] = [
    [0, 0, 0],
    [32, 0, 32],
    [64, 0, 64],
    [96, 0, 96],
    [128, 128, 128],
    [160, 128, 160],
    [192, 128, 192],
    [224, 128, 224],
    [256, 256, 256],
    [288, 256, 288],
    [320, 256, 320],
    [352, 256, 352],
    [384, 384, 384],
    [416, 384, 416],
    [448, 384, 448],
    [480, 384, 480],
];

/// VUNPCKHPS: destination, source 1 or 2, bit of the source.
const VUNPCKHPS: [[usize; 3]; 16] = [
    [0, 1, 64],
    [32, 2, 64],
    [64, 1, 96],
    [96, 2, 96],
    [128, 1, 192],
    [160, 2, 192],
    [192, 1, 224],
    [224, 2, 224],
    [256, 1, 320],
    [288, 2, 320],
    [320, 1, 352],
    [352, 2, 352],
    [384, 1, 448],
    [416, 2, 448],
    [448, 1, 480],
    [480, 2, 480],
];

/// VUNPCKLPD: destination, source 1 or 2, bit of the source.
const VUNPCKLPD: [[usize; 3]; 8] = [
    [0, 1, 0],
    [64, 2, 0],
    [128, 1, 128],
    [192, 2, 128],
    [256, 1, 256],
    [320, 2, 256],
    [384, 1, 384],
    [448, 2, 384],
];

/// VUNPCKHPD: destination, source 1 or 2, bit of the source.
const VUNPCKHPD: [[usize; 3]; 8] = [
    [0, 1, 64],
    [64, 2, 64],
    [128, 1, 192],
    [192, 2, 192],
    [256, 1, 320],
    [320, 2, 320],
    [384, 1, 448],
    [448, 2, 448],
];

/// A 512-bit register, addressed by bit.
#[derive(Clone, Copy)]
struct Register([u8; 64]);

impl Register {
    fn of(file: &[u8], number: u8) -> Register {
        let start = 64 * usize::from(number);
        Register(file[start..start + 64].try_into().unwrap())
    }

    fn bit(&self, index: usize) -> usize {
        usize::from(self.0[index / 8] >> (index % 8)) & 1
    }

    /// DEST[to+bits-1:to] <- SRC[from+bits-1:from]
    fn copy(&mut self, to: usize, source: &Register, from: usize, bits: usize) {
        for j in 0..bits / 8 {
            self.0[to / 8 + j] = source.0[from / 8 + j];
        }
    }
}

/// TMP_SRC2: the third operand, a broadcast element repeated.
fn third(sample: &Sample, file: &[u8], memory: &[u8]) -> Register {
    match sample.third {
        Operand::Register(number) => Register::of(file, number),
        Operand::Memory(..) => Register(std::array::from_fn(|i| memory[i % memory.len()])),
    }
}

/// TMP_DEST at full width; the bits above VL are dropped by `write`.
fn operate(sample: &Sample, first: &Register, third: &Register) -> Register {
    let immediate = usize::from(sample.immediate);
    match sample.kind {
        Kind::VpermilpdImmediate => vpermilpd(third, |j| (immediate >> j) & 1),
        Kind::VpermilpdRegister => vpermilpd(first, |j| third.bit(VPERMILPD_CONTROL[j])),
        Kind::VpermilpsRegister => vpermilps(first, third),
        // The imm8 forms of VPERMILPS select as VPSHUFD orders.
        Kind::VpermilpsImmediate | Kind::Vpshufd => vpshufd(immediate, third),
        Kind::Vpermb => vpermb(sample, first, third),
        Kind::Vpshufb => vpshufb(first, third),
        Kind::Vunpcklps => interleave(&VUNPCKLPS, first, third),
        Kind::Vunpckhps => interleave(&VUNPCKHPS, first, third),
        Kind::Vunpcklpd => interleave(&VUNPCKLPD, first, third),
        Kind::Vunpckhpd => interleave(&VUNPCKHPD, first, third),
        Kind::Vperm2f128 => vperm2f128(immediate, first, third),
    }
}

/// Quadword j by its control bit.
fn vpermilpd(source: &Register, control: impl Fn(usize) -> usize) -> Register {
    let mut result = Register([0; 64]);
    for [j, to, low, high] in VPERMILPD {
        let from = if control(j) == 0 { low } else { high };
        result.copy(to, source, from, 64);
    }
    result
}

fn vpermilps(source: &Register, control: &Register) -> Register {
    let mut result = Register([0; 64]);
    for [to, lane, bit] in VPERMILPS_CONTROL {
        let pick = control.bit(bit) + 2 * control.bit(bit + 1);
        result.copy(to, source, lane + 32 * pick, 32);
    }
    result
}

fn vpshufd(immediate: usize, source: &Register) -> Register {
    let mut result = Register([0; 64]);
    for [to, lane, order] in VPSHUFD {
        result.copy(to, source, lane + 32 * ((immediate >> order) & 3), 32);
    }
    result
}

/// A table of the unpacking instructions, which fills the register.
fn interleave(table: &[[usize; 3]], first: &Register, third: &Register) -> Register {
    let mut result = Register([0; 64]);
    for &[to, source, from] in table {
        let source = if source == 1 { first } else { third };
        result.copy(to, source, from, 512 / table.len());
    }
    result
}

/// VPSHUFB: bit 7 of byte j of SRC2 clears, else its bits 3:0 and the lane of j are the index.
fn vpshufb(first: &Register, third: &Register) -> Register {
    let mut result = Register([0; 64]);
    for j in (0..64).filter(|j| third.bit(8 * j + 7) == 0) {
        let index: usize = (0..4).map(|k| third.bit(8 * j + k) << k).sum();
        result.copy(8 * j, first, 8 * (index + (j & 0x30)), 8);
    }
    result
}

/// Page 001: bits n:0 of byte j of SRC1 are the index, with n of 3, 4, 5.
fn vpermb(sample: &Sample, first: &Register, third: &Register) -> Register {
    let n = 3 + usize::from(sample.width);
    let mut result = Register([0; 64]);
    for j in 0..sample.bytes() {
        let id: usize = (0..=n).map(|k| first.bit(j * 8 + k) << k).sum();
        result.copy(8 * j, third, 8 * id, 8);
    }
    result
}

/// Page 004, with document 01's reading of bit 7: it clears bits 255:128, and the rest always is.
fn vperm2f128(immediate: usize, first: &Register, third: &Register) -> Register {
    let mut result = Register([0; 64]);
    let sources = [(first, 0), (first, 128), (third, 0), (third, 128)];
    let (low, low_from) = sources[immediate & 3];
    let (high, high_from) = sources[(immediate >> 4) & 3];
    let zero = Register([0; 64]);
    result.copy(0, low, low_from, 128);
    result.copy(128, high, high_from, 128);
    if immediate & 8 != 0 {
        result.copy(0, &zero, 0, 128);
    }
    if immediate & 128 != 0 {
        result.copy(128, &zero, 0, 128);
    }
    result
}

/// The loop over k1 and the clearing above VL, at the end of every operation text.
fn write(sample: &Sample, masks: &[u64; 8], result: &Register, destination: &mut Register) {
    let bits = 8 * sample.kind.element();
    for j in 0..8 * sample.bytes() / bits {
        let no_writemask = sample.mask == 0;
        if no_writemask || masks[usize::from(sample.mask)] & (1 << j) != 0 {
            destination.copy(j * bits, result, j * bits, bits);
        } else if sample.zeroing {
            destination.copy(j * bits, &Register([0; 64]), 0, bits);
        }
    }
    destination.0[sample.bytes()..].fill(0);
}

fn model(sample: &Sample, file: &[u8], masks: &[u64; 8], memory: &[u8]) -> Vec<u8> {
    let first = Register::of(file, sample.first);
    let result = operate(sample, &first, &third(sample, file, memory));
    let mut destination = Register::of(file, sample.destination);
    write(sample, masks, &result, &mut destination);
    let start = 64 * usize::from(sample.destination);
    let mut after = file.to_vec();
    after[start..start + 64].copy_from_slice(&destination.0);
    after
}

#[test]
fn steps_move_what_the_manual_says() {
    let mut random = Random(1);
    for _ in 0..20_000 {
        let sample = Sample::random(&mut random);
        let code = sample.encode();
        let masks = random.masks();
        let memory = random.bytes(sample.memory());
        let start = random.file();
        let mut file = start.clone();
        let stepped = step(&code, &mut file, &masks, ALL, &memory);
        let done = Stepped {
            status: 0,
            length: code.len() as u32,
            reason: 0,
        };
        assert_eq!(stepped, done, "{sample:?}");
        assert!(
            file == model(&sample, &start, &masks, &memory),
            "{sample:?}"
        );
    }
}

#[test]
fn a_destination_may_be_a_source() {
    let mut random = Random(2);
    for _ in 0..5_000 {
        let mut sample = Sample::mappable(&mut random);
        sample.third = Operand::Register(sample.destination);
        if random.flag() {
            sample.first = sample.destination;
        }
        let masks = random.masks();
        let start = random.file();
        let mut file = start.clone();
        step(&sample.encode(), &mut file, &masks, ALL, &[]);
        assert!(file == model(&sample, &start, &masks, &[]), "{sample:?}");
    }
}
