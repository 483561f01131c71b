//! The addresses of request 4, worked out by hand.

use crate::sample::{Operand, Sample};
use crate::support::{refusal, Random, ALL};
use reference::{address, decode, Addressed, Decoded};

/// Register n holds n + 1 times this, so that every sum tells which registers are in it.
const UNIT: u64 = 0x0001_0000_0000;

fn registers() -> [u64; 16] {
    std::array::from_fn(|n| (n as u64 + 1) * UNIT)
}

/// What register n adds to an address.
fn register(n: u64) -> u64 {
    (n + 1) * UNIT
}

fn at(address: u64) -> Addressed {
    Addressed {
        status: 0,
        reason: 0,
        has_address: true,
        address,
    }
}

fn refused(status: u32, reason: u32) -> Addressed {
    Addressed {
        status,
        reason,
        ..Addressed::default()
    }
}

/// The address under the registers above, for an instruction at 0x400000.
fn addressed(code: &[u8]) -> Addressed {
    address(code, ALL, &registers(), 0x40_0000)
}

fn points_to(code: &[u8], expected: u64) {
    assert_eq!(addressed(code), at(expected), "{code:02X?}");
}

/// vpshufd zmm1, [rax + displacement], 0x1b, and the same with ymm1 and xmm1: the width counts.
#[test]
fn a_byte_under_evex_counts_vectors() {
    let displacements: [(u8, [i64; 3]); 5] = [
        (0x80, [-8_192, -4_096, -2_048]),
        (0xFF, [-64, -32, -16]),
        (0x7F, [8_128, 4_064, 2_032]),
        (0x01, [64, 32, 16]),
        (0x00, [0, 0, 0]),
    ];
    for (byte, expected) in displacements {
        for (s, distance) in [0x48, 0x28, 0x08].into_iter().zip(expected) {
            let code = [0x62, 0xF1, 0x7D, s, 0x70, 0x48, byte, 0x1B];
            points_to(&code, register(0).wrapping_add_signed(distance));
        }
    }
}

/// vpshufd ymm1, [rax + displacement], 0x1b
#[test]
fn a_byte_under_vex_counts_bytes() {
    for (byte, distance) in [(0x80, -128), (0xFF, -1), (0x7F, 127), (0x01, 1), (0x00, 0)] {
        let expected = register(0).wrapping_add_signed(distance);
        points_to(&[0xC5, 0xFD, 0x70, 0x48, byte, 0x1B], expected);
        points_to(&[0xC4, 0xE1, 0x7D, 0x70, 0x48, byte, 0x1B], expected);
    }
}

/// vpshufd zmm1, dword [rax + displacement]{1to16}, 0x1b, then vpermilpd zmm1, zmm2, qword
/// [rax + displacement]{1to8}. The width does not count.
#[test]
fn a_byte_under_evex_with_b_counts_elements() {
    for s in [0x58, 0x38, 0x18] {
        for (byte, doublewords) in [(0x80, -512), (0xFF, -4), (0x7F, 508)] {
            let expected = register(0).wrapping_add_signed(doublewords);
            points_to(&[0x62, 0xF1, 0x7D, s, 0x70, 0x48, byte, 0x1B], expected);
            let expected = register(0).wrapping_add_signed(2 * doublewords);
            points_to(&[0x62, 0xF2, 0xED, s, 0x0D, 0x48, byte], expected);
        }
    }
}

/// vpshufd [rax + displacement] of four bytes, under VEX, EVEX, and EVEX with b.
#[test]
fn four_bytes_are_never_multiplied() {
    let displacements: [([u8; 4], i64); 5] = [
        ([0x80, 0x00, 0x00, 0x00], 128),
        ([0x80, 0xFF, 0xFF, 0xFF], -128),
        ([0xFF, 0xFF, 0xFF, 0xFF], -1),
        ([0xFF, 0xFF, 0xFF, 0x7F], 0x7FFF_FFFF),
        ([0x00, 0x00, 0x00, 0x80], -0x8000_0000),
    ];
    let prefixes: [&[u8]; 3] = [
        &[0xC5, 0xFD],
        &[0x62, 0xF1, 0x7D, 0x48],
        &[0x62, 0xF1, 0x7D, 0x58],
    ];
    for (bytes, distance) in displacements {
        for prefix in prefixes {
            let code = [prefix, &[0x70, 0x88], &bytes, &[0x1B]].concat();
            points_to(&code, register(0).wrapping_add_signed(distance));
        }
    }
}

/// vunpcklps xmm1, xmm2, [rm], with each r/m that is a base, and B 0 and 1. Without a displacement
/// r/m 4 and 5 mean something else.
#[test]
fn bases_without_a_sib() {
    for rm in [0, 1, 2, 3, 6, 7] {
        points_to(&[0xC5, 0xE8, 0x14, 0x08 | rm], register(rm.into()));
        let low = [0xC4, 0xE1, 0x68, 0x14, 0x08 | rm];
        points_to(&low, register(rm.into()));
        let high = [0xC4, 0xC1, 0x68, 0x14, 0x08 | rm];
        points_to(&high, register(u64::from(rm) + 8));
    }
    // rbp and r13 need a displacement. Under EVEX it counts vectors.
    points_to(&[0xC4, 0xE1, 0x68, 0x14, 0x4D, 0x02], register(5) + 2);
    points_to(&[0xC4, 0xC1, 0x68, 0x14, 0x4D, 0x02], register(13) + 2);
    let evex = [0x62, 0xD1, 0x6C, 0x48, 0x14, 0x4D, 0x02];
    points_to(&evex, register(13) + 128);
    let four = [0x62, 0xD1, 0x6C, 0x48, 0x14, 0x8D, 0x02, 0, 0, 0];
    points_to(&four, register(13) + 2);
}

/// vunpcklps xmm1, xmm2, [base + index * scale] by all values of the SIB, X and B.
#[test]
fn every_sib_byte_with_every_x_and_b() {
    for number in 0..256 * 4_u32 {
        let (sib, x, b) = (number as u8, (number >> 8) as u8 & 1, (number >> 9) as u8);
        let p = 0x81 | (1 - x) << 6 | (1 - b) << 5;
        let index = match (x, sib >> 3 & 7) {
            (0, 4) => 0,
            (x, low) => register(u64::from(8 * x + low)) << (sib >> 6),
        };
        let base = register(u64::from(8 * b + (sib & 7)));
        // mod 1, then mod 0.
        points_to(&[0xC4, p, 0x68, 0x14, 0x4C, sib, 3], base + index + 3);
        let mut code = vec![0xC4, p, 0x68, 0x14, 0x0C, sib];
        if sib & 7 == 5 {
            code.extend([3, 0, 0, 0]);
            points_to(&code, index + 3);
        } else {
            points_to(&code, base + index);
        }
    }
}

/// Index 4 with X 0 is none, whatever the scale is; with X 1 it is r12.
#[test]
fn index_4_is_none_or_r12() {
    for scale in 0..4 {
        // [rax] with a SIB, and [rsp]
        let sib = scale << 6 | 0x20;
        points_to(&[0xC5, 0xE8, 0x14, 0x0C, sib], register(0));
        points_to(&[0xC5, 0xE8, 0x14, 0x0C, sib | 4], register(4));
        points_to(&[0xC4, 0xE1, 0x68, 0x14, 0x0C, sib], register(0));
        let expected = register(0) + (register(12) << scale);
        points_to(&[0xC4, 0xA1, 0x68, 0x14, 0x0C, sib], expected);
        points_to(&[0x62, 0xB1, 0x6C, 0x48, 0x14, 0x0C, sib], expected);
    }
    // One register as base and index: [r12 + r12 * 8], and [rsp], whose index is none.
    points_to(&[0xC4, 0x81, 0x68, 0x14, 0x0C, 0xE4], 9 * register(12));
    points_to(&[0xC4, 0xE1, 0x68, 0x14, 0x0C, 0xE4], register(4));
}

/// Relative to the next instruction: 0x400000, the length, and 0x10 or -0x10. B does not count.
#[test]
fn rip_relative() {
    let near: [u8; 4] = [0x10, 0, 0, 0];
    let before: [u8; 4] = [0xF0, 0xFF, 0xFF, 0xFF];
    // vunpcklps, then vpshufd with its immediate: C5, C4 with B 0 and 1, 62 with B 0 and 1.
    let cases: [(&[u8], &[u8], u64); 8] = [
        (&[0xC5, 0xE8, 0x14, 0x0D], &[], 8),
        (&[0xC4, 0xE1, 0x68, 0x14, 0x0D], &[], 9),
        (&[0xC4, 0xC1, 0x68, 0x14, 0x0D], &[], 9),
        (&[0x62, 0xF1, 0x6C, 0x48, 0x14, 0x0D], &[], 10),
        (&[0xC5, 0xF9, 0x70, 0x0D], &[0x1B], 9),
        (&[0xC4, 0xC1, 0x79, 0x70, 0x0D], &[0x1B], 10),
        (&[0x62, 0xF1, 0x7D, 0x48, 0x70, 0x0D], &[0x1B], 11),
        (&[0x62, 0xD1, 0x7D, 0x58, 0x70, 0x0D], &[0x1B], 11),
    ];
    for (front, immediate, length) in cases {
        let code = [front, &near, immediate].concat();
        assert_eq!(code.len() as u64, length);
        points_to(&code, 0x40_0000 + length + 0x10);
        let code = [front, &before, immediate].concat();
        points_to(&code, 0x40_0000 + length - 0x10);
        // Bytes behind the instruction are no part of its length.
        points_to(&[&code[..], &[1, 2, 3]].concat(), 0x40_0000 + length - 0x10);
    }
}

/// mod 0 with base 5 has no base, and with no index it is a number alone. B does not count.
#[test]
fn no_base() {
    for p in [0xE1, 0xC1] {
        let absolute = |d: [u8; 4]| [&[0xC4, p, 0x68, 0x14, 0x0C, 0x25][..], &d].concat();
        points_to(&absolute([0x78, 0x56, 0x34, 0x12]), 0x1234_5678);
        points_to(&absolute([0, 0, 0, 0x80]), 0xFFFF_FFFF_8000_0000);
        // [rcx * 8 - 16]
        let scaled = [0xC4, p, 0x68, 0x14, 0x0C, 0xCD, 0xF0, 0xFF, 0xFF, 0xFF];
        points_to(&scaled, 8 * register(1) - 16);
        // With a displacement by mod, base 5 is rbp or r13.
        let base = if p == 0xE1 { 5 } else { 13 };
        let with_byte = [0xC4, p, 0x68, 0x14, 0x4C, 0xCD, 0xF0];
        points_to(&with_byte, register(base) + 8 * register(1) - 16);
    }
    // [r12 * 2 + 1]: X counts, under EVEX too.
    points_to(
        &[0xC4, 0xA1, 0x68, 0x14, 0x0C, 0x65, 1, 0, 0, 0],
        2 * register(12) + 1,
    );
    points_to(
        &[0x62, 0xB1, 0x6C, 0x58, 0x14, 0x0C, 0x65, 1, 0, 0, 0],
        2 * register(12) + 1,
    );
}

/// Sums wrap in both directions.
#[test]
fn sums_are_modulo_2_to_the_64() {
    let mut registers = [0; 16];
    // vunpcklps zmm1, zmm2, [rax + rcx * 8 + displacement], of 7 bytes and a byte of displacement
    let code = |byte| [0x62, 0xF1, 0x6C, 0x48, 0x14, 0x4C, 0xC8, byte];
    assert_eq!(
        address(&code(0xFF), ALL, &registers, 9),
        at(0xFFFF_FFFF_FFFF_FFC0)
    );
    registers[0] = u64::MAX;
    assert_eq!(address(&code(0x01), ALL, &registers, 9), at(63));
    // 8 times 2^61 is a whole turn, and 8 times all ones is 8 before the end.
    registers[1] = 1 << 61;
    assert_eq!(address(&code(0x01), ALL, &registers, 9), at(63));
    registers[1] = u64::MAX;
    assert_eq!(address(&code(0x01), ALL, &registers, 9), at(55));
    assert_eq!(address(&code(0x00), ALL, &registers, 9), at(u64::MAX - 8));

    // vunpcklps xmm1, xmm2, [rip + displacement], of 8 bytes
    let relative = |byte, sign| [0xC5, 0xE8, 0x14, 0x0D, byte, sign, sign, sign];
    let near = relative(0x10, 0);
    assert_eq!(address(&near, ALL, &registers, u64::MAX - 3), at(0x14));
    let before = relative(0xF0, 0xFF);
    assert_eq!(
        address(&before, ALL, &registers, 4),
        at(0xFFFF_FFFF_FFFF_FFFC)
    );
    assert_eq!(address(&before, ALL, &registers, 8), at(0));
}

/// vunpcklps xmm9, xmm2, [rcx]: R and vvvv are other registers' bits. The two bytes have no X or B.
#[test]
fn two_byte_vex_has_neither_x_nor_b() {
    for p in [0xE8, 0x68, 0x80, 0x00] {
        points_to(&[0xC5, p, 0x14, 0x09], register(1));
        points_to(&[0xC5, p, 0x14, 0x4C, 0xA1, 0x08], register(1) + 8);
        let indexed = register(7) + 2 * register(6) + 8;
        points_to(&[0xC5, p, 0x14, 0x4C, 0x77, 0x08], indexed);
    }
}

/// R', V', z and the mask are no part of an address under EVEX either.
#[test]
fn other_evex_fields_do_not_count() {
    let expected = register(3) + 4 * register(12) - 64;
    for (p, q, s) in [
        (0xB1, 0x6C, 0x48),
        (0x21, 0x6C, 0x40),
        (0xA1, 0x04, 0xC7),
        (0x31, 0x7C, 0x41),
    ] {
        points_to(&[0x62, p, q, s, 0x14, 0x4C, 0xA3, 0xFF], expected);
    }
}

#[test]
fn register_forms_have_no_address() {
    let none = Addressed::default();
    for code in [
        &[0xC5, 0xF9, 0x70, 0xCA, 0x1B][..],
        &[0xC4, 0xE3, 0x6D, 0x06, 0xCB, 0x31],
        &[0x62, 0x81, 0x7D, 0x48, 0x70, 0xCA, 0x1B],
    ] {
        assert_eq!(addressed(code), none, "{code:02X?}");
        assert_eq!(address(code, ALL, &[u64::MAX; 16], u64::MAX), none);
    }
}

#[test]
fn sixteen_registers_and_possible_features_come_first() {
    let memory_form: &[u8] = &[0xC5, 0xE8, 0x14, 0x08];
    let codes = [memory_form, &[], &[0x90], &[0x62], &[0xC5, 0xE9, 0x70, 8]];
    for code in codes {
        for count in [0, 1, 8, 15, 17, 32] {
            let registers = vec![7; count];
            assert_eq!(address(code, ALL, &registers, 0), refused(1, 0));
            assert_eq!(address(code, 62, &registers, 0), refused(1, 0));
            assert_eq!(address(code, 64, &registers, 0), refused(1, 0));
        }
        for features in [2, 4, 9, 62, 64, 65, 1 << 31, u32::MAX] {
            assert_eq!(address(code, features, &registers(), 0), refused(1, 0));
        }
    }
    assert_eq!(address(memory_form, ALL, &[7; 16], 0), at(7));
}

#[test]
fn refusals_are_those_of_decoding() {
    let cases: [(&[u8], u32, u32, u32); 12] = [
        (&[], ALL, 2, 0),
        (&[0x90], ALL, 3, 0),
        (&[0xC5, 0xE8, 0x14], ALL, 2, 0),
        // A missing SIB, a missing displacement, a missing immediate.
        (&[0xC5, 0xE8, 0x14, 0x0C], ALL, 2, 0),
        (&[0xC5, 0xE8, 0x14, 0x0D, 1, 2, 3], ALL, 2, 0),
        (&[0xC5, 0xF9, 0x70, 0x48, 0x01], ALL, 2, 0),
        (&[0x62, 0xF9, 0x6C, 0x48, 0x14], ALL, 4, 1),
        (&[0xC4, 0xE3, 0xFD, 0x05, 0x08, 0x05], ALL, 4, 2),
        (&[0xC4, 0xE3, 0x69, 0x06, 0x08, 0x31], ALL, 4, 3),
        (&[0xC5, 0xE9, 0x70, 0x08, 0x1B], 0, 4, 4),
        (&[0x62, 0xF2, 0x6D, 0x58, 0x8D, 0x08], 0, 4, 5),
        (&[0x62, 0xF1, 0x7D, 0xC8, 0x70, 0x08, 0x1B], 0, 4, 6),
    ];
    for (code, features, status, reason) in cases {
        let found = address(code, features, &registers(), 0);
        assert_eq!(found, refused(status, reason), "{code:02X?}");
        assert_eq!(decode(code, features), refusal(status, reason));
    }
    let wide: &[u8] = &[0xC5, 0xFD, 0x70, 0x08, 0x1B];
    assert_eq!(address(wide, 1, &registers(), 0), refused(5, 0));
    assert_eq!(address(wide, 3, &registers(), 0), at(register(0)));
}

/// What decoding says of accepted instructions: whether there is an operand in memory.
#[test]
fn every_memory_form_has_an_address() {
    let mut random = Random(20);
    for _ in 0..20_000 {
        let sample = Sample::random(&mut random);
        let code = sample.encode();
        let found = addressed(&code);
        let is_memory = matches!(sample.third, Operand::Memory(..));
        assert_eq!((found.status, found.has_address), (0, is_memory));
        assert!(is_memory || found.address == 0, "{sample:?}");
        let Decoded { memory, .. } = decode(&code, ALL);
        assert_eq!(found.has_address, memory > 0, "{sample:?}");
    }
}
