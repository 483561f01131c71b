//! Exactly the listed encodings are accepted, with the right operands.

use crate::sample::Sample;
use crate::support::{refusal, Random, ALL, SETS};
use reference::{decode, reserved_field, Field};

fn status(code: &[u8]) -> u32 {
    decode(code, ALL).status
}

#[test]
fn decoding_gives_the_encoded_fields() {
    let mut random = Random(3);
    for _ in 0..50_000 {
        let sample = Sample::random(&mut random);
        let mut code = sample.encode();
        assert_eq!(decode(&code, ALL), sample.expected(), "{sample:?}");
        code.extend(random.bytes(3));
        assert_eq!(decode(&code, ALL), sample.expected(), "{sample:?}");
        assert_eq!(reserved_field(&code, ALL), None);
    }
}

#[test]
fn all_needed_features_and_no_others_are_needed() {
    let mut random = Random(4);
    for _ in 0..2_000 {
        let sample = Sample::random(&mut random);
        let code = sample.encode();
        for features in SETS {
            let enough = features & sample.needed() == sample.needed();
            let missing = refusal(5, 0);
            let expected = if enough { sample.expected() } else { missing };
            assert_eq!(decode(&code, features), expected, "{sample:?}");
        }
    }
}

/// The answer that the table gives for a VEX key; 3 is no row.
fn vex_answer(map: u8, pp: u8, opcode: u8, w: u8, l: u8) -> u32 {
    match (map, pp, opcode) {
        (3, 1, 0x04 | 0x05) | (2, 1, 0x0C | 0x0D) => 4 * u32::from(w),
        (1, 0 | 1, 0x14 | 0x15) | (1, 1, 0x70) | (2, 1, 0x00) => 0,
        (3, 1, 0x06) => 4 * u32::from(w == 1 || l == 0),
        _ => 3,
    }
}

#[test]
fn every_three_byte_vex_key() {
    for number in 0..32 * 4 * 2 * 2 * 256_u32 {
        let opcode = number as u8;
        let [map, rest] = [(number >> 8) as u8 & 31, (number >> 13) as u8];
        let [pp, w, l] = [rest & 3, (rest >> 2) & 1, (rest >> 3) & 1];
        let code = [
            0xC4,
            0xE0 | map,
            (w << 7) | 0x78 | (l << 2) | pp,
            opcode,
            0xC0,
            0,
        ];
        let expected = vex_answer(map, pp, opcode, w, l);
        assert_eq!(status(&code), expected, "{code:02X?}");
    }
}

#[test]
fn every_two_byte_vex_key() {
    for number in 0..=0xFFFF_u16 {
        let [opcode, p] = number.to_le_bytes();
        let code = [0xC5, p, opcode, 0xC0, 0];
        let vvvv_wrong = p & 0x78 != 0x78 && opcode == 0x70;
        let row = vex_answer(1, p & 3, opcode, 0, (p >> 2) & 1);
        let expected = if row == 0 && vvvv_wrong { 4 } else { row };
        assert_eq!(status(&code), expected, "{code:02X?}");
    }
}

#[test]
fn every_evex_key() {
    for number in 0..8 * 4 * 2 * 4 * 256_u32 {
        let opcode = number as u8;
        let [map, rest] = [(number >> 8) as u8 & 7, (number >> 11) as u8];
        let [pp, w, width] = [rest & 3, (rest >> 2) & 1, (rest >> 3) & 3];
        let code = [
            0x62,
            0xF0 | map,
            (w << 7) | 0x7C | pp,
            (width << 5) | 8,
            opcode,
            0xC0,
            0,
        ];
        let reserved_width = 4 * u32::from(width == 3);
        let expected = match (map, pp, opcode, w) {
            (3, 1, 0x05, 1) | (2, 1, 0x0D, 1) | (1, 1, 0x14 | 0x15, 1) => reserved_width,
            (3, 1, 0x04, 0) | (2, 1, 0x0C, 0) | (1, 0, 0x14 | 0x15, 0) => reserved_width,
            (2, 1, 0x8D, 0) | (1, 1, 0x70, 0) | (2, 1, 0x00, _) => reserved_width,
            _ => 3,
        };
        assert_eq!(status(&code), expected, "{code:02X?}");
    }
}

#[test]
fn every_value_of_the_fixed_bits() {
    for bits in 0..4_u8 {
        let p = 0xF1 | ((bits & 1) << 3);
        let q = 0x79 | ((bits & 2) << 1);
        let code = [0x62, p, q, 0x48, 0x70, 0xCA, 0x1B];
        let field = if bits == 2 {
            None
        } else {
            Some(Field::FixedBits)
        };
        assert_eq!(reserved_field(&code, ALL), field, "{code:02X?}");
        assert_eq!(status(&code), if bits == 2 { 0 } else { 4 });
    }
}

#[test]
fn first_bytes_that_start_no_prefix() {
    for first in 0..=255 {
        let expected = if [0xC4, 0xC5, 0x62].contains(&first) {
            2
        } else {
            3
        };
        assert_eq!(status(&[first]), expected, "{first:02X}");
    }
    assert_eq!(status(&[0x66, 0xC5, 0xF9, 0x70, 0xCA, 0x1B]), 3);
    assert_eq!(status(&[0x48, 0xC5, 0xF9, 0x70, 0xCA, 0x1B]), 3);
}

/// Lengths of VUNPCKLPS (no immediate) by ModRM's mod and r/m, and the SIB's base.
#[test]
fn lengths_by_modrm_and_sib() {
    let expected = |modrm: u8, sib: u8| match (modrm >> 6, modrm & 7, sib & 7) {
        (3, _, _) => 4,
        (0, 4, 5) => 9,
        (0, 4, _) => 5,
        (0, 5, _) => 8,
        (0, _, _) => 4,
        (1, 4, _) => 6,
        (1, _, _) => 5,
        (2, 4, _) => 9,
        _ => 8,
    };
    for number in 0..=0xFFFF_u16 {
        let [modrm, sib] = number.to_le_bytes();
        let code = [0xC5, 0xE8, 0x14, modrm, sib, 0, 0, 0, 0, 0, 0, 0];
        let length = expected(modrm, sib);
        assert_eq!(decode(&code, ALL).length, length, "{code:02X?}");
        assert_eq!(status(&code[..length as usize]), 0);
        assert_eq!(status(&code[..length as usize - 1]), 2);
    }
}

#[test]
fn b_of_the_prefix_does_not_change_the_displacement() {
    for p in [0xE1, 0xC1] {
        let code = [0xC4, p, 0x68, 0x14, 0x05, 0, 0, 0, 0];
        assert_eq!(decode(&code, ALL).length, 9);
    }
}

#[test]
fn x_of_a_vex_register_form_is_ignored() {
    let with_x = decode(&[0xC4, 0xA1, 0x79, 0x70, 0xCA, 0x1B], ALL);
    let without = decode(&[0xC4, 0xE1, 0x79, 0x70, 0xCA, 0x1B], ALL);
    assert_eq!(with_x, without);
    assert_eq!(with_x.third, 2);
}

#[test]
fn w_is_ignored_where_any_will_do() {
    for q in [0x79, 0xF9] {
        assert_eq!(status(&[0xC4, 0xE1, q, 0x70, 0xCA, 0x1B]), 0);
    }
    for q in [0x68, 0xE8, 0x69, 0xE9] {
        assert_eq!(status(&[0xC4, 0xE1, q, 0x14, 0xCB]), 0);
        assert_eq!(status(&[0xC4, 0xE1, q, 0x15, 0xCB]), 0);
    }
    for q in [0x69, 0xE9] {
        assert_eq!(status(&[0xC4, 0xE2, q, 0x00, 0xCB]), 0);
    }
}

#[test]
fn v_prime_counts_where_there_is_no_first_source() {
    let code = [0x62, 0xF1, 0x7D, 0x40, 0x70, 0xCA, 0x1B];
    assert_eq!(reserved_field(&code, ALL), Some(Field::Vvvv));
    let code = [0x62, 0xF1, 0x6C, 0x40, 0x14, 0xCB];
    assert_eq!(decode(&code, ALL).first, 18);
}
