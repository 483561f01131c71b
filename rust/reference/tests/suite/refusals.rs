//! The refusals of a step, and which comes first.

use crate::support::{refusal, varied_file, ALL, OPEN};
use reference::{decode, reserved_field, step, Field, Stepped};

const VPSHUFD: [u8; 5] = [0xC5, 0xF9, 0x70, 0xCA, 0x1B];
const BROADCAST: [u8; 7] = [0x62, 0xF1, 0x7D, 0x58, 0x70, 0x08, 0x00];

/// Steps on a file of the given size and checks that a refusal changed nothing.
fn step_sized(code: &[u8], size: usize, masks: &[u64], features: u32, memory: &[u8]) -> u32 {
    let mut file = varied_file();
    file.resize(size, 0x5A);
    let before = file.clone();
    let stepped = step(code, &mut file, masks, features, memory);
    if stepped.status != 0 {
        assert_eq!(stepped.length, 0);
        assert_eq!(file, before);
    }
    stepped.status
}

fn step_status(code: &[u8], features: u32, memory: &[u8]) -> u32 {
    step_sized(code, 2_048, &OPEN, features, memory)
}

#[test]
fn sizes_and_features_come_first() {
    for code in [&VPSHUFD[..], &[], &[0x90], &BROADCAST] {
        for size in [0, 2_047, 2_049] {
            assert_eq!(step_sized(code, size, &OPEN, ALL, &[]), 1);
        }
        for count in [0, 7, 9] {
            assert_eq!(step_sized(code, 2_048, &vec![0; count], ALL, &[]), 1);
        }
        for features in [2, 4, 9, 32, 33, 62, 64, 65, 1 << 31, u32::MAX] {
            assert_eq!(step_status(code, features, &[]), 1);
            assert_eq!(decode(code, features).status, 1);
            assert_eq!(reserved_field(code, features), None);
        }
    }
    assert_eq!(step_status(&VPSHUFD, ALL, &[]), 0);
    // AVX512BW is a feature, but not without AVX and AVX512F.
    assert_eq!(step_status(&VPSHUFD, 33, &[]), 1);
    assert_eq!(step_status(&VPSHUFD, 36, &[]), 1);
    assert_eq!(step_status(&VPSHUFD, 37, &[]), 0);
}

#[test]
fn short_prefixes_answer_2() {
    assert_eq!(step_status(&[], ALL, &[]), 2);
    assert_eq!(step_status(&[], 0, &[1]), 2);
    for code in [
        &VPSHUFD[..],
        &BROADCAST,
        &[0xC4, 0xE3, 0x7D, 0x05, 0xCA, 0x05],
    ] {
        for length in 0..code.len() {
            assert_eq!(step_status(&code[..length], 0, &[9]), 2);
        }
    }
}

#[test]
fn fixed_bits_wait_for_the_opcode_and_come_before_the_row() {
    let code = [0x62, 0xFD, 0x79, 0x48, 0xFF];
    for length in 1..5 {
        assert_eq!(step_status(&code[..length], 0, &[]), 2);
    }
    assert_eq!(step_status(&code, 0, &[]), 4);
    assert_eq!(reserved_field(&code, 0), Some(Field::FixedBits));
}

#[test]
fn no_row_comes_before_missing_bytes() {
    assert_eq!(step_status(&[0xC5, 0xF9, 0x71], 0, &[]), 3);
    assert_eq!(step_status(&[0xC4, 0xE3, 0x7D, 0x07], 0, &[]), 3);
    assert_eq!(step_status(&[0x62, 0xF1, 0x7D, 0x48, 0x71], 0, &[]), 3);
    assert_eq!(step_status(&[0x62, 0xF5, 0x7D, 0x48, 0x70], 0, &[]), 3);
    // EVEX with the other W, VPERMB under VEX, VPERM2F128 under EVEX.
    assert_eq!(step_status(&[0x62, 0xF1, 0xFD, 0x48, 0x70], 0, &[]), 3);
    assert_eq!(step_status(&[0x62, 0xF3, 0x7D, 0x48, 0x05], 0, &[]), 3);
    assert_eq!(step_status(&[0x62, 0xF3, 0xFD, 0x48, 0x04], 0, &[]), 3);
    assert_eq!(step_status(&[0x62, 0xF2, 0xED, 0x48, 0x0C], 0, &[]), 3);
    assert_eq!(step_status(&[0x62, 0xF1, 0xEC, 0x48, 0x15], 0, &[]), 3);
    assert_eq!(step_status(&[0x62, 0xF1, 0x6D, 0x48, 0x15], 0, &[]), 3);
    assert_eq!(step_status(&[0xC4, 0xE2, 0x6D, 0x8D], 0, &[]), 3);
    assert_eq!(step_status(&[0x62, 0xF3, 0x6D, 0x28, 0x06], 0, &[]), 3);
}

#[test]
fn missing_bytes_come_before_reserved_fields_and_features() {
    // W 1; L 0; width 3, V', vvvv, b and z all wrong.
    let vex_w = [0xC4, 0xE3, 0xFD, 0x05, 0xCA, 0x05];
    let vex_l = [0xC4, 0xE3, 0x69, 0x06, 0xCB, 0x31];
    let evex = [0x62, 0xF1, 0x05, 0xF0, 0x70, 0xCA, 0x1B];
    for code in [&vex_w[..], &vex_l, &evex] {
        for length in 0..code.len() {
            assert_eq!(step_status(&code[..length], 0, &[7]), 2);
        }
        assert_eq!(step_status(code, 0, &[7]), 4);
    }
}

#[test]
fn reserved_fields_in_their_order() {
    let cases: [(&[u8], Field); 14] = [
        (
            &[0x62, 0xF9, 0x01, 0xF0, 0x70, 0xCA, 0x1B],
            Field::FixedBits,
        ),
        (&[0xC4, 0xE3, 0x85, 0x05, 0xCA, 0x05], Field::W),
        (&[0xC4, 0xE3, 0xE9, 0x06, 0xCB, 0x31], Field::W),
        (&[0xC4, 0xE3, 0x69, 0x06, 0xCB, 0x31], Field::Width),
        (&[0x62, 0xF1, 0x05, 0xF0, 0x70, 0xCA, 0x1B], Field::Width),
        (&[0x62, 0xF1, 0x05, 0xD0, 0x70, 0xCA, 0x1B], Field::Vvvv),
        (
            &[0x62, 0xF1, 0x7D, 0xD8, 0x70, 0xCA, 0x1B],
            Field::Broadcast,
        ),
        (&[0x62, 0xF2, 0x6D, 0xD8, 0x8D, 0x08], Field::Broadcast),
        (&[0x62, 0xF1, 0x7D, 0xC8, 0x70, 0xCA, 0x1B], Field::Zeroing),
        // VPERMILPS with W 1 and vvvv, with V', with vvvv; VPSHUFB with b and z.
        (&[0xC4, 0xE3, 0xE9, 0x04, 0xCA, 0x1B], Field::W),
        (&[0xC4, 0xE2, 0xE9, 0x0C, 0xCB], Field::W),
        (&[0x62, 0xF3, 0x7D, 0x40, 0x04, 0xCA, 0x1B], Field::Vvvv),
        (&[0xC4, 0xE3, 0x69, 0x04, 0xCA, 0x1B], Field::Vvvv),
        (&[0x62, 0xF2, 0x6D, 0xD8, 0x00, 0x08], Field::Broadcast),
    ];
    for (code, field) in cases {
        for features in [0, ALL] {
            assert_eq!(reserved_field(code, features), Some(field), "{code:02X?}");
            assert_eq!(step_status(code, features, &[1]), 4);
            assert_eq!(decode(code, features), refusal(4, field.number()));
        }
    }
}

#[test]
fn features_come_before_memory() {
    assert_eq!(step_status(&VPSHUFD, 0, &[1]), 5);
    assert_eq!(step_status(&VPSHUFD, ALL, &[1]), 6);
    assert_eq!(step_status(&BROADCAST, 0, &[]), 5);
    assert_eq!(step_status(&BROADCAST, ALL, &[]), 6);
    // 256-bit VEX VPSHUFD needs AVX2, and AVX alone is too little.
    let wide = [0xC5, 0xFD, 0x70, 0xCA, 0x1B];
    assert_eq!(step_status(&wide, ALL - 2, &[]), 5);
    assert_eq!(step_status(&wide, 1, &[]), 5);
    assert_eq!(step_status(&wide, 3, &[]), 0);
    // 512-bit VPERMB needs AVX512_VBMI, and nothing but what that comes with.
    let vpermb = [0x62, 0xF2, 0x6D, 0x48, 0x8D, 0xCB];
    assert_eq!(step_status(&vpermb, ALL - 16, &[]), 5);
    assert_eq!(step_status(&vpermb, 21, &[]), 0);
    // 512-bit VPSHUFB needs AVX512BW in the same way, the 256-bit VEX form AVX2.
    let vpshufb = [0x62, 0xF2, 0x6D, 0x48, 0x00, 0xCB];
    assert_eq!(step_status(&vpshufb, ALL - 32, &[]), 5);
    assert_eq!(step_status(&vpshufb, 37, &[]), 0);
    let wide = [0xC4, 0xE2, 0x6D, 0x00, 0xCB];
    assert_eq!(step_status(&wide, ALL - 2, &[]), 5);
    assert_eq!(step_status(&wide, 1, &[]), 5);
    assert_eq!(step_status(&wide, 3, &[]), 0);
}

#[test]
fn memory_one_less_and_one_more() {
    let cases: [(&[u8], usize); 9] = [
        (&VPSHUFD, 0),
        (&BROADCAST, 4),
        (&[0x62, 0xF3, 0xFD, 0x58, 0x05, 0x08, 0x00], 8),
        (&[0xC5, 0xF9, 0x70, 0x08, 0x1B], 16),
        (&[0xC4, 0xE3, 0x6D, 0x06, 0x08, 0x31], 32),
        (&[0x62, 0xF2, 0x6D, 0x48, 0x8D, 0x08], 64),
        // VPERMILPS and VUNPCKHPD with one element, VPSHUFB of 256 bits.
        (&[0x62, 0xF2, 0x6D, 0x58, 0x0C, 0x08], 4),
        (&[0x62, 0xF1, 0xED, 0x58, 0x15, 0x08], 8),
        (&[0xC4, 0xE2, 0x6D, 0x00, 0x08], 32),
    ];
    for (code, wanted) in cases {
        assert_eq!(decode(code, ALL).memory as usize, wanted);
        for given in 0..=80 {
            let expected = if given == wanted { 0 } else { 6 };
            assert_eq!(step_status(code, ALL, &vec![3; given]), expected);
        }
    }
}

#[test]
fn memory_is_wanted_even_under_an_empty_mask() {
    // VPSHUFD zmm1{k1}, m512.
    let code = [0x62, 0xF1, 0x7D, 0x49, 0x70, 0x08, 0x00];
    assert_eq!(step_sized(&code, 2_048, &[0; 8], ALL, &[]), 6);
    assert_eq!(step_sized(&code, 2_048, &[0; 8], ALL, &[1; 64]), 0);
}

#[test]
fn later_bytes_do_not_count() {
    let mut code = VPSHUFD.to_vec();
    code.resize(20_000, 0xFF);
    let mut file = varied_file();
    let stepped = step(&code, &mut file, &OPEN, ALL, &[]);
    let done = Stepped {
        status: 0,
        length: 5,
        reason: 0,
    };
    assert_eq!(stepped, done);
}
