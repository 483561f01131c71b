//! Every row of document 01's table of cases, under its features and under all. Answer 4 has the
//! number that request 3 gives the field in the row.

use crate::support::{
    check_step, padded, picked, refusal, register, varied_file, Call, EITHER, OPEN,
};
use reference::{decode, reserved_field, step, Decoded, Field, Stepped};

fn refused(code: &[u8], status: u32, reason: u32) {
    let expected = Stepped {
        status,
        length: 0,
        reason,
    };
    for features in EITHER {
        assert_eq!(decode(code, features), refusal(status, reason));
        let field = reserved_field(code, features);
        assert_eq!(field.map_or(0, Field::number), reason);
        let mut file = varied_file();
        let stepped = step(code, &mut file, &OPEN, features, &[]);
        assert_eq!(stepped, expected);
        assert_eq!(file, varied_file());
    }
}

fn decodes(code: &[u8], expected: Decoded) {
    for features in EITHER {
        assert_eq!(decode(code, features), expected);
    }
}

/// A step on the varied file.
fn moves(call: Call, number: usize, expected: &[u8]) {
    check_step(call, &EITHER, &varied_file(), number, expected);
}

#[test]
fn vpshufd_reverses_doublewords() {
    let code = [0xC5, 0xF9, 0x70, 0xCA, 0x1B];
    let expected = Decoded {
        length: 5,
        mnemonic: 4,
        bits: 128,
        destination: 1,
        third: 2,
        has_immediate: 1,
        immediate: 0x1B,
        ..Decoded::default()
    };
    decodes(&code, expected);
    let source = varied_file();
    let moved = picked(register(&source, 2), 4, &[3, 2, 1, 0]);
    moves(Call::new(&code), 1, &moved);
}

#[test]
fn vpshufd_without_its_immediate() {
    refused(&[0xC5, 0xF9, 0x70, 0xCA], 2, 0);
}

#[test]
fn vpshufd_with_vvvv() {
    refused(&[0xC5, 0xE9, 0x70, 0xCA, 0x1B], 4, 4);
}

#[test]
fn vpshufd_with_zeroing_mask() {
    let code = [0x62, 0xF1, 0x7D, 0xC9, 0x70, 0xCA, 0x1B];
    let expected = Decoded {
        length: 7,
        mnemonic: 4,
        bits: 512,
        evex: 1,
        destination: 1,
        third: 2,
        mask: 1,
        zeroing: 1,
        has_immediate: 1,
        immediate: 0x1B,
        ..Decoded::default()
    };
    decodes(&code, expected);
    let mut masks = OPEN;
    masks[1] = 0xFFFF_FFFF_FFFF_5AF1;
    let source = varied_file();
    let order = [3, 2, 1, 0, 7, 6, 5, 4, 11, 10, 9, 8, 15, 14, 13, 12];
    let mut moved = picked(register(&source, 2), 4, &order);
    for cleared in [1, 2, 3, 8, 10, 13, 15] {
        moved[4 * cleared..4 * cleared + 4].fill(0);
    }
    let call = Call {
        masks: &masks,
        ..Call::new(&code)
    };
    moves(call, 1, &moved);
}

#[test]
fn vpshufd_with_zeroing_and_mask_0() {
    let code = [0x62, 0xF1, 0x7D, 0xC8, 0x70, 0xCA, 0x1B];
    refused(&code, 4, 6);
}

#[test]
fn vpshufd_with_width_3() {
    let code = [0x62, 0xF1, 0x7D, 0x68, 0x70, 0xCA, 0x1B];
    refused(&code, 4, 3);
}

#[test]
fn vpshufd_with_broadcast_memory() {
    let code = [0x62, 0xF1, 0x7D, 0x58, 0x70, 0x08, 0x00];
    let expected = Decoded {
        length: 7,
        memory: 4,
        mnemonic: 4,
        bits: 512,
        evex: 1,
        destination: 1,
        broadcast: 1,
        has_immediate: 1,
        ..Decoded::default()
    };
    decodes(&code, expected);
    let memory = [0xA1, 0xB2, 0xC3, 0xD4];
    let call = Call {
        memory: &memory,
        ..Call::new(&code)
    };
    moves(call, 1, &memory.repeat(16));
}

#[test]
fn vpshufd_with_broadcast_register() {
    let code = [0x62, 0xF1, 0x7D, 0x58, 0x70, 0xCA, 0x1B];
    refused(&code, 4, 5);
}

#[test]
fn vpshufd_with_high_registers() {
    let code = [0x62, 0x81, 0x7D, 0x48, 0x70, 0xCA, 0x1B];
    let expected = Decoded {
        length: 7,
        mnemonic: 4,
        bits: 512,
        evex: 1,
        destination: 17,
        third: 26,
        has_immediate: 1,
        immediate: 0x1B,
        ..Decoded::default()
    };
    decodes(&code, expected);
    let source = varied_file();
    let order = [3, 2, 1, 0, 7, 6, 5, 4, 11, 10, 9, 8, 15, 14, 13, 12];
    let moved = picked(register(&source, 26), 4, &order);
    moves(Call::new(&code), 17, &moved);
}

#[test]
fn vpermilpd_with_immediate() {
    let code = [0xC4, 0xE3, 0x7D, 0x05, 0xCA, 0x05];
    let expected = Decoded {
        length: 6,
        mnemonic: 1,
        bits: 256,
        destination: 1,
        third: 2,
        has_immediate: 1,
        immediate: 5,
        ..Decoded::default()
    };
    decodes(&code, expected);
    let source = varied_file();
    let moved = picked(register(&source, 2), 8, &[1, 0, 3, 2]);
    moves(Call::new(&code), 1, &moved);
}

#[test]
fn vperm2f128_with_l_0() {
    let code = [0xC4, 0xE3, 0x69, 0x06, 0xCB, 0x31];
    refused(&code, 4, 3);
}

#[test]
fn vpermb_with_broadcast() {
    let code = [0x62, 0xF2, 0x6D, 0x58, 0x8D, 0x08];
    refused(&code, 4, 5);
}

#[test]
fn vpermilpd_with_register_control() {
    let code = [0xC4, 0xE2, 0x69, 0x0D, 0xCB];
    let expected = Decoded {
        length: 5,
        mnemonic: 1,
        bits: 128,
        destination: 1,
        first: 2,
        third: 3,
        ..Decoded::default()
    };
    decodes(&code, expected);
    for (controls, order) in [([2, 1], [1, 0]), ([1, 2], [0, 1]), ([3, 0xFD], [1, 0])] {
        let mut source = varied_file();
        source[3 * 64] = controls[0];
        source[3 * 64 + 8] = controls[1];
        let moved = picked(register(&source, 2), 8, &order);
        check_step(Call::new(&code), &EITHER, &source, 1, &moved);
    }
}

#[test]
fn vunpcklps_interleaves() {
    let code = [0xC5, 0xE8, 0x14, 0xCB];
    let expected = Decoded {
        length: 4,
        mnemonic: 3,
        bits: 128,
        destination: 1,
        first: 2,
        third: 3,
        ..Decoded::default()
    };
    decodes(&code, expected);
    let source = varied_file();
    let (first, third) = (register(&source, 2), register(&source, 3));
    let moved = [&first[0..4], &third[0..4], &first[4..8], &third[4..8]].concat();
    moves(Call::new(&code), 1, &padded(moved));
}

#[test]
fn vpshufd_with_sib_and_displacement() {
    let code = [0xC5, 0xF9, 0x70, 0x44, 0x88, 0x10, 0x1B];
    let expected = Decoded {
        length: 7,
        memory: 16,
        mnemonic: 4,
        bits: 128,
        has_immediate: 1,
        immediate: 0x1B,
        ..Decoded::default()
    };
    decodes(&code, expected);
    let memory: Vec<u8> = (101..117).collect();
    let moved = picked(&memory, 4, &[3, 2, 1, 0]);
    let call = Call {
        memory: &memory,
        ..Call::new(&code)
    };
    moves(call, 0, &moved);
}

#[test]
fn vperm2f128_with_both_halves_cleared() {
    let code = [0xC4, 0xE3, 0x6D, 0x06, 0xCB, 0x88];
    let expected = Decoded {
        length: 6,
        mnemonic: 5,
        bits: 256,
        destination: 1,
        first: 2,
        third: 3,
        has_immediate: 1,
        immediate: 0x88,
        ..Decoded::default()
    };
    decodes(&code, expected);
    moves(Call::new(&code), 1, &[0; 64]);
}
