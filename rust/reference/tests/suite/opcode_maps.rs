//! Request 7: bits 2:0 of an EVEX prefix's P are the opcode map, and bit 3 alone is fixed there.

use crate::support::{refusal, varied_file, ALL, OPEN, SETS};
use reference::{address, build, decode, listing, run, step};
use reference::{Addressed, Built, Decoded, Listed, Ran, Stepped};

/// An instruction of each EVEX row, VPSHUFB's with either W, that all features accept.
const ACCEPTED: [&[u8]; 12] = [
    &[0x62, 0xF3, 0xFD, 0x48, 0x05, 0xCA, 0x05],
    &[0x62, 0xF2, 0xED, 0x48, 0x0D, 0xCB],
    &[0x62, 0xF2, 0x6D, 0x48, 0x8D, 0xCB],
    &[0x62, 0xF1, 0x6C, 0x48, 0x14, 0xCB],
    &[0x62, 0xF1, 0x7D, 0x48, 0x70, 0xCA, 0x1B],
    &[0x62, 0xF3, 0x7D, 0x48, 0x04, 0xCA, 0x1B],
    &[0x62, 0xF2, 0x6D, 0x48, 0x0C, 0xCB],
    &[0x62, 0xF1, 0x6C, 0x48, 0x15, 0xCB],
    &[0x62, 0xF1, 0xED, 0x48, 0x14, 0xCB],
    &[0x62, 0xF1, 0xED, 0x48, 0x15, 0xCB],
    &[0x62, 0xF2, 0x6D, 0x48, 0x00, 0xCB],
    &[0x62, 0xF2, 0xED, 0x48, 0x00, 0xCB],
];

/// The request's codes, with status and reason.
const EQUATIONS: [(&[u8], u32, u32); 7] = [
    (&[0x62, 0xF5, 0x7D, 0x48, 0x70, 0xCA, 0x1B], 3, 0),
    (&[0x62, 0xF9, 0x7D, 0x48, 0x70, 0xCA, 0x1B], 4, 1),
    (&[0x62, 0xF1, 0x79, 0x48, 0x70, 0xCA, 0x1B], 4, 1),
    (&[0x62, 0xF4, 0x7D, 0x48, 0x70, 0xCA, 0x1B], 3, 0),
    (&[0x62, 0xF0, 0x7D, 0x48, 0x70, 0xCA, 0x1B], 3, 0),
    (&[0x62, 0xFD, 0x7D, 0x48, 0x70, 0xCA, 0x1B], 4, 1),
    (&[0x62, 0xF5, 0x7D, 0x48], 2, 0),
];

#[test]
fn equations_of_the_request() {
    for (code, status, reason) in EQUATIONS {
        for features in SETS {
            let expected = refusal(status, reason);
            assert_eq!(decode(code, features), expected, "{code:02X?}");
        }
        assert_eq!(decode(code, ALL - 1), refusal(1, 0));
        assert_eq!(decode(code, ALL + 1), refusal(1, 0));
    }
}

/// An address and a step are refused as decoding is, and the file stays as it was.
#[test]
fn equations_by_address_and_step() {
    for (code, status, reason) in EQUATIONS {
        let refused = Addressed {
            status,
            reason,
            has_address: false,
            address: 0,
        };
        let found = address(code, ALL, &[7; 16], 9);
        assert_eq!(found, refused, "{code:02X?}");
        let mut file = varied_file();
        let stepped = step(code, &mut file, &OPEN, ALL, &[]);
        let length = 0;
        let refused = Stepped {
            status,
            length,
            reason,
        };
        assert_eq!(stepped, refused, "{code:02X?}");
        assert_eq!(file, varied_file(), "{code:02X?}");
    }
}

/// VUNPCKLPS xmm1, xmm2, xmm3, which is accepted.
const STEP: [u8; 4] = [0xC5, 0xE8, 0x14, 0xCB];

/// Behind an accepted step, a run stops with that step's file, and building leaves the byte map as it
/// was.
#[test]
fn equations_by_run_and_build() {
    let mut done = varied_file();
    let accepted = Stepped {
        status: 0,
        length: 4,
        reason: 0,
    };
    assert_eq!(step(&STEP, &mut done, &OPEN, ALL, &[]), accepted);
    assert_ne!(done, varied_file());
    for (code, status, reason) in EQUATIONS {
        let list = [&STEP, code].concat();
        let mut file = varied_file();
        let ran = run(&list, &mut file, &OPEN, ALL, 9);
        let (steps, place) = (1, 4);
        let stopped = Ran {
            steps,
            place,
            status,
            reason,
        };
        assert_eq!(ran, stopped, "{code:02X?}");
        assert_eq!(file, done, "{code:02X?}");
        let mut map = [9; 2_048];
        let built = build(&list, &OPEN, ALL, &mut map);
        let refused = Built {
            place,
            status,
            reason,
        };
        assert_eq!(built, refused, "{code:02X?}");
        assert_eq!(map, [9; 2_048], "{code:02X?}");
    }
}

/// A listing from the refused instruction on has its line, and leaves the bytes behind that as they
/// were.
#[test]
fn equations_by_listing() {
    for (code, status, reason) in EQUATIONS {
        let list = [&STEP, code].concat();
        let mut text = [9; 100];
        let listed = listing(&list, 4, &mut text);
        let answer = match status {
            4 => format!("4:{reason}"),
            _ => status.to_string(),
        };
        let line = format!("4\t0\t-\t0\t{answer}\n");
        let written = Listed {
            written: line.len() as u64,
            next: 4,
            status: 0,
            more: false,
        };
        assert_eq!(listed, written, "{code:02X?}");
        let (found, behind) = text.split_at(line.len());
        assert_eq!(found, line.as_bytes(), "{code:02X?}");
        assert!(behind.iter().all(|&byte| byte == 9), "{code:02X?}");
    }
}

/// The instruction under every value of P's four low bits and of Q bit 2, each with what it answers.
fn under_every_opcode_map(accepted: &[u8]) -> Vec<(Vec<u8>, Decoded)> {
    let own = accepted[1] & 0x07;
    let mut codes = Vec::new();
    for bits in 0..32_u8 {
        let mut code = accepted.to_vec();
        code[1] = (code[1] & 0xF0) | (bits & 0x0F);
        code[2] = (code[2] & !0x04) | (bits >> 4 << 2);
        let has_fixed_bits = bits & 0x08 == 0 && bits & 0x10 != 0;
        let expected = match (has_fixed_bits, bits & 0x07) {
            (false, _) => refusal(4, 1),
            (true, map) if map == own => decode(accepted, ALL),
            (true, _) => refusal(3, 0),
        };
        codes.push((code, expected));
    }
    codes
}

/// Register forms, and memory forms of as many bytes.
fn forms() -> Vec<Vec<u8>> {
    let mut forms = Vec::new();
    for code in ACCEPTED {
        let mut in_memory = code.to_vec();
        in_memory[5] = 0x08;
        forms.extend([code.to_vec(), in_memory]);
    }
    forms
}

#[test]
fn every_opcode_map_and_every_value_of_the_fixed_bits() {
    let mut counts = [0; 5];
    for accepted in forms() {
        for (code, expected) in under_every_opcode_map(&accepted) {
            assert_eq!(decode(&code, ALL), expected, "{code:02X?}");
            counts[expected.status as usize] += 1;
        }
    }
    // One of 32 is the row's own, and 24 have a wrong fixed bit.
    assert_eq!(counts, [24, 0, 0, 24 * 7, 24 * 24]);
}

/// Nothing is looked at before the opcode is there, and nothing but a row's own bytes behind it.
#[test]
fn short_bytes_under_every_opcode_map() {
    for accepted in forms() {
        for (code, whole) in under_every_opcode_map(&accepted) {
            check_cuts(&code, whole);
        }
    }
}

/// Cut at every length. The whole instruction decodes to `whole`.
fn check_cuts(code: &[u8], whole: Decoded) {
    for length in 0..code.len() {
        let expected = match (length, whole.status) {
            (0..5, _) | (_, 0) => refusal(2, 0),
            _ => whole,
        };
        let found = decode(&code[..length], ALL);
        assert_eq!(found, expected, "{length} bytes of {code:02X?}");
    }
}

/// R, X, B and R' stand above the opcode map and the fixed bit, and change neither.
#[test]
fn registers_above_the_opcode_map() {
    for p in 0..=u8::MAX {
        let code = [0x62, p, 0x6D, 0x48, 0x8D, 0xCB];
        let found = decode(&code, ALL);
        let above =
            |high: u8, low: u8| u32::from(!p >> high & 1) * 16 + u32::from(!p >> low & 1) * 8;
        match p & 0x0F {
            2 => {
                let registers = (above(4, 7) + 1, above(6, 5) + 3);
                assert_eq!((found.destination, found.third), registers, "{p:02X}");
            }
            0..8 => assert_eq!(found, refusal(3, 0), "{p:02X}"),
            _ => assert_eq!(found, refusal(4, 1), "{p:02X}"),
        }
    }
}
