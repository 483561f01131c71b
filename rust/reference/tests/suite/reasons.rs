//! Answer 4 with the reasons of request 3: every set of fields that can be wrong together.

use crate::support::{refusal, varied_file, ALL, OPEN, SETS};
use reference::{build, decode, run, step, Field};

/// The fields with their numbers, in the request's order.
const NUMBERS: [(Field, u32); 6] = [
    (Field::FixedBits, 1),
    (Field::W, 2),
    (Field::Width, 3),
    (Field::Vvvv, 4),
    (Field::Broadcast, 5),
    (Field::Zeroing, 6),
];

#[test]
fn numbers_follow_the_order() {
    for (field, number) in NUMBERS {
        assert_eq!(field.number(), number);
    }
    assert!(NUMBERS.is_sorted());
}

/// An accepted instruction, and for each field that can be wrong in it: its number, a byte, and the
/// bits of that byte that make it wrong when flipped.
type Spoiled = (&'static [u8], &'static [(u32, usize, u8)]);

const SPOILED: [Spoiled; 7] = [
    // vpshufd zmm1, zmm2, 0x1b: fixed bits, width 3, vvvv, b, z
    (
        &[0x62, 0xF1, 0x7D, 0x48, 0x70, 0xCA, 0x1B],
        &[
            (1, 1, 0x08),
            (3, 3, 0x20),
            (4, 2, 0x08),
            (5, 3, 0x10),
            (6, 3, 0x80),
        ],
    ),
    // The same with the other fixed bit, and V' in the place of vvvv.
    (
        &[0x62, 0xF1, 0x7D, 0x48, 0x70, 0xCA, 0x1B],
        &[
            (1, 2, 0x04),
            (3, 3, 0x20),
            (4, 3, 0x08),
            (5, 3, 0x10),
            (6, 3, 0x80),
        ],
    ),
    // vpermb zmm1, zmm2, [rax] and vpshufb zmm1, zmm2, [rax], this with another map beside P bit 3
    (
        &[0x62, 0xF2, 0x6D, 0x48, 0x8D, 0x08],
        &[(1, 1, 0x08), (3, 3, 0x20), (5, 3, 0x10), (6, 3, 0x80)],
    ),
    (
        &[0x62, 0xF2, 0x6D, 0x48, 0x00, 0x08],
        &[(1, 1, 0x0C), (3, 3, 0x20), (5, 3, 0x10), (6, 3, 0x80)],
    ),
    // vpermilpd ymm1, ymm2, 5 and vperm2f128 ymm1, ymm2, ymm3, 0x31
    (
        &[0xC4, 0xE3, 0x7D, 0x05, 0xCA, 0x05],
        &[(2, 2, 0x80), (4, 2, 0x40)],
    ),
    (
        &[0xC4, 0xE3, 0x6D, 0x06, 0xCB, 0x31],
        &[(2, 2, 0x80), (3, 2, 0x04)],
    ),
    // vpshufd xmm1, xmm2, 0x1b
    (&[0xC5, 0xF9, 0x70, 0xCA, 0x1B], &[(4, 1, 0x10)]),
];

/// Calls `each` with the instruction under every set of wrong fields, and the set's least number.
fn for_sets((accepted, fields): Spoiled, mut each: impl FnMut(&[u8], u32)) {
    for set in 1..1 << fields.len() {
        let mut code = accepted.to_vec();
        let mut numbers = Vec::new();
        for (i, &(number, at, bits)) in fields.iter().enumerate() {
            if set >> i & 1 == 1 {
                code[at] ^= bits;
                numbers.push(number);
            }
        }
        each(&code, numbers.into_iter().min().unwrap_or(0));
    }
}

#[test]
fn the_first_wrong_field_is_the_reason() {
    let mut sets = 0;
    for spoiled in SPOILED {
        assert_eq!(decode(spoiled.0, ALL).status, 0);
        for_sets(spoiled, |code, reason| {
            for features in SETS {
                assert_eq!(decode(code, features), refusal(4, reason), "{code:02X?}");
            }
            assert_eq!(decode(code, ALL - 1), refusal(1, 0));
            assert_eq!(decode(code, ALL + 1), refusal(1, 0));
            sets += 1;
        });
    }
    assert_eq!(sets, 31 + 31 + 15 + 15 + 3 + 3 + 1);
}

/// Fixed bits are looked at once the opcode is there, every other field once all bytes are.
#[test]
fn short_bytes_come_first_but_for_fixed_bits() {
    for spoiled in SPOILED {
        for_sets(spoiled, |code, reason| {
            for length in 0..code.len() {
                let fixed = reason == 1 && length >= 5;
                let expected = if fixed { refusal(4, 1) } else { refusal(2, 0) };
                assert_eq!(decode(&code[..length], ALL), expected, "{code:02X?}");
            }
        });
    }
}

/// Step, run and map give the reason that decoding gives.
#[test]
fn the_reason_is_passed_on() {
    for spoiled in SPOILED {
        for_sets(spoiled, |code, reason| {
            let mut file = varied_file();
            let stepped = step(code, &mut file, &OPEN, ALL, &[1]);
            assert_eq!((stepped.status, stepped.reason), (4, reason));
            let list = [&[0xC5, 0xE8, 0x14, 0xCB], code].concat();
            let ran = run(&list, &mut file, &OPEN, ALL, 9);
            assert_eq!((ran.place, ran.status, ran.reason), (4, 4, reason));
            let built = build(&list, &OPEN, ALL, &mut [0; 2_048]);
            assert_eq!((built.place, built.status, built.reason), (4, 4, reason));
        });
    }
}

/// Under EVEX another W is another row or none.
#[test]
fn w_is_no_reason_under_evex() {
    for row in [
        [0x62, 0xF1, 0x7D, 0x48, 0x70, 0xCA, 0x1B],
        [0x62, 0xF3, 0xFD, 0x48, 0x05, 0xCA, 0x1B],
        [0x62, 0xF2, 0x6D, 0x48, 0x8D, 0xCB, 0],
        [0x62, 0xF1, 0xED, 0x48, 0x14, 0xCB, 0],
    ] {
        let mut other = row;
        other[2] ^= 0x80;
        assert_eq!(decode(&other, ALL), refusal(3, 0), "{other:02X?}");
    }
    assert_eq!(decode(&[0x62, 0xF2, 0xED, 0x48, 0x00, 0xCB], ALL).status, 0);
}
