//! Which bytes may be executed at all.
//!
//! Either the reference accepts them as one whole instruction, or it refuses them with status 4 and
//! accepts them once the one wrong field is put right. No other bytes reach the processor. An EVEX
//! map from 4 to 7 is no wrong field, and stays what it is: newer processors may have instructions
//! there. With APX on, wrong fixed bits have a meaning, and are refused.

use reference::limits::feature;
use reference::{decode, reserved_field, Field};

/// Leave to execute an instruction.
#[derive(Debug, Clone, Copy, PartialEq, Eq)]
pub struct Permit {
    /// Bytes of the memory operand, 0 for a register form.
    pub memory: usize,
}

/// Leave to execute `code`, or none. `apx` is whether APX is on.
pub fn permit(code: &[u8], apx: bool) -> Option<Permit> {
    match reserved_field(code, feature::ALL) {
        Some(Field::FixedBits) if apx => None,
        Some(field) => accepted(&repaired(code, field)),
        None => accepted(code),
    }
}

/// The same for instructions that the reference accepts, and for no others.
pub fn accepted(code: &[u8]) -> Option<Permit> {
    let decoded = decode(code, feature::ALL);
    let is_whole = decoded.status == 0 && decoded.length as usize == code.len();
    is_whole.then_some(Permit {
        memory: decoded.memory as usize,
    })
}

/// The same bytes with one field put right. A field that the prefix lacks is left alone.
fn repaired(code: &[u8], field: Field) -> Vec<u8> {
    let mut code = code.to_vec();
    // The byte with vvvv and L.
    let q = if code[0] == 0xC5 { 1 } else { 2 };
    match (code[0], field) {
        (0x62, Field::FixedBits) => {
            code[1] &= !0x08;
            code[2] |= 0x04;
        }
        (0x62, Field::Width) => code[3] &= !0x60,
        (0x62, Field::Broadcast) => code[3] &= !0x10,
        (0x62, Field::Zeroing) => code[3] &= !0x80,
        (0x62, Field::Vvvv) => {
            code[2] |= 0x78;
            code[3] |= 0x08;
        }
        (0xC4, Field::W) => code[2] &= !0x80,
        (_, Field::Width) => code[q] |= 0x04,
        (_, Field::Vvvv) => code[q] |= 0x78,
        _ => {}
    }
    code
}

#[cfg(test)]
mod tests {
    use super::Permit;

    /// Where it does not matter whether APX is on.
    fn permit(code: &[u8]) -> Option<Permit> {
        let found = super::permit(code, false);
        assert_eq!(super::permit(code, true), found, "{code:02X?}");
        found
    }

    #[test]
    fn accepted_instructions_are_permitted() {
        let register_form = [0xC5, 0xF9, 0x70, 0xCA, 0x1B];
        assert_eq!(permit(&register_form), Some(Permit { memory: 0 }));
        let broadcast = [0x62, 0xF1, 0x7D, 0x58, 0x70, 0x08, 0x00];
        assert_eq!(permit(&broadcast), Some(Permit { memory: 4 }));
        // vpshufb zmm1, zmm2, zmmword ptr [rax], with either W
        for q in [0x6D, 0xED] {
            let code = [0x62, 0xF2, q, 0x48, 0x00, 0x08];
            assert_eq!(permit(&code), Some(Permit { memory: 64 }));
        }
    }

    #[test]
    fn one_wrong_field_is_permitted() {
        let damaged: [&[u8]; 8] = [
            &[0xC4, 0xE3, 0xFD, 0x05, 0xCA, 0x05],       // W
            &[0x62, 0xF1, 0x7D, 0x68, 0x70, 0xCA, 0x1B], // width 3
            &[0xC4, 0xE3, 0x69, 0x06, 0xCB, 0x31],       // L
            &[0xC5, 0xE9, 0x70, 0xCA, 0x1B],             // vvvv
            &[0x62, 0xF1, 0x7D, 0x58, 0x70, 0xCA, 0x1B], // b
            &[0x62, 0xF1, 0x7D, 0xC8, 0x70, 0xCA, 0x1B], // z
            &[0x62, 0xF2, 0xED, 0x58, 0x00, 0x08],       // b on VPSHUFB
            &[0xC4, 0xE2, 0xE9, 0x0C, 0xCB],             // W on VPERMILPS
        ];
        for code in damaged {
            assert!(permit(code).is_some(), "{code:02X?}");
        }
    }

    /// Of P, of Q, and of both.
    #[test]
    fn wrong_fixed_bits_are_permitted_without_apx() {
        for (p, q) in [(0xF9, 0x7D), (0xF1, 0x79), (0xF9, 0x79)] {
            let code = [0x62, p, q, 0x48, 0x70, 0xCA, 0x1B];
            let expected = [(false, Some(Permit { memory: 0 })), (true, None)];
            for (apx, permitted) in expected {
                assert_eq!(super::permit(&code, apx), permitted, "{code:02X?}, {apx}");
            }
        }
    }

    #[test]
    fn nothing_else_is_permitted() {
        let refused: [&[u8]; 11] = [
            &[],
            &[0x90],
            &[0x0F, 0x05],                               // syscall
            &[0xC5, 0xF9, 0x70, 0xCA],                   // too short
            &[0xC5, 0xF9, 0x70, 0xCA, 0x1B, 0x90],       // a byte behind
            &[0xC5, 0xF8, 0x11, 0x08],                   // vmovups to memory: no row
            &[0x62, 0xF1, 0x7D, 0x78, 0x70, 0xCA, 0x1B], // width 3 and b
            &[0x62, 0xF1, 0x7D, 0xD8, 0x70, 0xCA, 0x1B], // b and z
            &[0x62, 0xF9, 0x7D, 0x48, 0x11, 0x08],       // fixed bits, and no row
            &[0x62, 0xF1, 0x6D, 0x48, 0x14, 0xCB],       // vunpcklpd with W 0: no row
            &[0x62, 0xF2, 0x6D, 0xD8, 0x00, 0x08],       // b and z on VPSHUFB
        ];
        for code in refused {
            assert_eq!(permit(code), None, "{code:02X?}");
        }
    }

    /// How many encodings of registers 0 to 2 with this EVEX map are permitted, of all opcodes with
    /// each pp, W and value of the fixed bits, with and without an immediate.
    fn permitted_with_map(map: u8, apx: bool) -> usize {
        let codes = (0..1 << 13).flat_map(|number: u16| {
            let [opcode, rest] = number.to_le_bytes();
            let p = 0xF0 | (rest & 1) << 3 | map;
            let q = (rest & 2) << 6 | 0x78 | rest >> 2;
            let code = [0x62, p, q, 0x48, opcode, 0xCA];
            [code.to_vec(), [&code[..], &[0x1B]].concat()]
        });
        let is_permitted = |code: &Vec<u8>| super::permit(code, apx).is_some();
        codes.filter(is_permitted).count()
    }

    /// The EVEX rows, once for each W that they have, are 5, 5 and 2 in the maps 1 to 3. All four
    /// values of the fixed bits are permitted with them, with APX on the right one alone, and no map
    /// passes for another.
    #[test]
    fn no_other_evex_map_is_permitted() {
        for (apx, values) in [(false, 4), (true, 1)] {
            let counts = [0, 1, 2, 3, 4, 5, 6, 7].map(|map| permitted_with_map(map, apx));
            assert_eq!(counts, [0, 5, 5, 2, 0, 0, 0, 0].map(|rows| values * rows));
        }
    }
}
