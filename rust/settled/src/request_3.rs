//! What request 3 adds to answer 4: which field of the instruction is wrong.
//!
//! The frozen answers have no reason, so that status, numbers and buffers of decoding, step, run
//! and build stay as they were. The text of a listing has it, behind a 4. The reasons of the frozen
//! inputs are held to [`reason`] by tests of their own.

/// The number of the first wrong field of an instruction, from the request's words and document 01's;
/// none if no field is wrong. This is for instructions that answer 4. Whether one does is not found
/// out here: rows are looked at only where a field is wrong in some of them, and features and missing
/// bytes not at all.
pub fn reason(code: &[u8]) -> Option<u32> {
    let wrong = match *code {
        // The map is 1 and W is 0: C5 has neither.
        [0xC5, p, opcode, ..] => vex(1, p & 0x7F, opcode),
        [0xC4, p, q, opcode, ..] => vex(p & 0x1F, q, opcode),
        [0x62, p, q, s, opcode, ref tail @ ..] => evex([p, q, s], opcode, tail.first().copied()),
        _ => return None,
    };
    let first = (1..).zip(wrong).find(|(_, is_wrong)| *is_wrong);
    first.map(|(number, _)| number)
}

/// Whether each of the six fields is wrong, in the request's order. VEX has no fixed bits, b or z.
fn vex(map: u8, q: u8, opcode: u8) -> [bool; 6] {
    // Both VPERMILPD, both VPERMILPS and VPERM2F128 have W 0.
    let is_w0 = matches!((map, opcode), (3, 0x04..=0x06) | (2, 0x0C | 0x0D));
    let is_vperm2f128 = (map, opcode) == (3, 0x06);
    let w = is_w0 && q & 0x80 != 0;
    let width = is_vperm2f128 && q & 0x04 == 0;
    let vvvv = has_one_source(map, opcode) && q & 0x78 != 0x78;
    [false, w, width, vvvv, false, false]
}

/// The same. Under EVEX a wrong W finds no row. P bit 2 was a fixed bit until request 7, and the
/// landings before that one ask for its reason.
fn evex([p, q, s]: [u8; 3], opcode: u8, modrm: Option<u8>) -> [bool; 6] {
    let map = p & 0x03;
    let is_register = modrm.is_some_and(|modrm| modrm >> 6 == 3);
    // VPERMB and VPSHUFB
    let has_no_broadcast = map == 2 && matches!(opcode, 0x8D | 0x00);
    let all_ones = q & 0x78 == 0x78 && s & 0x08 != 0;
    [
        p & 0x0C != 0 || q & 0x04 == 0,
        false,
        s & 0x60 == 0x60,
        has_one_source(map, opcode) && !all_ones,
        s & 0x10 != 0 && (is_register || has_no_broadcast),
        s & 0x80 != 0 && s & 0x07 == 0,
    ]
}

/// VPSHUFD, and VPERMILPD and VPERMILPS with an immediate.
fn has_one_source(map: u8, opcode: u8) -> bool {
    matches!((map, opcode), (1, 0x70) | (3, 0x04 | 0x05))
}
