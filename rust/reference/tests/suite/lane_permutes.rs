//! The worked cases of request 1.

use crate::sample::{Kind, Operand, Sample};
use crate::support::{
    check_step, padded, picked, refusal, register, varied_file, Call, ALL, EITHER, OPEN,
};
use reference::{decode, reserved_field, Decoded, Field};

/// A decoding of registers 1, 2 and 3, for VEX and 128 bits.
fn two_sources(mnemonic: u32, length: u32) -> Decoded {
    Decoded {
        length,
        mnemonic,
        bits: 128,
        destination: 1,
        first: 2,
        third: 3,
        ..Decoded::default()
    }
}

/// The same for EVEX and 512 bits.
fn two_sources_512(mnemonic: u32) -> Decoded {
    Decoded {
        bits: 512,
        evex: 1,
        ..two_sources(mnemonic, 6)
    }
}

fn decodes(code: &[u8], expected: Decoded) {
    for features in EITHER {
        assert_eq!(decode(code, features), expected, "{code:02X?}");
    }
}

/// A step on the varied file to register 1, under document 01's features and under all.
fn moves(code: &[u8], expected: &[u8]) {
    check_step(Call::new(code), &EITHER, &varied_file(), 1, expected);
}

/// Elements of registers 2 and 3: the number of the register, and of the element.
fn elements(size: usize, parts: &[(usize, usize)]) -> Vec<u8> {
    let file = varied_file();
    let part = |&(number, j): &(usize, usize)| &register(&file, number)[j * size..(j + 1) * size];
    padded(parts.iter().flat_map(part).copied().collect())
}

#[test]
fn vunpckhps_takes_the_high_doublewords() {
    let code = [0xC5, 0xE8, 0x15, 0xCB];
    decodes(&code, two_sources(7, 4));
    moves(&code, &elements(4, &[(2, 2), (3, 2), (2, 3), (3, 3)]));
}

#[test]
fn vpermilps_with_an_immediate_is_vpshufd() {
    let code = [0xC4, 0xE3, 0x79, 0x04, 0xCA, 0x1B];
    let expected = Decoded {
        length: 6,
        mnemonic: 6,
        bits: 128,
        destination: 1,
        third: 2,
        has_immediate: 1,
        immediate: 0x1B,
        ..Decoded::default()
    };
    decodes(&code, expected);
    let moved = picked(register(&varied_file(), 2), 4, &[3, 2, 1, 0]);
    moves(&code, &moved);
    moves(&[0xC5, 0xF9, 0x70, 0xCA, 0x1B], &moved);
}

#[test]
fn vpshufb_has_either_w_and_needs_avx512bw() {
    for q in [0x6D, 0xED] {
        let code = [0x62, 0xF2, q, 0x48, 0x00, 0xCB];
        assert_eq!(decode(&code, ALL), two_sources_512(10));
        assert_eq!(decode(&code, 37), two_sources_512(10));
        assert_eq!(decode(&code, 31), refusal(5, 0));
    }
}

#[test]
fn vpshufb_with_broadcast() {
    let code = [0x62, 0xF2, 0x6D, 0x58, 0x00, 0x08];
    decodes(&code, refusal(4, 5));
    assert_eq!(reserved_field(&code, ALL), Some(Field::Broadcast));
}

#[test]
fn vunpcklpd_has_any_w_under_vex() {
    let codes: [&[u8]; 2] = [&[0xC5, 0xE9, 0x14, 0xCB], &[0xC4, 0xE1, 0xE9, 0x14, 0xCB]];
    for code in codes {
        decodes(code, two_sources(8, code.len() as u32));
        moves(code, &elements(8, &[(2, 0), (3, 0)]));
    }
}

#[test]
fn vunpcklpd_has_w_1_under_evex() {
    decodes(&[0x62, 0xF1, 0x6D, 0x48, 0x14, 0xCB], refusal(3, 0));
    let code = [0x62, 0xF1, 0xED, 0x48, 0x14, 0xCB];
    decodes(&code, two_sources_512(8));
    let lanes = [0, 2, 4, 6].map(|low| [(2, low), (3, low)]);
    moves(&code, &elements(8, lanes.as_flattened()));
}

#[test]
fn vunpckhpd_takes_the_high_quadwords() {
    let code = [0xC5, 0xE9, 0x15, 0xCB];
    decodes(&code, two_sources(9, 4));
    moves(&code, &elements(8, &[(2, 1), (3, 1)]));
}

/// Destination register 1 and first source register 2; the third operand is register 3 or memory.
fn sample(kind: Kind, evex: bool, width: u8, memory: bool) -> Sample {
    let third = if memory {
        Operand::Memory(0, 0, vec![])
    } else {
        Operand::Register(3)
    };
    Sample {
        kind,
        evex,
        width,
        spare_w: 0,
        destination: 1,
        first: 2,
        third,
        mask: 0,
        zeroing: false,
        broadcast: false,
        immediate: 0,
        spare: 0,
    }
}

/// Every prefix and width, with a register and with memory.
fn every_form(kind: Kind) -> Vec<Sample> {
    let widths = [(false, 0), (false, 1), (true, 0), (true, 1), (true, 2)];
    let forms =
        widths.map(|(evex, width)| [false, true].map(|memory| sample(kind, evex, width, memory)));
    forms.into_iter().flatten().collect()
}

/// Steps on the varied file with these controls, in register 3 or in memory, and expects in
/// register 1 what they pick: for each element, one of the first source's or none.
fn check_controls(sample: &Sample, masks: &[u64], controls: &[u8], picks: &[Option<usize>]) {
    let size = sample.kind.element();
    let mut start = varied_file();
    let in_memory = matches!(sample.third, Operand::Memory(..));
    if !in_memory {
        start[3 * 64..3 * 64 + controls.len()].copy_from_slice(controls);
    }
    let source = register(&start, 2);
    let old = register(&start, 1);
    let zero = [0; 8];
    let mut expected = Vec::new();
    for (j, pick) in picks.iter().enumerate() {
        let is_open = sample.mask == 0 || (masks[usize::from(sample.mask)] >> j) & 1 == 1;
        expected.extend_from_slice(match (is_open, sample.zeroing, pick) {
            (true, _, Some(from)) => &source[from * size..(from + 1) * size],
            (true, _, None) | (false, true, _) => &zero[..size],
            (false, false, _) => &old[j * size..(j + 1) * size],
        });
    }
    let code = sample.encode();
    let memory = if in_memory { controls } else { &[] };
    let call = Call {
        code: &code,
        masks,
        memory,
    };
    check_step(call, &[ALL], &start, 1, &padded(expected));
}

/// The sample unmasked, and if it is EVEX under mask 1, merging and zeroing.
fn with_masks(sample: &Sample) -> Vec<Sample> {
    let masked = |zeroing| Sample {
        mask: 1,
        zeroing,
        ..sample.clone()
    };
    let mut samples = vec![sample.clone()];
    if sample.evex {
        samples.extend([masked(false), masked(true)]);
    }
    samples
}

/// All elements, none, and some.
const MASKS: [u64; 3] = [u64::MAX, 0, 0x9D3C_6A0F_81E5_72B4];

/// Checks a control of each element, and what it picks, under all masks.
fn check_under_masks(sample: &Sample, controls: &[u8], picks: &[Option<usize>]) {
    for sample in with_masks(sample) {
        for mask in MASKS {
            let mut masks = OPEN;
            masks[1] = mask;
            check_controls(&sample, &masks, controls, picks);
        }
    }
}

/// A control byte, and the byte of its own lane that it picks.
const VPSHUFB_CONTROLS: [(u8, Option<usize>); 6] = [
    (0x00, Some(0)),
    (0x0F, Some(15)),
    (0x10, Some(0)),
    (0x7F, Some(15)),
    (0x80, None),
    (0xFF, None),
];

#[test]
fn vpshufb_controls_in_every_lane() {
    for sample in every_form(Kind::Vpshufb) {
        for w in [0, 1] {
            let sample = Sample {
                spare_w: w,
                ..sample.clone()
            };
            for (control, pick) in VPSHUFB_CONTROLS {
                let in_lane = |j| pick.map(|byte| j / 16 * 16 + byte);
                let picks: Vec<_> = (0..sample.bytes()).map(in_lane).collect();
                check_under_masks(&sample, &vec![control; sample.bytes()], &picks);
            }
        }
    }
}

#[test]
fn vpshufb_controls_differ_by_byte() {
    for sample in every_form(Kind::Vpshufb) {
        for turn in 0..VPSHUFB_CONTROLS.len() {
            let of = |j| VPSHUFB_CONTROLS[(j + turn) % VPSHUFB_CONTROLS.len()];
            let controls: Vec<_> = (0..sample.bytes()).map(|j| of(j).0).collect();
            let pick = |j| of(j).1.map(|byte| j / 16 * 16 + byte);
            let picks: Vec<_> = (0..sample.bytes()).map(pick).collect();
            check_under_masks(&sample, &controls, &picks);
        }
    }
}

/// Control doublewords whose other bits are all set or all clear.
fn doubleword(control: u8, others: bool) -> [u8; 4] {
    let above = if others { 0xFF } else { 0 };
    [control | (above & 0xF8), above, above, above]
}

#[test]
fn vpermilps_controls_in_every_lane() {
    for sample in every_form(Kind::VpermilpsRegister) {
        let count = sample.bytes() / 4;
        for turn in 0..8 {
            for others in [false, true] {
                let of = |j: usize| (j + turn) as u8 % 8;
                let controls: Vec<_> = (0..count).map(|j| doubleword(of(j), others)).collect();
                let pick = |j| Some(j / 4 * 4 + usize::from(of(j) % 4));
                let picks: Vec<_> = (0..count).map(pick).collect();
                check_under_masks(&sample, controls.as_flattened(), &picks);
            }
        }
    }
}

#[test]
fn vpermilps_control_broadcast_from_memory() {
    for width in 0..3 {
        let sample = Sample {
            broadcast: true,
            ..sample(Kind::VpermilpsRegister, true, width, true)
        };
        for control in 0..8 {
            let picks: Vec<_> = (0..sample.bytes() / 4)
                .map(|j| Some(j / 4 * 4 + usize::from(control % 4)))
                .collect();
            check_under_masks(&sample, &doubleword(control, true), &picks);
        }
    }
}

/// Bit 7 counts for a byte that is let through alone.
#[test]
fn an_empty_mask_keeps_every_byte() {
    for width in 0..3 {
        let sample = Sample {
            mask: 1,
            ..sample(Kind::Vpshufb, true, width, false)
        };
        let start = varied_file();
        let mut expected = register(&start, 1).to_vec();
        expected[sample.bytes()..].fill(0);
        let code = sample.encode();
        let call = Call {
            masks: &[0; 8],
            ..Call::new(&code)
        };
        let mut controls = start;
        controls[3 * 64..4 * 64].fill(0x80);
        check_step(call, &[ALL], &controls, 1, &expected);
    }
}
