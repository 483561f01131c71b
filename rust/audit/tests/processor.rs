//! Instructions on the processor, with outcomes that are known beforehand.

#![cfg(all(
    target_arch = "x86_64",
    target_os = "linux",
    target_pointer_width = "64"
))]

use audit::{Capabilities, Outcome, Processor, RegisterSet, Setting, State};
use reference::limits::feature;

/// A processor with all registers, or one line that says why not.
fn processor() -> Option<Processor> {
    let capabilities = Capabilities::detect().expect("possible features");
    let has_all = capabilities.features() == feature::ALL
        && capabilities.register_set() == Some(RegisterSet::Zmm32);
    if !has_all {
        println!("skipped: this machine lacks some of AVX-512");
        return None;
    }
    Some(Processor::new(capabilities).expect("pages to execute instructions in"))
}

/// Different bytes in neighbouring places, and masks with some bits.
fn state() -> State {
    let mut state = State::ZERO;
    for (place, byte) in state.file.iter_mut().enumerate() {
        *byte = ((place + 37 * (place / 256)) % 251 + 1) as u8;
    }
    for (number, mask) in state.masks.iter_mut().enumerate() {
        *mask = 0x9669_5AA5_3CC3_0FF0_u64.rotate_left(5 * number as u32);
    }
    state
}

#[test]
fn detection_agrees_with_the_standard_library() {
    let expected = [
        (feature::AVX, is_x86_feature_detected!("avx")),
        (feature::AVX2, is_x86_feature_detected!("avx2")),
        (feature::AVX512F, is_x86_feature_detected!("avx512f")),
        (feature::AVX512VL, is_x86_feature_detected!("avx512vl")),
        (feature::AVX512_VBMI, is_x86_feature_detected!("avx512vbmi")),
        (feature::AVX512BW, is_x86_feature_detected!("avx512bw")),
    ];
    let features = Capabilities::detect()
        .expect("possible features")
        .features();
    for (bit, has) in expected {
        assert_eq!(features & bit != 0, has, "feature bit {bit}");
    }
}

#[test]
fn all_registers_are_loaded_and_stored() {
    let Some(mut processor) = processor() else {
        return;
    };
    // vpshufd xmm1, xmm2, 0x1b
    let state = state();
    let outcome = processor.run(&[0xC5, 0xF9, 0x70, 0xCA, 0x1B], &state, &[]);
    assert_eq!(outcome, Outcome::Done { length: 5 });
    let mut expected = state.clone();
    expected.file[64..128].fill(0);
    for j in 0..4 {
        let source = 128 + 4 * (3 - j);
        expected.file.copy_within(source..source + 4, 64 + 4 * j);
    }
    assert_eq!(*processor.after(), expected);
    assert!(processor.is_memory_intact() && processor.is_context_intact());
}

#[test]
fn high_registers_take_part() {
    let Some(mut processor) = processor() else {
        return;
    };
    // vpshufd zmm17, zmm26, 0xe4: a copy
    let state = state();
    let outcome = processor.run(&[0x62, 0x81, 0x7D, 0x48, 0x70, 0xCA, 0xE4], &state, &[]);
    assert_eq!(outcome, Outcome::Done { length: 7 });
    let mut expected = state.clone();
    expected.file.copy_within(26 * 64..27 * 64, 17 * 64);
    assert_eq!(*processor.after(), expected);
}

/// The state with these bytes at the start of register 3.
fn with_controls(controls: &[u8]) -> State {
    let mut state = state();
    state.file[192..192 + controls.len()].copy_from_slice(controls);
    state
}

/// vpshufb zmm1, zmm2, zmm3: bit 7 of a control clears, and bits 6:4 do not count.
#[test]
fn controls_of_bytes_pick_or_clear() {
    let Some(mut processor) = processor() else {
        return;
    };
    let lane = [
        (0x00, Some(0)),
        (0x0F, Some(15)),
        (0x10, Some(0)),
        (0x7F, Some(15)),
        (0x80, None),
        (0xFF, None),
        (0x35, Some(5)),
        (0x8A, None),
    ];
    let lane = lane.repeat(2);
    let controls: Vec<u8> = lane.iter().map(|(control, _)| *control).collect();
    let state = with_controls(&controls.repeat(4));
    let outcome = processor.run(&[0x62, 0xF2, 0x6D, 0x48, 0x00, 0xCB], &state, &[]);
    assert_eq!(outcome, Outcome::Done { length: 6 });
    let mut expected = state.clone();
    for (j, (_, pick)) in lane.repeat(4).iter().enumerate() {
        let source = pick.map(|pick: usize| state.file[128 + j / 16 * 16 + pick]);
        expected.file[64 + j] = source.unwrap_or(0);
    }
    assert_eq!(*processor.after(), expected);
}

/// vpermilps ymm1, ymm2, ymm3 with the controls 0 to 7, and with one control in memory for all.
#[test]
fn controls_of_doublewords_pick_by_two_bits() {
    let Some(mut processor) = processor() else {
        return;
    };
    let controls: Vec<u8> = (0..8)
        .flat_map(|control| [control, 0xFF, 0xFF, 0xFF])
        .collect();
    let state = with_controls(&controls);
    let outcome = processor.run(&[0xC4, 0xE2, 0x6D, 0x0C, 0xCB], &state, &[]);
    assert_eq!(outcome, Outcome::Done { length: 5 });
    // Each lane has 0 to 3 in its bits 1:0, so that both are copied.
    assert_eq!(processor.after().file[64..96], state.file[128..160]);

    let code = [0x62, 0xF2, 0x6D, 0x38, 0x0C, 0x08];
    for control in 0..8 {
        let outcome = processor.run(&code, &state, &[control, 0xFF, 0xFF, 0xFF]);
        assert_eq!(outcome, Outcome::Done { length: 6 });
        let after = &processor.after().file[64..96];
        for (j, doubleword) in after.chunks(4).enumerate() {
            let source = 128 + j / 4 * 16 + 4 * usize::from(control & 3);
            assert_eq!(doubleword, &state.file[source..source + 4]);
        }
    }
}

#[test]
fn undefined_changes_nothing() {
    let Some(mut processor) = processor() else {
        return;
    };
    let state = state();
    let undefined: [&[u8]; 9] = [
        &[0xC5, 0xE9, 0x70, 0xCA, 0x1B],
        &[0x62, 0xF1, 0x7D, 0xC8, 0x70, 0xCA, 0x1B],
        &[0x62, 0xF1, 0x7D, 0x68, 0x70, 0xCA, 0x1B],
        &[0xC4, 0xE3, 0x69, 0x06, 0xCB, 0x31],
        &[0x62, 0xF2, 0x6D, 0x58, 0x8D, 0x08],
        &[0x62, 0xF2, 0x6D, 0x58, 0x00, 0x08], // VPSHUFB: b, with either W
        &[0x62, 0xF2, 0xED, 0x58, 0x00, 0x08],
        &[0xC4, 0xE3, 0xF9, 0x04, 0xCA, 0x1B], // VPERMILPS: W, vvvv
        &[0xC4, 0xE3, 0x69, 0x04, 0xCA, 0x1B],
    ];
    for code in undefined {
        let memory = [0x77; 64];
        let outcome = processor.run(code, &state, &memory);
        assert_eq!(outcome, Outcome::Undefined, "{code:02X?}");
        assert_eq!(*processor.after(), state, "{code:02X?}");
        assert!(processor.is_memory_intact() && processor.is_context_intact());
    }
}

/// VUNPCKHPD: the manual has #UD, and some processors ignore b.
#[test]
fn b_with_a_register_is_undefined_or_ignored() {
    let Some(mut processor) = processor() else {
        return;
    };
    let (mut state, length) = (state(), 6);
    let outcome = processor.run(&[0x62, 0xF1, 0xED, 0x58, 0x15, 0xCB], &state, &[]);
    let after = processor.after().clone();
    if outcome == (Outcome::Done { length }) {
        println!("this processor ignores b with a register");
        processor.run(&[0x62, 0xF1, 0xED, 0x48, 0x15, 0xCB], &state, &[]);
        state = processor.after().clone();
    } else {
        assert_eq!(outcome, Outcome::Undefined);
    }
    assert_eq!(after, state);
}

/// Memory forms with rax as the base, and the bytes that they read.
const MEMORY_FORMS: [(&[u8], usize); 17] = [
    (&[0xC5, 0xF9, 0x70, 0x08, 0x1B], 16), // vpshufd xmm1, [rax], 0x1b
    (&[0xC5, 0xFD, 0x70, 0x08, 0x1B], 32), // vpshufd ymm1, [rax], 0x1b
    (&[0x62, 0xF1, 0x7D, 0x48, 0x70, 0x08, 0x1B], 64), // vpshufd zmm1, [rax], 0x1b
    (&[0x62, 0xF1, 0x7D, 0x58, 0x70, 0x08, 0x1B], 4), // vpshufd zmm1, [rax]{1to16}, 0x1b
    (&[0x62, 0xF3, 0xFD, 0x58, 0x05, 0x08, 0x05], 8), // vpermilpd zmm1, [rax]{1to8}, 5
    (&[0x62, 0xF2, 0xED, 0x48, 0x0D, 0x08], 64), // vpermilpd zmm1, zmm2, [rax]
    (&[0x62, 0xF2, 0x6D, 0x48, 0x8D, 0x08], 64), // vpermb zmm1, zmm2, [rax]
    (&[0xC5, 0xE8, 0x14, 0x08], 16),       // vunpcklps xmm1, xmm2, [rax]
    (&[0xC4, 0xE3, 0x6D, 0x06, 0x08, 0x31], 32), // vperm2f128 ymm1, ymm2, [rax], 0x31
    (&[0x62, 0xF3, 0x7D, 0x58, 0x04, 0x08, 0x1B], 4), // vpermilps zmm1, [rax]{1to16}, 0x1b
    (&[0x62, 0xF2, 0x6D, 0x18, 0x0C, 0x08], 4), // vpermilps xmm1, xmm2, [rax]{1to4}
    (&[0x62, 0xF1, 0x6C, 0x48, 0x15, 0x08], 64), // vunpckhps zmm1, zmm2, [rax]
    (&[0xC5, 0xE9, 0x14, 0x08], 16),       // vunpcklpd xmm1, xmm2, [rax]
    (&[0x62, 0xF1, 0xED, 0x38, 0x15, 0x08], 8), // vunpckhpd ymm1, ymm2, [rax]{1to4}
    (&[0xC4, 0xE2, 0x6D, 0x00, 0x08], 32), // vpshufb ymm1, ymm2, [rax]
    (&[0x62, 0xF2, 0x6D, 0x08, 0x00, 0x08], 16), // vpshufb xmm1, xmm2, [rax], with either W
    (&[0x62, 0xF2, 0xED, 0x48, 0x00, 0x08], 64), // vpshufb zmm1, zmm2, [rax]
];

#[test]
fn reading_past_the_operand_is_a_fault() {
    let Some(mut processor) = processor() else {
        return;
    };
    let state = state();
    let memory: Vec<u8> = (1..=64).collect();
    for (code, wanted) in MEMORY_FORMS {
        let length = code.len();
        let outcome = processor.run(code, &state, &memory[..wanted]);
        assert_eq!(outcome, Outcome::Done { length }, "{code:02X?}");
        for short in [wanted - 1, wanted / 2, 0] {
            let outcome = processor.run(code, &state, &memory[..short]);
            assert_eq!(outcome, Outcome::Fault, "{code:02X?} with {short} bytes");
            assert_eq!(*processor.after(), state, "{code:02X?} with {short} bytes");
        }
    }
}

/// The mask does not shorten the memory operand: the processor wants all of it too.
#[test]
fn masked_elements_are_read_too() {
    let Some(mut processor) = processor() else {
        return;
    };
    let mut state = state();
    state.masks[3] = 0;
    let evex = MEMORY_FORMS.iter().filter(|(code, _)| code[0] == 0x62);
    for (code, wanted) in evex {
        let mut code = code.to_vec();
        code[3] |= 3;
        let memory = vec![0x77; *wanted];
        let length = code.len();
        let outcome = processor.run(&code, &state, &memory);
        assert_eq!(outcome, Outcome::Done { length }, "{code:02X?}");
        let outcome = processor.run(&code, &state, &memory[1..]);
        assert_eq!(outcome, Outcome::Fault, "{code:02X?}");
    }
}

/// Operands at the end of their page and elsewhere, code before and behind them, low and high.
fn settings() -> Vec<Setting> {
    let mut settings = Vec::new();
    for (gap, is_behind) in [(0, false), (1, true), (1_001, false), (4_031, true)] {
        for is_high in [false, true] {
            settings.push(Setting {
                gap,
                is_behind,
                is_high,
                ..Setting::PLAIN
            });
        }
    }
    settings
}

/// vpshufd xmm1, memory, 0xe4 with every mode, r/m and SIB byte under VEX and EVEX: each way to
/// name memory leads to the operand, wherever it is.
#[test]
fn every_address_leads_to_the_operand() {
    let Some(mut processor) = processor() else {
        return;
    };
    let state = state();
    let memory: [u8; 16] = std::array::from_fn(|i| 0xF0 | i as u8);
    let prefixes: [&[u8]; 4] = [
        &[0xC4, 0xE1, 0x79, 0x70],
        &[0xC4, 0x81, 0x79, 0x70],
        &[0x62, 0xF1, 0x7D, 0x08, 0x70],
        &[0x62, 0x91, 0x7D, 0x08, 0x70],
    ];
    let mut ran = 0;
    for prefix in prefixes {
        for tail in memory_tails() {
            let code = [prefix, tail.as_slice(), &[0xE4]].concat();
            let length = code.len();
            for setting in settings() {
                let prepared = processor.prepare(&code, 16, &setting).expect("registers");
                let target = prepared.target();
                let outcome = processor.execute(&prepared, &state, &memory, target);
                assert_eq!(outcome, Outcome::Done { length }, "{code:02X?}");
                assert_eq!(processor.after().file[64..80], memory, "{code:02X?}");
                ran += 1;
            }
        }
    }
    assert_eq!(ran, 8 * 4 * 3 * (7 + 256));
}

/// What is read where the operand is not differs from it, also if that is only a byte away.
#[test]
fn operand_elsewhere_is_not_found() {
    let Some(mut processor) = processor() else {
        return;
    };
    let state = state();
    let setting = Setting {
        gap: 1_000,
        ..Setting::PLAIN
    };
    // Forms that move their operand's bytes. In others it is a control, of which few bits count.
    for (code, wanted) in &MEMORY_FORMS[..5] {
        let memory: Vec<u8> = (0..*wanted).map(|i| (0x1B + 0x35 * i) as u8).collect();
        let prepared = processor
            .prepare(code, *wanted, &setting)
            .expect("registers");
        let target = prepared.target();
        let mut after = |place| {
            let outcome = processor.execute(&prepared, &state, &memory, place);
            let length = code.len();
            assert_eq!(outcome, Outcome::Done { length }, "{code:02X?}");
            processor.after().clone()
        };
        let right = after(target);
        for distance in [-64, -16, -8, -1, 1, 8, 16, 64] {
            let place = target.wrapping_add_signed(distance);
            assert!(after(place) != right, "{code:02X?}, {distance}");
        }
        assert!(after(target) == right, "{code:02X?}");
    }
}

/// Outside of its page an operand is not placed, and nothing is run.
#[test]
fn operand_must_be_in_its_page() {
    let Some(mut processor) = processor() else {
        return;
    };
    // vpshufd xmm1, [rax], 0x1b
    let code = [0xC5, 0xF9, 0x70, 0x08, 0x1B];
    for setting in settings() {
        let prepared = processor.prepare(&code, 16, &setting).expect("registers");
        let end = prepared.target() + 16 + setting.gap as u64;
        for place in [0, end - 4_097, end - 15, prepared.entry(), u64::MAX] {
            assert!(!processor.holds(&prepared, place, 16), "{place:X}");
            let outcome = processor.execute(&prepared, &state(), &[0; 16], place);
            assert!(matches!(outcome, Outcome::NotRun(_)), "{place:X}");
        }
        for place in [end - 4_096, end - 16] {
            assert!(processor.holds(&prepared, place, 16), "{place:X}");
        }
    }
}

/// ModRM, SIB and an odd displacement, for each mode and each r/m or SIB byte.
fn memory_tails() -> Vec<Vec<u8>> {
    let mut tails = Vec::new();
    for mode in 0..3 {
        for rm in (0..8).filter(|rm| *rm != 4) {
            tails.push(with_displacement(vec![mode << 6 | 1 << 3 | rm], mode, rm));
        }
        for sib in 0..=255 {
            let start = vec![mode << 6 | 1 << 3 | 4, sib];
            tails.push(with_displacement(start, mode, sib & 7));
        }
    }
    tails
}

fn with_displacement(mut tail: Vec<u8>, mode: u8, base: u8) -> Vec<u8> {
    match (mode, base) {
        (1, _) => tail.push(0x87),
        (2, _) | (0, 5) => tail.extend([0x13, 0x34, 0x56, 0x87]),
        _ => {}
    }
    tail
}

/// vpshufd zmm1, [rsp + 64 * displacement], 0xe4: RSP gets values all around the operand, and the
/// signal that ends the instruction must arrive whatever RSP is.
#[test]
fn stack_pointer_may_be_anything() {
    let Some(mut processor) = processor() else {
        return;
    };
    let state = state();
    let memory: [u8; 64] = std::array::from_fn(|i| 0xC0 | i as u8);
    let mut check = |code: &[u8]| {
        let length = code.len();
        let outcome = processor.run(code, &state, &memory);
        assert_eq!(outcome, Outcome::Done { length }, "{code:02X?}");
        assert_eq!(processor.after().file[64..128], memory, "{code:02X?}");
    };
    for displacement in 0..=255 {
        check(&[0x62, 0xF1, 0x7D, 0x48, 0x70, 0x4C, 0x24, displacement, 0xE4]);
    }
    // Near and far, in steps that leave out no page near the operand.
    let near = (-1_000_000..1_000_000).step_by(4_000);
    let far = (i32::MIN..i32::MAX).step_by(8_000_009);
    for displacement in near.chain(far).chain([i32::MIN, i32::MAX]) {
        let [a, b, c, d] = displacement.to_le_bytes();
        check(&[0x62, 0xF1, 0x7D, 0x48, 0x70, 0x8C, 0x24, a, b, c, d, 0xE4]);
    }
}

#[test]
fn other_bytes_are_not_run() {
    let Some(mut processor) = processor() else {
        return;
    };
    let refused: [&[u8]; 9] = [
        &[],
        &[0x90],
        &[0x0F, 0x05],
        &[0xC5, 0xF8, 0x11, 0x08],
        &[0xC5, 0xF9, 0x70, 0xCA],
        &[0xC5, 0xF9, 0x70, 0xCA, 0x1B, 0xC3],
        &[0x62, 0xF5, 0x6C, 0x48, 0x58, 0xCB], // vaddph zmm1, zmm2, zmm3, in map 5
        &[0x62, 0xF5, 0x7D, 0x48, 0x70, 0xCA, 0x1B], // VPSHUFD's opcode in map 5
        &[0x62, 0xFD, 0x7D, 0x48, 0x70, 0xCA, 0x1B], // the same with a wrong fixed bit
    ];
    for code in refused {
        let outcome = processor.run(code, &state(), &[]);
        assert!(matches!(outcome, Outcome::NotRun(_)), "{code:02X?}");
    }
}

/// vpshufd xmm1, xmm2, 0xe4 copies 16 bytes.
fn check_copy(processor: &mut Processor, byte: u8) {
    let mut state = state();
    state.file[128..144].fill(byte);
    let outcome = processor.run(&[0xC5, 0xF9, 0x70, 0xCA, 0xE4], &state, &[]);
    assert_eq!(outcome, Outcome::Done { length: 5 });
    assert_eq!(processor.after().file[64..80], [byte; 16]);
}

#[test]
fn processors_do_not_disturb_each_other() {
    let (Some(mut one), Some(mut other)) = (processor(), processor()) else {
        return;
    };
    for byte in 0..100 {
        check_copy(&mut one, byte);
        check_copy(&mut other, !byte);
    }
    drop(one);
    check_copy(&mut other, 7);
    let threads: Vec<_> = (0..4)
        .map(|_| {
            std::thread::spawn(|| {
                let mut processor = processor().expect("as on the first thread");
                (0..=255).for_each(|byte| check_copy(&mut processor, byte));
            })
        })
        .collect();
    for thread in threads {
        thread.join().expect("each thread compares its own copies");
    }
}
