//! Every engine passes the audit, and those that are wrong on purpose do not.

mod tools;

use audit::{audit, engine, Addressed, Answer, Capabilities, Engine, Failure, Finding, Form};
use audit::{Options, Outcome, Processor, Report, Skipped, State, Words};
use reference::limits::feature;
use reference::{decode, Decoded, Field};
use tools::{caught, has_all_registers, options, passed, ENOUGH};

/// Names, each with its encodings and widths.
const FORMS: usize = 44;

#[test]
fn engines_agree_with_the_processor() {
    for mut engine in engine::all() {
        let report = passed(&mut engine, options(80_000));
        println!("{report}");
        if has_all_registers() {
            check_coverage(&report);
        }
    }
}

fn check_coverage(report: &Report) {
    assert_eq!((report.steps(), report.refused_cases()), (60_000, 20_000));
    assert_eq!(report.bytes_per_step(), 2_048);
    assert_eq!(report.processor_bytes(), 2_048);
    check_refused(report);
    // A processor that ignores b does so with a register alone.
    assert!(report.ignored < report.refused[&Field::Broadcast]);
    let text = report.to_string();
    assert_eq!(
        report.ignored > 0,
        text.contains("this processor ignores b")
    );
    let coverage = &report.coverage;
    let used = [
        coverage.destinations.len(),
        coverage.first_sources.len(),
        coverage.third_operands.len(),
        coverage.merging.len(),
        coverage.zeroing.len(),
        coverage.immediates.len(),
    ];
    assert_eq!(used, [32, 32, 32, 8, 7, 256]);
    check_addresses(report);
}

/// Every field has been wrong, but for the fixed bits if they have a meaning.
fn check_refused(report: &Report) {
    assert_eq!(report.refused.len(), 6);
    for (field, count) in &report.refused {
        let is_left_out = *field == Field::FixedBits && report.capabilities.apx();
        assert_eq!(*count == 0, is_left_out, "{field:?}");
    }
}

/// Every way to name memory occurs, and every memory operand is named in some.
fn check_addresses(report: &Report) {
    let count = |name: &str| {
        let mut ways = report.addresses.iter();
        let way = ways.find(|(way, _)| *way == name);
        way.expect("the name of a way to name memory").1
    };
    for (name, count) in report.addresses {
        assert!(count > 0, "{name}");
    }
    let operands = report.memory_operands();
    assert_eq!(
        ["mod 0", "mod 1", "mod 2"].map(count).iter().sum::<u64>(),
        operands
    );
    let parts = [
        "base alone",
        "base and index",
        "index alone",
        "rip-relative",
        "absolute",
    ];
    assert_eq!(parts.map(count).iter().sum::<u64>(), operands);
    let text = report.to_string();
    let line = "\nmemory operands that the processor read at the engine's address: ";
    assert!(text.contains(&format!("{line}{operands};")), "{text}");
}

/// So few that a person waits for them.
#[test]
fn few_cases_have_every_way_to_name_memory() {
    if has_all_registers() {
        check_addresses(&passed(&mut engine::reference(), options(ENOUGH)));
    }
}

/// The widths of the instruction table, VEX and EVEX.
#[test]
fn every_form_is_compared_or_skipped() {
    let report = passed(&mut engine::reference(), options(2_000));
    let compared = report.forms.keys().copied();
    let skipped = report.skipped.iter().map(|skipped| skipped.form);
    let mut forms: Vec<Form> = compared.chain(skipped).collect();
    forms.sort();
    forms.dedup();
    let count = |name| forms.iter().filter(|form| form.name == name).count();
    let names = ["VPERMILPD", "VPERMB", "VUNPCKLPS", "VPSHUFD", "VPERM2F128"];
    assert_eq!(names.map(count), [5, 3, 5, 5, 1]);
    let lanes = [
        "VPERMILPS",
        "VUNPCKHPS",
        "VUNPCKLPD",
        "VUNPCKHPD",
        "VPSHUFB",
    ];
    assert_eq!(lanes.map(count), [5; 5]);
    assert_eq!(forms.len(), FORMS);
}

#[test]
fn forms_that_the_processor_lacks_are_skipped() {
    if !has_all_registers() {
        return;
    }
    let lacking = passed(&mut engine::reference(), options(2_000)).skipped;
    for (feature, name, lacks) in [
        (feature::AVX512_VBMI, "VPERMB", "avx512_vbmi"),
        (feature::AVX512BW, "VPSHUFB", "avx512bw"),
    ] {
        let capabilities = Capabilities::detect().map(|found| found.without(feature));
        let report = passed(
            &mut engine::reference(),
            Options {
                capabilities,
                ..options(2_000)
            },
        );
        let is_named = |skipped: &&Skipped| skipped.form.name == name;
        let (named, others): (Vec<_>, Vec<_>) = report.skipped.iter().partition(is_named);
        assert_eq!(named.len(), 3);
        for skipped in named {
            assert!(skipped.form.is_evex);
            assert_eq!(skipped.lacks, lacks);
            let text = report.to_string();
            assert!(text.contains(&format!("{} (lacks {lacks})", skipped.form)));
        }
        // The rest is what this machine's processor lacks by itself.
        let is_lacking = |other: &Skipped| lacking.iter().any(|one| one.form == other.form);
        assert!(others.into_iter().all(is_lacking));
        assert_eq!(report.forms.len(), FORMS - report.skipped.len());
    }
}

/// The part for processors with AVX alone: 16 registers of 32 bytes.
#[test]
fn vex_forms_are_compared_without_avx512() {
    let capabilities = Capabilities::detect()
        .expect("possible features")
        .without(feature::AVX512F);
    // What needs AVX512F is gone with it.
    assert_eq!(capabilities.features() & !(feature::AVX | feature::AVX2), 0);
    if capabilities.register_set().is_none() {
        println!("skipped: no AVX on this machine");
        return;
    }
    let narrow = Options {
        capabilities: Ok(capabilities),
        ..options(10_000)
    };
    let report = passed(&mut engine::reference(), narrow);
    println!("{report}");
    assert_eq!(
        (report.bytes_per_step(), report.processor_bytes()),
        (2_048, 512)
    );
    assert!(report.forms.keys().all(|form| !form.is_evex));
    for place in 0..2_048 {
        let difference = caught(&mut Flip { place }, narrow);
        assert_eq!(difference.case, 0);
    }
}

#[test]
fn nothing_is_compared_without_avx() {
    let capabilities = Capabilities::detect().map(|found| found.without(feature::ALL));
    let report = passed(
        &mut engine::reference(),
        Options {
            capabilities,
            ..options(100)
        },
    );
    assert_eq!((report.steps(), report.refused_cases()), (0, 0));
    assert!(report.to_string().contains("nothing was compared"));
}

/// CPUID's words for AVX, with everything switched on.
const AVX_ALONE: Words = Words {
    leaf_1_ecx: 1 << 28,
    leaf_7_ebx: 0,
    leaf_7_ecx: 0,
    leaf_7_1_edx: 0,
    xcr0: 0xE7,
};

/// What the processor has is not used if CPUID does not report it, or XCR0 has it off.
#[test]
fn hidden_features_are_not_used() {
    if !has_all_registers() {
        return;
    }
    // AVX2, AVX512F and AVX512BW.
    let wide = Words {
        leaf_7_ebx: 1 << 5 | 1 << 16 | 1 << 30,
        ..AVX_ALONE
    };
    let forms = |words: Words| {
        let capabilities = Capabilities::detect_as(&words);
        let options = Options {
            capabilities,
            ..options(2_000)
        };
        let report = passed(&mut engine::reference(), options);
        report.forms.into_keys().collect::<Vec<_>>()
    };
    let is_hidden = |form: &Form| form.name == "VPERMB" || form.is_evex && form.bits < 512;
    let found = forms(wide);
    assert!(!found.iter().any(is_hidden), "{found:?}");
    assert_eq!(found.iter().filter(|form| form.is_evex).count(), 8);
    let found = forms(Words { xcr0: 7, ..wide });
    assert!(found.iter().all(|form| !form.is_evex), "{found:?}");
}

/// CPUID's words for every feature and APX, with everything switched on.
const APX: Words = Words {
    leaf_1_ecx: 1 << 28,
    leaf_7_ebx: 1 << 5 | 1 << 16 | 1 << 30 | 1 << 31,
    leaf_7_ecx: 1 << 1,
    leaf_7_1_edx: 1 << 21,
    xcr0: 0x8_00E7,
};

#[test]
fn fixed_bits_are_left_out_with_apx() {
    if !has_all_registers() {
        return;
    }
    let with_apx = Options {
        capabilities: Capabilities::detect_as(&APX),
        ..options(ENOUGH)
    };
    let report = passed(&mut engine::reference(), with_apx);
    assert!(report.capabilities.apx());
    check_refused(&report);
    assert_eq!((report.steps(), report.refused_cases()), (3_000, 1_000));
    assert!(report.to_string().contains("EVEX fixed bits 0, "));
}

/// Whoever makes them wrong: of P, of Q, and of both.
#[test]
fn wrong_fixed_bits_are_not_executed_with_apx() {
    if !has_all_registers() {
        return;
    }
    for found in [Capabilities::detect(), Capabilities::detect_as(&APX)] {
        let capabilities = found.expect("possible features");
        let mut processor = Processor::new(capabilities).expect("pages");
        for (p, q) in [(0xF9, 0x7D), (0xF1, 0x79), (0xF9, 0x79)] {
            let code = [0x62, p, q, 0x48, 0x70, 0xCA, 0x1B];
            let outcome = processor.run(&code, &State::ZERO, &[]);
            match capabilities.apx() {
                true => assert!(matches!(outcome, Outcome::NotRun(_)), "{code:02X?}"),
                false => assert_eq!(outcome, Outcome::Undefined, "{code:02X?}"),
            }
        }
    }
}

/// The maps always, and the fixed bits with APX.
#[test]
fn report_says_what_is_left_out() {
    let maps =
        "\nEVEX maps 4 to 7 are not compared: none of these instructions is there, and newer \
         processors may have\n  others\n";
    let fixed_bits =
        "\nEVEX fixed bits are not compared: APX is on, which has a meaning for them\n";
    let all = Capabilities::detect().expect("possible features");
    if all.register_set().is_none() {
        println!("skipped: no AVX on this machine");
        return;
    }
    let with_apx = Capabilities::detect_as(&APX).expect("possible features");
    for capabilities in [all, all.without(feature::AVX512F), with_apx] {
        let some = Options {
            capabilities: Ok(capabilities),
            ..options(100)
        };
        let text = passed(&mut engine::reference(), some).to_string();
        assert_eq!(text.matches(maps).count(), 1, "{text}");
        let count = usize::from(capabilities.apx());
        assert_eq!(text.matches(fixed_bits).count(), count, "{text}");
    }
}

/// An engine that is not to be asked anything.
struct Unasked;

impl Engine for Unasked {
    fn name(&self) -> &str {
        "not asked"
    }

    fn address(&mut self, _: &[u8], _: u32, _: &[u64], _: u64) -> Addressed {
        panic!("asked for an address")
    }

    fn step(&mut self, _: &[u8], _: &mut [u8], _: &[u64], _: u32, _: &[u8]) -> Answer {
        panic!("asked for a step")
    }
}

/// A hypervisor may report what no processor has.
#[test]
fn impossible_features_are_a_failure() {
    let words = Words {
        leaf_7_ebx: 1 << 31,
        ..AVX_ALONE
    };
    let options = Options {
        capabilities: Capabilities::detect_as(&words),
        ..options(100)
    };
    match audit(&mut Unasked, options) {
        Err(failure @ Failure::Impossible(_)) => assert_eq!(
            failure.to_string(),
            "CPUID reports avx512vl without avx512f: no processor has such a set, and the library \
             refuses it with status 1; nothing was compared"
        ),
        Err(failure) => panic!("{failure}"),
        Ok(report) => panic!("{report}"),
    }
}

/// Wrong in a single bit of one byte of the file.
struct Flip {
    place: usize,
}

impl Engine for Flip {
    fn name(&self) -> &str {
        "one byte wrong"
    }

    fn address(&mut self, code: &[u8], features: u32, general: &[u64], at: u64) -> Addressed {
        engine::reference().address(code, features, general, at)
    }

    fn step(
        &mut self,
        code: &[u8],
        file: &mut [u8],
        masks: &[u64],
        features: u32,
        memory: &[u8],
    ) -> Answer {
        let answer = engine::reference().step(code, file, masks, features, memory);
        file[self.place] ^= 1 << (self.place % 8);
        answer
    }
}

#[test]
fn each_of_the_2048_bytes_counts() {
    if !has_all_registers() {
        return;
    }
    // Case 0 is carried out, case 3 is refused.
    for first_case in [0, 3] {
        for place in 0..2_048 {
            let options = Options {
                first_case,
                ..options(1)
            };
            let difference = caught(&mut Flip { place }, options);
            let [Finding::Register {
                register,
                byte,
                engine,
                expected,
                differing,
            }] = difference.findings[..]
            else {
                panic!("{difference}");
            };
            assert_eq!((64 * register + byte, differing), (place, 1));
            assert_eq!(engine ^ expected, 1 << (place % 8));
        }
    }
}

/// What a wrong engine knows about a step that the reference has done.
struct Call<'a> {
    code: &'a [u8],
    before: &'a [u8],
    masks: &'a [u64],
    memory: &'a [u8],
    decoded: Decoded,
}

impl Call<'_> {
    /// The destination's bytes.
    fn destination(&self) -> std::ops::Range<usize> {
        let start = 64 * self.decoded.destination as usize;
        start..start + 64
    }

    /// The file after the same step under other masks.
    fn with_masks(&self, masks: &[u64]) -> Vec<u8> {
        self.from(self.before.to_vec(), masks)
    }

    fn from(&self, mut file: Vec<u8>, masks: &[u64]) -> Vec<u8> {
        reference::step(self.code, &mut file, masks, feature::ALL, self.memory);
        file
    }
}

/// Changes what the reference did. It is called for accepted and for refused steps.
type Change = fn(&Call, &mut [u8], &mut Answer);

struct Wrong {
    name: &'static str,
    change: Change,
}

impl Engine for Wrong {
    fn name(&self) -> &str {
        self.name
    }

    fn address(&mut self, code: &[u8], features: u32, general: &[u64], at: u64) -> Addressed {
        engine::reference().address(code, features, general, at)
    }

    fn step(
        &mut self,
        code: &[u8],
        file: &mut [u8],
        masks: &[u64],
        features: u32,
        memory: &[u8],
    ) -> Answer {
        let before = file.to_vec();
        let mut answer = engine::reference().step(code, file, masks, features, memory);
        let call = Call {
            code,
            before: &before,
            masks,
            memory,
            decoded: decode(code, feature::ALL),
        };
        (self.change)(&call, file, &mut answer);
        answer
    }
}

/// Runs a wrong engine, sees it caught, and gives what was found.
fn findings(name: &'static str, change: Change) -> Option<Vec<Finding>> {
    if !has_all_registers() {
        return None;
    }
    let difference = caught(&mut Wrong { name, change }, options(ENOUGH));
    let again = Options {
        first_case: difference.case,
        ..options(1)
    };
    let repeated = caught(&mut Wrong { name, change }, again);
    assert_eq!(repeated.code, difference.code, "a case repeats alone");
    assert_eq!(repeated.findings, difference.findings);
    let text = difference.to_string();
    assert!(text.contains(name) && text.contains(&format!("--case {}", difference.case)));
    Some(difference.findings)
}

/// A wrong engine whose only slip is in register bytes.
fn register_bytes_differ(name: &'static str, change: Change) {
    let Some(findings) = findings(name, change) else {
        return;
    };
    assert!(
        matches!(findings[..], [Finding::Register { .. }]),
        "{findings:?}"
    );
}

fn status_differs(name: &'static str, change: Change) {
    let Some(findings) = findings(name, change) else {
        return;
    };
    assert!(
        matches!(findings[..], [Finding::Status { .. }]),
        "{findings:?}"
    );
}

fn reason_differs(name: &'static str, change: Change) {
    let Some(findings) = findings(name, change) else {
        return;
    };
    assert!(
        matches!(findings[..], [Finding::Reason { .. }]),
        "{findings:?}"
    );
}

fn length_differs(name: &'static str, change: Change) {
    let Some(findings) = findings(name, change) else {
        return;
    };
    assert!(
        matches!(findings[..], [Finding::Length { .. }]),
        "{findings:?}"
    );
}

#[test]
fn byte_63_kept_instead_of_cleared() {
    register_bytes_differ("keeps byte 63", |call, file, answer| {
        if answer.status == 0 && call.decoded.bits < 512 {
            let last = call.destination().end - 1;
            file[last] = call.before[last];
        }
    });
}

#[test]
fn wrong_from_byte_8_on() {
    let name = "right in bytes 0 to 7 only";
    let found = findings(name, |call, file, answer| {
        if answer.status == 0 {
            let wrong = call.destination().start + 8..call.destination().end;
            file[wrong].iter_mut().for_each(|byte| *byte ^= 0xFF);
        }
    });
    let Some(found) = found else { return };
    let [Finding::Register {
        byte, differing, ..
    }] = found[..]
    else {
        panic!("{found:?}");
    };
    assert_eq!((byte, differing), (8, 56));
}

#[test]
fn mask_bit_counted_per_byte() {
    register_bytes_differ("a mask bit for each byte", |call, file, answer| {
        let decoded = call.decoded;
        if answer.status != 0 || decoded.mask == 0 {
            return;
        }
        let all = call.with_masks(&[u64::MAX; 8]);
        let mask = call.masks[decoded.mask as usize];
        for (j, place) in call.destination().enumerate() {
            let kept = if decoded.zeroing == 1 {
                0
            } else {
                call.before[place]
            };
            let is_above = j >= decoded.bits as usize / 8;
            let is_written = is_above || mask >> j & 1 == 1;
            file[place] = if is_written { all[place] } else { kept };
        }
    });
}

#[test]
fn merging_instead_of_zeroing() {
    register_bytes_differ("merges always", |call, file, answer| {
        if answer.status == 0 && call.decoded.zeroing == 1 {
            let mut merging = call.code.to_vec();
            merging[3] &= 0x7F;
            let mut start = call.before.to_vec();
            reference::step(&merging, &mut start, call.masks, feature::ALL, call.memory);
            file.copy_from_slice(&start);
        }
    });
}

#[test]
fn destination_written_before_it_is_read() {
    register_bytes_differ("clears the destination first", |call, file, answer| {
        if answer.status == 0 && call.decoded.mask == 0 {
            let mut start = call.before.to_vec();
            start[call.destination()].fill(0);
            let after = call.from(start, call.masks);
            file[call.destination()].copy_from_slice(&after[call.destination()]);
        }
    });
}

#[test]
fn only_the_last_lane_wrong() {
    register_bytes_differ("last lane of 512 bits", |call, file, answer| {
        if answer.status == 0 && call.decoded.bits == 512 {
            let last = call.destination().end - 16..call.destination().end;
            file[last].rotate_left(1);
        }
    });
}

/// VPSHUFB on registers of which no two are the same.
fn is_byte_shuffle(call: &Call) -> bool {
    let Decoded {
        mnemonic,
        destination,
        first,
        third,
        ..
    } = call.decoded;
    let are_different = destination != first && destination != third && first != third;
    mnemonic == 10 && call.memory.is_empty() && are_different
}

#[test]
fn bit_7_of_a_control_not_looked_at() {
    register_bytes_differ("VPSHUFB without zeros", |call, file, answer| {
        if answer.status == 0 && is_byte_shuffle(call) {
            let mut start = call.before.to_vec();
            let controls = &mut start[64 * call.decoded.third as usize..][..64];
            controls.iter_mut().for_each(|control| *control &= 0x7F);
            let after = call.from(start, call.masks);
            file[call.destination()].copy_from_slice(&after[call.destination()]);
        }
    });
}

#[test]
fn bit_7_of_a_control_counted_where_the_mask_is_0() {
    register_bytes_differ("VPSHUFB clears what it keeps", |call, file, answer| {
        let Decoded {
            third, mask, bits, ..
        } = call.decoded;
        if answer.status != 0 || !is_byte_shuffle(call) || mask == 0 {
            return;
        }
        for (j, place) in call.destination().take(bits as usize / 8).enumerate() {
            let is_kept = call.masks[mask as usize] >> j & 1 == 0;
            if is_kept && call.before[64 * third as usize + j] >= 0x80 {
                file[place] = 0;
            }
        }
    });
}

#[test]
fn bit_4_of_a_control_counted() {
    register_bytes_differ("VPSHUFB across lanes", |call, file, answer| {
        let Decoded {
            first,
            third,
            mask,
            bits,
            ..
        } = call.decoded;
        if answer.status != 0 || !is_byte_shuffle(call) || mask != 0 {
            return;
        }
        let bytes = bits as usize / 8;
        for (j, place) in call.destination().take(bytes).enumerate() {
            let control = call.before[64 * third as usize + j];
            let pick = (j / 16 * 16 + usize::from(control & 31)) % bytes;
            if control < 0x80 {
                file[place] = call.before[64 * first as usize + pick];
            }
        }
    });
}

#[test]
fn low_halves_taken_for_high_ones() {
    register_bytes_differ("VUNPCKHPS as VUNPCKLPS", |call, file, answer| {
        if answer.status == 0 && call.decoded.mnemonic == 7 {
            let mut low = call.code.to_vec();
            let opcode = match low[0] {
                0xC5 => 2,
                0xC4 => 3,
                _ => 4,
            };
            low[opcode] = 0x14;
            file.copy_from_slice(call.before);
            reference::step(&low, file, call.masks, feature::ALL, call.memory);
        }
    });
}

#[test]
fn w_1_of_a_byte_shuffle_refused() {
    let found = findings("VPSHUFB under EVEX with W 0 alone", |call, file, answer| {
        let is_w1 = call.code[0] == 0x62 && call.code[2] >= 0x80;
        if answer.status == 0 && call.decoded.mnemonic == 10 && is_w1 {
            file.copy_from_slice(call.before);
            answer.status = 3;
            answer.length = 0;
        }
    });
    let Some(found) = found else { return };
    let refused = Finding::Status {
        expected: 0,
        found: 3,
    };
    assert_eq!(found[0], refused);
}

#[test]
fn another_register_written() {
    register_bytes_differ("writes register 31 too", |call, file, answer| {
        if answer.status == 0 && call.decoded.destination != 31 {
            file[2_047] ^= 0x80;
        }
    });
}

#[test]
fn registers_changed_by_a_refusal() {
    register_bytes_differ("a refusal changes a byte", |_, file, answer| {
        if answer.status == 4 {
            file[1_000] = !file[1_000];
        }
    });
}

#[test]
fn wrong_status_of_a_refusal() {
    status_differs("3 for 4", |_, _, answer| {
        if answer.status == 4 {
            answer.status = 3;
        }
    });
}

#[test]
fn wrong_status_of_an_accepted_step() {
    status_differs("5 for some 512-bit steps", |call, _, answer| {
        if answer.status == 0 && call.decoded.bits == 512 && call.decoded.immediate / 8 == 9 {
            answer.status = 5;
        }
    });
}

/// One field taken for the next.
fn next_field<const REASON: u32>(_: &Call, _: &mut [u8], answer: &mut Answer) {
    answer.reason += u32::from(answer.reason == REASON);
}

#[test]
fn wrong_reason_of_a_refusal() {
    let wrong: [Change; 6] = [
        next_field::<1>,
        next_field::<2>,
        next_field::<3>,
        next_field::<4>,
        next_field::<5>,
        next_field::<6>,
    ];
    // With APX no fixed bit is wrong, so that nothing has reason 1.
    let apx = Capabilities::detect().expect("possible features").apx();
    for change in &wrong[usize::from(apx)..] {
        reason_differs("the next field", *change);
    }
}

#[test]
fn no_reason_of_a_refusal() {
    let found = findings("4 without a reason", |_, _, answer| answer.reason = 0);
    let Some(found) = found else { return };
    let [Finding::Reason { expected, found: 0 }] = found[..] else {
        panic!("{found:?}");
    };
    let text = format!("engine: reason 0; expected: reason {expected}");
    assert_eq!(found[0].to_string(), text);
}

#[test]
fn reason_of_an_accepted_step() {
    reason_differs("a reason with 0", |_, _, answer| {
        if answer.status == 0 {
            answer.reason = 4;
        }
    });
}

#[test]
fn reserved_field_not_refused() {
    let found = findings("accepts everything", |call, _, answer| {
        if answer.status == 4 {
            *answer = Answer {
                status: 0,
                length: call.code.len() as u32,
                reason: 0,
            };
        }
    });
    let Some(found) = found else { return };
    assert!(matches!(
        found[..],
        [
            Finding::Status {
                expected: 4,
                found: 0
            },
            Finding::Length { expected: 0, .. },
            Finding::Reason {
                expected: 1..=6,
                found: 0
            }
        ]
    ));
}

#[test]
fn length_of_all_the_bytes() {
    length_differs("takes trailing bytes along", |call, _, answer| {
        if answer.status == 0 {
            answer.length = call.code.len() as u32;
        }
    });
}

#[test]
fn length_of_a_refusal() {
    length_differs("a refusal has a length", |_, _, answer| {
        if answer.status == 4 {
            answer.length = 4;
        }
    });
}
