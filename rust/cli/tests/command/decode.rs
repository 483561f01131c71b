//! `tarhuspo decode`.

use crate::tools::{assert_bad_usage, printed, run, WRONG_B, WRONG_VVVV, WRONG_WIDTH};

/// The first line for bytes that are accepted.
fn instruction(bytes: &str) -> String {
    let words = printed(&["decode", bytes]);
    words.lines().next().unwrap_or("").to_string()
}

/// The refusal is what was asked for, and goes to standard output.
fn assert_refused(arguments: &[&str], status: u32) {
    let words = format!("{status}: {}", tarhuspo::describe(status));
    assert_refused_with(arguments, &words);
}

fn assert_refused_with(arguments: &[&str], words: &str) {
    let answer = format!("refused, status {words}\n");
    assert_eq!(
        run(arguments),
        (Some(1), answer, String::new()),
        "{arguments:?}"
    );
}

/// What stands behind `status` for the six wrong fields, in the order of their numbers.
const WRONG: [&str; 6] = [
    "4 (#UD), reason 1: The EVEX fixed bits must be 0 (bit 3 of the second byte) and 1 (bit 2 of \
     the third).",
    "4 (#UD), reason 2: W must be 0 in the VEX form of this instruction.",
    WRONG_WIDTH,
    WRONG_VVVV,
    WRONG_B,
    "4 (#UD), reason 6: z must be 0 without an opmask (aaa 000b).",
];

fn assert_reason(bytes: &str, reason: usize) {
    assert_refused_with(&["decode", bytes], WRONG[reason - 1]);
}

#[test]
fn accepted_register_form() {
    let expected = "\
vpshufd zmm1{k1}{z}, zmm2, 0x1b
length:        7 bytes
memory:        none
encoding:      EVEX
vector width:  512 bits
destination:   zmm1
first source:  none
third operand: zmm2
opmask:        k1
masked off:    elements are zeroed
broadcast:     none
immediate:     0x1b
";
    let ran = run(&["decode", "62F17DC970CA1B"]);
    assert_eq!(ran, (Some(0), expected.to_string(), String::new()));
}

#[test]
fn accepted_broadcast_form() {
    let expected = "\
vpermilpd ymm17{k3}, ymm9, qword ptr [rax]{1to4}
length:        6 bytes
memory:        8 bytes
encoding:      EVEX
vector width:  256 bits
destination:   ymm17
first source:  ymm9
third operand: [rax]
opmask:        k3
masked off:    elements are merged
broadcast:     one qword to 4
immediate:     none
";
    let ran = run(&["decode", "62 E2 B5 3B 0D 08"]);
    assert_eq!(ran, (Some(0), expected.to_string(), String::new()));
}

/// A byte has no broadcast, and a mask bit for each byte.
#[test]
fn accepted_byte_form() {
    let expected = "\
vpshufb xmm25{k5}, xmm2, xmmword ptr [rax + 0x100]
length:        7 bytes
memory:        16 bytes
encoding:      EVEX
vector width:  128 bits
destination:   xmm25
first source:  xmm2
third operand: [rax + 0x100]
opmask:        k5
masked off:    elements are merged
broadcast:     none
immediate:     none
";
    let ran = run(&["decode", "62 62 ED 0D 00 48 10"]);
    assert_eq!(ran, (Some(0), expected.to_string(), String::new()));
}

/// Each instruction as an assembler would write it.
fn assert_written(instructions: &[(&str, &str)]) {
    for &(bytes, expected) in instructions {
        assert_eq!(instruction(bytes), expected, "{bytes}");
    }
}

#[test]
fn document_01s_instructions_are_written_as_an_assembler_would() {
    assert_written(&[
        ("C5 F9 70 CA 1B", "vpshufd xmm1, xmm2, 0x1b"),
        (
            "C5 F9 70 44 88 10 1B",
            "vpshufd xmm0, xmmword ptr [rax + rcx*4 + 0x10], 0x1b",
        ),
        (
            "62 F1 7D 58 70 08 00",
            "vpshufd zmm1, dword ptr [rax]{1to16}, 0x00",
        ),
        ("62 81 7D 48 70 CA 1B", "vpshufd zmm17, zmm26, 0x1b"),
        ("C4 E3 7D 05 CA 05", "vpermilpd ymm1, ymm2, 0x05"),
        ("C4 E2 69 0D CB", "vpermilpd xmm1, xmm2, xmm3"),
        ("62 F2 6D 48 8D CB", "vpermb zmm1, zmm2, zmm3"),
        ("62 F2 6D 48 8D 08", "vpermb zmm1, zmm2, zmmword ptr [rax]"),
        ("C5 E8 14 CB", "vunpcklps xmm1, xmm2, xmm3"),
        ("C4 E3 6D 06 CB 88", "vperm2f128 ymm1, ymm2, ymm3, 0x88"),
        (
            "C4 E3 6D 06 08 31",
            "vperm2f128 ymm1, ymm2, ymmword ptr [rax], 0x31",
        ),
    ]);
}

#[test]
fn request_1s_instructions_are_written_as_an_assembler_would() {
    assert_written(&[
        ("C4 E3 79 04 CA 1B", "vpermilps xmm1, xmm2, 0x1b"),
        (
            "62 F3 7D 58 04 08 1B",
            "vpermilps zmm1, dword ptr [rax]{1to16}, 0x1b",
        ),
        ("C4 E2 6D 0C CB", "vpermilps ymm1, ymm2, ymm3"),
        (
            "62 F2 6D 18 0C 08",
            "vpermilps xmm1, xmm2, dword ptr [rax]{1to4}",
        ),
        ("C5 E8 15 CB", "vunpckhps xmm1, xmm2, xmm3"),
        (
            "62 F1 6C 38 15 08",
            "vunpckhps ymm1, ymm2, dword ptr [rax]{1to8}",
        ),
        ("C5 E9 14 CB", "vunpcklpd xmm1, xmm2, xmm3"),
        ("C4 E1 E9 14 CB", "vunpcklpd xmm1, xmm2, xmm3"),
        ("62 F1 ED 48 14 CB", "vunpcklpd zmm1, zmm2, zmm3"),
        ("C5 ED 15 08", "vunpckhpd ymm1, ymm2, ymmword ptr [rax]"),
        (
            "62 F1 ED 18 15 08",
            "vunpckhpd xmm1, xmm2, qword ptr [rax]{1to2}",
        ),
        ("C4 E2 69 00 CB", "vpshufb xmm1, xmm2, xmm3"),
        ("62 F2 6D 48 00 CB", "vpshufb zmm1, zmm2, zmm3"),
        ("62 F2 ED 48 00 CB", "vpshufb zmm1, zmm2, zmm3"),
        ("62 F2 6D 48 00 08", "vpshufb zmm1, zmm2, zmmword ptr [rax]"),
    ]);
}

/// vunpcklps xmm1, xmm2 and memory, which every prefix has.
#[test]
fn memory_is_written_as_an_assembler_would() {
    let operands = [
        ("C5 E8 14 08", "[rax]"),
        ("C4 C1 68 14 08", "[r8]"),
        ("C5 E8 14 0C 24", "[rsp]"),
        ("C4 C1 68 14 0C 24", "[r12]"),
        ("C5 E8 14 4D 00", "[rbp]"),
        ("C4 C1 68 14 4D 00", "[r13]"),
        ("C5 E8 14 4D 7F", "[rbp + 0x7f]"),
        ("C5 E8 14 4D 80", "[rbp - 0x80]"),
        ("C5 E8 14 8B 00 00 00 80", "[rbx - 0x80000000]"),
        ("C5 E8 14 8B FF FF FF 7F", "[rbx + 0x7fffffff]"),
        ("C5 E8 14 0C 08", "[rax + rcx*1]"),
        ("C5 E8 14 0C 4D 00 00 00 00", "[rcx*2]"),
        ("C5 E8 14 0C CD 10 00 00 00", "[rcx*8 + 0x10]"),
        ("C4 A1 68 14 4C A3 C0", "[rbx + r12*4 - 0x40]"),
        ("C4 81 68 14 4C E5 01", "[r13 + r12*8 + 0x1]"),
        ("C4 C1 68 14 0C 65 10 00 00 00", "[0x10]"),
        ("C5 E8 14 0C 25 00 00 00 80", "[0xffffffff80000000]"),
        ("C5 E8 14 0C 25 00 00 00 00", "[0x0]"),
        ("C5 E8 14 0D 10 00 00 00", "[rip + 0x10]"),
        ("C4 C1 68 14 0D F0 FF FF FF", "[rip - 0x10]"),
        ("C5 E8 14 0D 00 00 00 00", "[rip]"),
        ("62 F1 6C 08 14 48 FF", "[rax - 0x10]"),
    ];
    for (bytes, operand) in operands {
        let expected = format!("vunpcklps xmm1, xmm2, xmmword ptr {operand}");
        assert_eq!(instruction(bytes), expected, "{bytes}");
        let third = format!("\nthird operand: {operand}\n");
        assert!(printed(&["decode", bytes]).contains(&third), "{bytes}");
    }
}

/// EVEX counts a displacement of one byte in what is read; it is written in bytes.
#[test]
fn displacements_are_written_in_bytes() {
    assert_written(&[
        (
            "62 F1 6C 48 14 48 80",
            "vunpcklps zmm1, zmm2, zmmword ptr [rax - 0x2000]",
        ),
        (
            "62 F1 6C 48 14 48 FF",
            "vunpcklps zmm1, zmm2, zmmword ptr [rax - 0x40]",
        ),
        (
            "62 F1 6C 48 14 48 7F",
            "vunpcklps zmm1, zmm2, zmmword ptr [rax + 0x1fc0]",
        ),
        (
            "62 F1 6C 28 14 48 01",
            "vunpcklps ymm1, ymm2, ymmword ptr [rax + 0x20]",
        ),
        (
            "62 F1 6C 58 14 48 FF",
            "vunpcklps zmm1, zmm2, dword ptr [rax - 0x4]{1to16}",
        ),
        (
            "62 F1 ED 58 14 48 FF",
            "vunpcklpd zmm1, zmm2, qword ptr [rax - 0x8]{1to8}",
        ),
        (
            "62 F1 6C 48 14 88 FF FF FF FF",
            "vunpcklps zmm1, zmm2, zmmword ptr [rax - 0x1]",
        ),
    ]);
}

#[test]
fn bytes_may_be_written_in_several_ways() {
    let expected = run(&["decode", "c5f970ca1b"]);
    assert_eq!(expected.0, Some(0));
    for arguments in [
        &["decode", "C5", "F9", "70", "CA", "1B"][..],
        &["decode", " C5 F9\t70", "CA1B "],
        &["decode", "0xC5F970CA1B"],
        &["decode", "hex:C5F970CA1B"],
        &["decode", "0XC5 0xF9 70", "", "0xCA1b"],
        &["decode", "--features", "63", "C5F970CA1B"],
        &["decode", "C5F9", "--features=avx", "70CA1B"],
        &["decode", "C5F970CA1B", "--features", "AVX,avx2"],
        &["decode", "C5F970CA1B", "--features", "0x3F"],
        &[
            "decode",
            "C5F970CA1B90",
            "--features",
            "avx,avx2,avx512f,avx512vl,avx512_vbmi,avx512bw",
        ],
    ] {
        assert_eq!(run(arguments), expected, "{arguments:?}");
    }
}

#[test]
fn refusals_have_number_and_sentence() {
    assert_refused(&["decode", "C5 F9 70 CA 1B", "--features", "64"], 1);
    assert_refused(&["decode", "C5 F9 70 CA 1B", "--features", "4294967295"], 1);
    assert_refused(&["decode", "C5 F9 70 CA"], 2);
    assert_refused(&["decode", ""], 2);
    assert_refused(&["decode", "90"], 3);
    assert_refused(&["decode", "C5 FD 70 CA 1B", "--features", "avx"], 5);
    assert_refused(&["decode", "C5 F9 70 CA 1B", "--features", "0"], 5);
}

/// vpshufb zmm1, zmm2, zmm3 needs AVX512BW, and so what that needs.
#[test]
fn features_of_a_byte_form() {
    const CODE: &str = "62 F2 6D 48 00 CB";
    let accepted = run(&["decode", CODE]);
    assert_eq!(accepted.0, Some(0));
    for features in ["63", "37", "avx,avx512f,AVX512BW"] {
        let ran = run(&["decode", CODE, "--features", features]);
        assert_eq!(ran, accepted, "{features}");
    }
    for features in ["31", "0", "avx,avx512f,avx512_vbmi"] {
        assert_refused(&["decode", CODE, "--features", features], 5);
    }
}

#[test]
fn refusals_of_the_lane_permutes() {
    // VPSHUFB with b 1, and VUNPCKLPD under EVEX with W 0.
    assert_reason("62 F2 6D 58 00 08", 5);
    assert_refused(&["decode", "62 F1 6D 48 14 CB"], 3);
    // VPERMILPS with an immediate: vvvv, then VEX W.
    assert_reason("C4 E3 69 04 CA 1B", 4);
    assert_reason("C4 E3 F9 04 CA 1B", 2);
    // vpshufb ymm1, ymm2, ymm3 needs AVX2.
    assert_refused(&["decode", "C4 E2 6D 00 CB", "--features", "61"], 5);
    let decoded = printed(&["decode", "C4 E2 6D 00 CB", "--features", "avx,avx2"]);
    assert!(decoded.starts_with("vpshufb "), "{decoded}");
}

#[test]
fn each_wrong_field_is_named() {
    let fields = [
        // Bit 3 of the second byte, whatever the map is, and bit 2 of the third.
        (
            1,
            &[
                "62F97D4870CA1B",
                "62FD7D4870CA1B",
                "62F1794870CA1B",
                "62F5794870CA1B",
                "62FD794870CA1B",
            ][..],
        ),
        // VPERMILPD, VPERMILPS and VPERM2F128 with W 1.
        (
            2,
            &["C4E3FD05CA05", "C4E2E90DCB", "C4E2E90CCB", "C4E3ED06CB31"],
        ),
        // L'L 11b, and VPERM2F128 with L 0.
        (3, &["62F17D6870CA1B", "62F26D688DCB", "C4E36906CB31"]),
        // vvvv under VEX and EVEX, and V'.
        (4, &["C5E970CA1B", "62F1754870CA1B", "62F17D4070CA1B"]),
        // With a register, and on the byte permutes with either operand.
        (
            5,
            &[
                "62F17D5870CA1B",
                "62F26D588D08",
                "62F26D588DCB",
                "62F26D5800CB",
            ],
        ),
        (6, &["62F17DC870CA1B", "62F26DC88DCB"]),
    ];
    for (reason, codes) in fields {
        for code in codes {
            assert_reason(code, reason);
        }
    }
}

/// vpshufd zmm1, zmm2, 0x1b is in map 1. Where a map has no instruction, wrong fields and missing
/// bytes behind the opcode do not show.
#[test]
fn other_evex_maps_have_no_instruction() {
    assert_eq!(
        instruction("62 F1 7D 48 70 CA 1B"),
        "vpshufd zmm1, zmm2, 0x1b"
    );
    for map in [0, 4, 5, 6, 7] {
        for rest in ["7D 48 70 CA 1B", "75 F8 70 CA 1B", "7D 48 70"] {
            let code = format!("62 F{map} {rest}");
            assert_refused(&["decode", &code], 3);
        }
        assert_refused(&["decode", &format!("62 F{map} 7D 48")], 2);
    }
    // The answer as a person sees it.
    let answer = "refused, status 3: The bytes are not one of the supported instructions.\n";
    let ran = run(&["decode", "62F57D4870CA1B"]);
    assert_eq!(ran, (Some(1), answer.to_string(), String::new()));
}

/// One field after the other put right, until the instruction is accepted.
#[test]
fn the_first_of_several_wrong_fields_is_named() {
    assert_reason("62 F9 75 F8 70 CA 1B", 1);
    assert_reason("62 F1 75 F8 70 CA 1B", 3);
    assert_reason("62 F1 75 D8 70 CA 1B", 4);
    assert_reason("62 F1 7D D8 70 CA 1B", 5);
    assert_reason("62 F1 7D C8 70 CA 1B", 6);
    assert_eq!(
        instruction("62 F1 7D C9 70 CA 1B"),
        "vpshufd zmm1{k1}{z}, zmm2, 0x1b"
    );
    // VPERM2F128 with W 1 and L 0.
    assert_reason("C4 E3 E9 06 CB 31", 2);
    assert_reason("C4 E3 69 06 CB 31", 3);
    assert_eq!(
        instruction("C4 E3 6D 06 CB 31"),
        "vperm2f128 ymm1, ymm2, ymm3, 0x31"
    );
    // A field comes before a feature that is missing.
    let arguments = ["decode", "C4 E3 E9 05 CA 05", "--features", "0"];
    assert_refused_with(&arguments, WRONG[1]);
}

#[test]
fn bad_usage_is_one_line() {
    let bytes = "expected hex bytes after 'decode', as in: decode C5 F9 70 CA 1B";
    assert_bad_usage(&["decode"], bytes);
    assert_bad_usage(&["decode", "--features", "63"], bytes);
    assert_bad_usage(
        &["decode", "C5F"],
        "expected pairs of hex digits, not 'C5F'",
    );
    assert_bad_usage(&["decode", "0x"], "expected pairs of hex digits, not '0x'");
    assert_bad_usage(&["decode", "+5"], "expected pairs of hex digits, not '+5'");
    assert_bad_usage(&["decode", "é"], "expected pairs of hex digits, not 'é'");
    assert_bad_usage(
        &["decode", "G\u{7}"],
        "expected pairs of hex digits, not 'G\\u{7}'",
    );
    let cut = format!("expected pairs of hex digits, not '{}..'", "5".repeat(40));
    assert_bad_usage(&["decode", &"5".repeat(41)], &cut);
    let option = "expected no option but --features, not '--feature'";
    assert_bad_usage(&["decode", "90", "--feature", "1"], option);
}

#[test]
fn bad_features_are_one_line() {
    let missing = "expected a list or a number after --features";
    assert_bad_usage(&["decode", "90", "--features"], missing);
    let twice = "expected --features only once";
    assert_bad_usage(&["decode", "90", "--features=1", "--features=1"], twice);
    for given in ["4294967296", "0x+1", "0x", "1,2"] {
        let number = format!("expected a feature number below 2^32, not '{given}'");
        assert_bad_usage(&["decode", "90", "--features", given], &number);
    }
    let names = "avx, avx2, avx512f, avx512vl, avx512_vbmi, avx512bw";
    for (list, named) in [("avx,sse", "sse"), ("", ""), ("avx,", ""), ("-1", "-1")] {
        let message = format!("expected features among {names}, not '{named}'");
        assert_bad_usage(&["decode", "90", "--features", list], &message);
    }
}
