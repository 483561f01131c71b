//! `tarhuspo run`.

use crate::tools::{assert_bad_usage, printed, registers, run, run_with_input, Folder};
use crate::tools::{WRONG_VVVV, WRONG_WIDTH};

/// vunpcklps xmm1, xmm2, xmm3; vpshufd xmm17, xmm26, 0xe4
const LIST: &str = "hex:C5E814CB 62817D0870CAE4";
const LIST_BYTES: [u8; 11] = [
    0xC5, 0xE8, 0x14, 0xCB, 0x62, 0x81, 0x7D, 0x08, 0x70, 0xCA, 0xE4,
];

fn report(steps: u64, place: &str, answer: &str, changed: &str) -> String {
    format!("steps:   {steps}\nplace:   {place}\nanswer:  {answer}\nchanged: {changed}\n")
}

fn refusal(status: u32) -> String {
    format!("{status}: {}", tarhuspo::describe(status))
}

const END: &str = "0: The end of the code was reached.";
const SPENT: &str = "0: The budget was spent.";

#[test]
fn steps_place_answer_and_changed_registers() {
    let folder = Folder::new("run_report");
    let before = folder.write("before.bin", registers());
    let changed = "zmm1 (bytes 0..63), zmm17 (bytes 0..63)";
    let out = printed(&["run", LIST, "--registers", &before]);
    assert_eq!(out, report(2, "11 of 11", END, changed));
    let arguments = ["run", "--budget", "1", LIST, "--registers", &before];
    let expected = report(1, "4 of 11", SPENT, "zmm1 (bytes 0..63)");
    assert_eq!(printed(&arguments), expected);
    let arguments = ["run", "--budget=0", LIST, "--registers", &before];
    assert_eq!(printed(&arguments), report(0, "0 of 11", SPENT, "none"));
    let arguments = ["run", "hex:", "--registers", &before];
    assert_eq!(printed(&arguments), report(0, "0 of 0", END, "none"));
}

/// Only the bytes that are not as before are named.
#[test]
fn changed_bytes_in_runs() {
    let folder = Folder::new("run_changed");
    let mut bytes = vec![0; 2_048];
    // vpshufd zmm1, zmm2, 0xe4 copies register 2.
    for place in [128, 129, 131, 136, 137, 191] {
        bytes[place] = 9;
    }
    let before = folder.write("before.bin", &bytes);
    let arguments = ["run", "hex:62F17D4870CAE4", "--registers", &before];
    let expected = report(1, "7 of 7", END, "zmm1 (bytes 0..1, 3, 8..9, 63)");
    assert_eq!(printed(&arguments), expected);

    bytes[128..192].fill(0);
    bytes[133] = 1;
    let before = folder.write("before.bin", &bytes);
    let arguments = ["run", "hex:62F17D4870CAE4", "--registers", &before];
    let expected = report(1, "7 of 7", END, "zmm1 (byte 5)");
    assert_eq!(printed(&arguments), expected);
}

#[test]
fn registers_are_zero_if_not_given() {
    let folder = Folder::new("run_zero");
    let after = folder.path("after.bin");
    let changed = "none, as all registers were zero (see --registers)";
    let out = printed(&["run", LIST, "--out", &after]);
    assert_eq!(out, report(2, "11 of 11", END, changed));
    assert_eq!(folder.read("after.bin"), [0; 2_048]);
}

/// The file that the library leaves for the same inputs.
fn library_file(code: &[u8], masks: [u64; 8], features: u32) -> Vec<u8> {
    let mut file = registers();
    let ran = tarhuspo::run(code, &mut file, &masks, features, 4_096);
    assert_eq!(ran.status, 0);
    file
}

#[test]
fn masks_and_features_count() {
    let folder = Folder::new("run_masks");
    let before = folder.write("before.bin", registers());
    let after = folder.path("after.bin");
    // vpshufd zmm1{k1}{z}, zmm2, 0x1b
    let (code, bytes) = (
        "hex:62F17DC970CA1B",
        [0x62, 0xF1, 0x7D, 0xC9, 0x70, 0xCA, 0x1B],
    );
    let text = "# k0 first\n0, 0xF0F0\n0 0 0 0 0 FFFFFFFFFFFFFFFF\n";
    let masks = folder.write("masks.txt", text);
    let inline = format!("hex:{}", text.replace("# k0 first\n", ""));
    for given in [&masks, &inline] {
        let rest = ["--registers", &before, "--out", &after, "--masks", given];
        printed(&[&["run", code, "--features", "avx,avx512f"], &rest[..]].concat());
        let expected = library_file(&bytes, [0, 0xF0F0, 0, 0, 0, 0, 0, u64::MAX], 5);
        assert_eq!(folder.read("after.bin"), expected, "{given}");
    }
    let (status, ..) = run(&["run", code, "--registers", &before, "--out", &after]);
    assert_eq!(status, Some(0));
    assert_eq!(folder.read("after.bin"), library_file(&bytes, [0; 8], 63));

    let (status, out, _) = run(&["run", code, "--features", "avx,avx2"]);
    assert_eq!(status, Some(1));
    assert_eq!(out, report(0, "0 of 7", &refusal(5), "none"));
}

/// Each of the lane permutes once, on 16 bytes that are known beforehand.
#[test]
fn lane_permutes_move_as_the_manual_says() {
    let folder = Folder::new("run_lanes");
    let mut bytes = vec![0xEE; 2_048];
    let (first, third) = (128, 192);
    for i in 0..16 {
        bytes[first + i] = 0x10 + i as u8;
        // Its doublewords begin with 3F, 3A, 35 and 30.
        bytes[third + i] = 0x3F - (i + i / 4) as u8;
    }
    let doublewords = |picks: [(usize, usize); 4]| elements(&bytes, 4, &picks);
    let quadwords = |picks: [(usize, usize); 2]| elements(&bytes, 8, &picks);
    let cases = [
        // vpermilps xmm1, xmm2, 0x4e
        (
            "C4E37904CA4E",
            doublewords([2, 3, 0, 1].map(|e| (first, e))),
        ),
        // vpermilps xmm1, xmm2, xmm3
        ("C4E2690CCB", doublewords([3, 2, 1, 0].map(|e| (first, e)))),
        // vunpckhps, vunpcklpd and vunpckhpd xmm1, xmm2, xmm3
        (
            "C5E815CB",
            doublewords([(first, 2), (third, 2), (first, 3), (third, 3)]),
        ),
        ("C5E914CB", quadwords([(first, 0), (third, 0)])),
        ("C5E915CB", quadwords([(first, 1), (third, 1)])),
    ];
    let before = folder.write("before.bin", &bytes);
    let after = folder.path("after.bin");
    for (code, expected) in cases {
        let code = format!("hex:{code}");
        printed(&["run", &code, "--registers", &before, "--out", &after]);
        let file = folder.read("after.bin");
        assert_eq!(file[64..80], expected, "{code}");
        assert_eq!(file[80..128], [0; 48], "{code}");
        assert_eq!((&file[..64], &file[128..]), (&bytes[..64], &bytes[128..]));
    }
}

/// Elements of `size` bytes, each given by where its register starts and by its number there.
fn elements(file: &[u8], size: usize, picks: &[(usize, usize)]) -> Vec<u8> {
    let picked = picks
        .iter()
        .map(|(start, number)| &file[start + size * number..][..size]);
    picked.collect::<Vec<_>>().concat()
}

/// vpshufb zmm1{k1}, zmm2, zmm3 with controls that have bit 7, and bits 6:4, which do not count.
#[test]
fn bytes_are_shuffled_or_cleared() {
    let folder = Folder::new("run_shuffle");
    let mut bytes = registers();
    let controls = [0x00, 0x0F, 0x10, 0x7F, 0x80, 0xFF, 0x85, 0x05];
    for (i, byte) in bytes[192..256].iter_mut().enumerate() {
        *byte = controls[(i + i / 16) % 8];
    }
    let before = folder.write("before.bin", &bytes);
    let after = folder.path("after.bin");
    let (code, mask) = ("hex:62F26D4900CB", 0xFFFF_00FF_F0F0_5AA5_u64);
    let masks = format!("hex:0 {mask:X} 0 0 0 0 0 0");
    let given = ["--masks", &masks, "--registers", &before, "--out", &after];
    printed(&[&["run", code], &given[..]].concat());
    let mut expected = bytes.clone();
    for i in (0..64).filter(|i| mask >> i & 1 == 1) {
        let control = bytes[192 + i];
        let source = 128 + (i & 0x30) + usize::from(control & 15);
        expected[64 + i] = if control < 0x80 { bytes[source] } else { 0 };
    }
    assert_eq!(folder.read("after.bin"), expected);

    let (status, out, _) = run(&[&["run", code, "--features", "31"], &given[..]].concat());
    assert_eq!(status, Some(1));
    assert!(
        out.starts_with(&report(0, "0 of 6", &refusal(5), "none")),
        "{out}"
    );
}

/// vunpcklps xmm1, xmm2, xmm3; vpshufd xmm1, [rax], 0x1b, which a run refuses with 6
const REFUSED: &str = "hex:C5E814CB C5F97008 1B";

fn refused_report() -> String {
    report(1, "4 of 9", &refusal(6), "zmm1 (bytes 0..63)")
}

#[test]
fn a_refused_run_writes_no_file_and_says_how_to_get_one() {
    let folder = Folder::new("run_refused");
    let before = folder.write("before.bin", registers());
    let after = folder.write("after.bin", "as before");
    let (status, out, err) = run(&["run", REFUSED, "--registers", &before, "--out", &after]);
    assert_eq!((status, err.as_str()), (Some(1), ""));
    let line = "out:     not written; --keep-steps would write the registers after 1 step\n";
    assert_eq!(out, refused_report() + line);
    assert_eq!(folder.read("after.bin"), b"as before");
    assert_eq!(folder.names(), ["after.bin", "before.bin"]);

    let (status, out, _) = run(&["run", REFUSED, "--registers", &before]);
    assert_eq!((status, out), (Some(1), refused_report()));
    assert_eq!(folder.names(), ["after.bin", "before.bin"]);
}

#[test]
fn a_refused_run_keeps_its_steps_when_asked_to() {
    let folder = Folder::new("run_kept");
    let before = folder.write("before.bin", registers());
    let after = folder.write("after.bin", "as before");
    let rest = ["--registers", &before, "--keep-steps", "--out", &after];
    let (status, out, err) = run(&[&["run", REFUSED], &rest[..]].concat());
    assert_eq!((status, err.as_str()), (Some(1), ""));
    let line = "out:     holds the registers after 1 step\n";
    assert_eq!(out, refused_report() + line);
    // What the accepted instruction alone leaves.
    let expected = library_file(&LIST_BYTES[..4], [0; 8], 63);
    assert_ne!(expected, registers());
    assert_eq!(folder.read("after.bin"), expected);
    assert_eq!(folder.names(), ["after.bin", "before.bin"]);

    // Two steps, and then bytes that end too soon.
    let code = format!("{LIST} C5F970");
    let (status, out, _) = run(&[&["run", &code], &rest[..]].concat());
    assert_eq!(status, Some(1));
    let line = "\nout:     holds the registers after 2 steps\n";
    assert!(out.ends_with(line), "{out}");
    assert_eq!(
        folder.read("after.bin"),
        library_file(&LIST_BYTES, [0; 8], 63)
    );
}

/// A reserved field that is wrong, behind a step and at once.
#[test]
fn a_wrong_field_is_named() {
    let folder = Folder::new("run_field");
    let before = folder.write("before.bin", registers());
    for (code, steps, place, words, changed) in [
        (
            "hex:C5E814CB C5E970CA1B",
            1,
            "4 of 9",
            WRONG_VVVV,
            "zmm1 (bytes 0..63)",
        ),
        ("hex:C4E36906CB31", 0, "0 of 6", WRONG_WIDTH, "none"),
    ] {
        let (status, out, err) = run(&["run", code, "--registers", &before]);
        assert_eq!((status, err.as_str()), (Some(1), ""), "{code}");
        assert_eq!(out, report(steps, place, words, changed));
    }
}

/// With no step done, the file is the start, whatever the run is refused for.
#[test]
fn a_run_refused_at_once_keeps_the_start() {
    let folder = Folder::new("run_kept_start");
    let before = folder.write("before.bin", registers());
    let after = folder.path("after.bin");
    let long = folder.write("long.bin", [0xC5; 16_385]);
    for (code, features, place, status) in [
        ("hex:C5F97008 1B C5E814CB", "63", "0 of 9", 6),
        ("hex:90", "63", "0 of 1", 3),
        // vpshufd zmm1, zmm2, 0x1b in EVEX map 5
        ("hex:62F57D4870CA1B", "63", "0 of 7", 3),
        ("hex:C5E814CB", "64", "0 of 4", 1),
        (&long, "63", "0 of 16385", 8),
    ] {
        let given = ["run", code, "--features", features, "--registers", &before];
        let arguments = [&given[..], &["--out", &after]].concat();
        let (ended, out, _) = run(&arguments);
        assert_eq!(ended, Some(1), "{code}");
        let expected = report(0, place, &refusal(status), "none");
        let line = "out:     not written; --keep-steps would write the registers after 0 steps\n";
        assert_eq!(out, expected.clone() + line);
        assert_eq!(folder.names(), ["before.bin", "long.bin"]);

        let (ended, out, _) = run(&[&arguments[..], &["--keep-steps"]].concat());
        assert_eq!(ended, Some(1), "{code}");
        assert_eq!(
            out,
            expected + "out:     holds the registers after 0 steps\n"
        );
        assert_eq!(folder.read("after.bin"), registers(), "{code}");
        std::fs::remove_file(&after).expect("the file is there");
    }
}

/// The flag is for refusals: a run that ends well says and writes what it does without.
#[test]
fn a_run_that_ends_well_needs_no_flag() {
    let folder = Folder::new("run_kept_well");
    let before = folder.write("before.bin", registers());
    let [without, with] = ["without.bin", "with.bin"].map(|name| folder.path(name));
    for budget in ["0", "1", "4096"] {
        let given = ["run", LIST, "--budget", budget, "--registers", &before];
        let out = printed(&[&given[..], &["--out", &without]].concat());
        let kept = printed(&[&given[..], &["--out", &with, "--keep-steps"]].concat());
        assert_eq!(out, kept, "budget {budget}");
        assert!(!out.contains("out:"), "{out}");
        assert_eq!(folder.read("without.bin"), folder.read("with.bin"));
    }
    assert_eq!(
        folder.read("with.bin"),
        library_file(&LIST_BYTES, [0; 8], 63)
    );
}

#[test]
fn steps_are_kept_in_a_file_alone() {
    let message = "expected --out FILE with --keep-steps, to keep them in";
    for code in [LIST, REFUSED] {
        assert_bad_usage(&["run", code, "--keep-steps"], message);
    }
    let message = "expected a file name after --out: standard output has the report";
    assert_bad_usage(&["run", REFUSED, "--keep-steps", "--out", "-"], message);
    let value = "expected --keep-steps without a value";
    assert_bad_usage(&["run", REFUSED, "--keep-steps=yes", "--out", "x"], value);
    let twice = "expected --keep-steps only once";
    assert_bad_usage(&["run", REFUSED, "--keep-steps", "--keep-steps"], twice);
}

/// vunpcklps xmm1, xmm2, xmm3 again and again, and vunpcklps xmm4, xmm2, xmm3 as the last step.
#[test]
fn lists_of_up_to_16384_bytes_are_run_to_the_end() {
    let folder = Folder::new("run_longest");
    let before = folder.write("before.bin", registers());
    let after = folder.path("after.bin");
    for steps in [1_024, 1_025, 4_096] {
        let first = [0xC5, 0xE8, 0x14, 0xCB].repeat(steps - 1);
        let code = [&first[..], &[0xC5, 0xE8, 0x14, 0xE3]].concat();
        let (last, end) = (first.len(), code.len());
        let list = folder.write("long.bin", &code);
        let given = ["run", &list, "--registers", &before, "--out", &after];

        let changed = "zmm1 (bytes 0..63), zmm4 (bytes 0..63)";
        let expected = report(steps as u64, &format!("{end} of {end}"), END, changed);
        assert_eq!(printed(&given), expected);
        let file = folder.read("after.bin");
        assert!(file == library_file(&code, [0; 8], 63), "{steps} steps");

        let budget = (steps - 1).to_string();
        let place = format!("{last} of {end}");
        let expected = report(steps as u64 - 1, &place, SPENT, "zmm1 (bytes 0..63)");
        let out = printed(&[&given[..], &["--budget", &budget]].concat());
        assert_eq!(out, expected);
        let file = folder.read("after.bin");
        assert!(file == library_file(&first, [0; 8], 63), "a budget spent");
    }
}

/// A run of the wrong size or features has no steps, also with a budget of 0.
#[test]
fn refusals_of_a_whole_run() {
    let folder = Folder::new("run_whole");
    let before = folder.write("before.bin", registers());
    let code = folder.write("long.bin", [0xC5; 16_385]);
    let (status, out, _) = run(&["run", &code, "--budget", "0", "--registers", &before]);
    assert_eq!(status, Some(1));
    assert_eq!(out, report(0, "0 of 16385", &refusal(8), "none"));
    let (status, out, _) = run(&["run", "hex:", "--features", "64", "--registers", &before]);
    assert_eq!(status, Some(1));
    assert_eq!(out, report(0, "0 of 0", &refusal(1), "none"));
}

#[test]
fn registers_may_be_replaced_by_the_result() {
    let folder = Folder::new("run_in_place");
    let file = folder.write("registers.bin", registers());
    let code = folder.write("code.bin", [0xC5, 0xE8, 0x14, 0xCB]);
    printed(&["run", &code, "--registers", &file, "--out", &file]);
    let expected = library_file(&[0xC5, 0xE8, 0x14, 0xCB], [0; 8], 63);
    assert_eq!(folder.read("registers.bin"), expected);
    assert_eq!(folder.names(), ["code.bin", "registers.bin"]);
}

#[test]
fn any_one_input_may_be_standard_input() {
    let folder = Folder::new("run_input");
    let before = folder.write("before.bin", registers());
    let expected = printed(&["run", LIST, "--registers", &before]);
    let bytes = registers();
    let ran = run_with_input(&["run", LIST, "--registers", "-"], &bytes);
    assert_eq!(ran, (Some(0), expected.clone(), String::new()));
    let arguments = ["run", "--hex", "-", "--registers", &before];
    let ran = run_with_input(&arguments, LIST.trim_start_matches("hex:").as_bytes());
    assert_eq!(ran, (Some(0), expected.clone(), String::new()));
    let arguments = ["run", LIST, "--registers", &before, "--masks", "-"];
    let ran = run_with_input(&arguments, b"0 0 0 0 0 0 0 0");
    assert_eq!(ran, (Some(0), expected, String::new()));
    let twice = "expected standard input (-) for one input only";
    assert_bad_usage(&["run", "-", "--registers", "-"], twice);
}

#[test]
fn files_of_the_wrong_size_are_bad_usage() {
    let folder = Folder::new("run_sizes");
    let what = "expected 2,048 bytes of registers in";
    for (size, found) in [(0, "0"), (64, "64"), (2_047, "2047"), (2_049, "more")] {
        let file = folder.write("registers.bin", vec![1; size]);
        let message = format!("{what} '{file}', not {found}");
        assert_bad_usage(&["run", LIST, "--registers", &file], &message);
    }
    for (text, found) in [("", 0), ("1 2 3 4 5 6 7", 7), ("1 2 3 4 5 6 7 8 9", 9)] {
        let file = folder.write("masks.txt", text);
        let message = format!("expected 8 hex numbers in '{file}', not {found}");
        assert_bad_usage(&["run", LIST, "--masks", &file], &message);
    }
    for odd in ["x", "+1", "0x", "10000000000000000", "-1"] {
        let file = folder.write("masks.txt", format!("1 2\n{odd} 4 5 6 7 8"));
        let what = "expected hex numbers below 2^64 in line 2 of";
        let message = format!("{what} '{file}', not '{odd}'");
        assert_bad_usage(&["run", LIST, "--masks", &file], &message);
    }
}

#[test]
fn bad_usage_is_one_line() {
    assert_bad_usage(&["run"], "expected one list of instructions");
    let twice = "expected one list of instructions, and not 'b' as well";
    assert_bad_usage(&["run", "a", "b"], twice);
    let options = "--hex, --registers, --masks, --features, --budget, --out, --keep-steps";
    assert_bad_usage(
        &["run", LIST, "--register", "x"],
        &format!("expected an option among {options}, not '--register'"),
    );
    for (option, value) in [
        ("--registers", "a file of 2,048 bytes"),
        ("--masks", "a file of eight hex numbers"),
        ("--budget", "a number of steps"),
        ("--out", "a file name"),
    ] {
        let message = format!("expected {value} after {option}");
        assert_bad_usage(&["run", LIST, option], &message);
    }
    for budget in ["", "x", "-1", "+1", "1.5", "18446744073709551616"] {
        let message = format!("expected a number below 2^64 after --budget, not '{budget}'");
        assert_bad_usage(&["run", LIST, "--budget", budget], &message);
    }
    let out = "expected a file name after --out: standard output has the report";
    assert_bad_usage(&["run", LIST, "--out", "-"], out);
}
