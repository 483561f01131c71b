//! Features that no processor has: bad usage of every command that takes features.

use crate::tools::{assert_bad_usage, registers, run, Folder};

/// vpshufd xmm1, xmm2, 0x1b, for which AVX is enough.
const CODE: &str = "hex:C5F970CA1B";

const COMMANDS: [&[&str]; 5] = [
    &["decode", CODE],
    &["address", CODE],
    &["run", CODE],
    &["map", "build", CODE],
    &["compare", CODE, CODE],
];

/// Lists and numbers, and what each lacks.
const LACKING: [(&str, &str); 10] = [
    ("avx512vl", "avx512vl needs avx512f, which needs avx"),
    ("8", "avx512vl needs avx512f, which needs avx"),
    ("AVX512VL,avx", "avx512vl needs avx512f"),
    ("0x9", "avx512vl needs avx512f"),
    ("avx2", "avx2 needs avx"),
    ("4", "avx512f needs avx"),
    ("62", "avx2 and avx512f need avx"),
    ("59", "avx512vl, avx512_vbmi and avx512bw need avx512f"),
    (
        "avx512bw,avx512_vbmi,avx512vl",
        "avx512vl, avx512_vbmi and avx512bw need avx512f, which needs avx",
    ),
    (
        "18",
        "avx2 needs avx; avx512_vbmi needs avx512f, which needs avx",
    ),
];

fn expected(lacking: &str) -> String {
    format!("expected features that a processor can have: {lacking}")
}

#[test]
fn every_command_says_what_is_lacking() {
    for command in COMMANDS {
        for (features, lacking) in LACKING {
            let arguments = [command, &["--features", features]].concat();
            assert_bad_usage(&arguments, &expected(lacking));
        }
    }
}

/// The bits are 1 avx, 2 avx2, 4 avx512f, 8 avx512vl, 16 avx512_vbmi and 32 avx512bw.
#[test]
fn nineteen_numbers_pass() {
    let passing = [
        0, 1, 3, 5, 7, 13, 15, 21, 23, 29, 31, 37, 39, 45, 47, 53, 55, 61, 63,
    ];
    let impossible = format!("tarhuspo: {}", expected("avx"));
    for number in 0..64 {
        let (status, out, err) = run(&["decode", "", "--features", &number.to_string()]);
        if passing.contains(&number) {
            // There are no bytes to decode.
            assert_eq!((status, err.as_str()), (Some(1), ""), "{number}");
            assert!(out.starts_with("refused, status 2: "), "{number}: {out}");
        } else {
            assert_eq!((status, out.as_str()), (Some(2), ""), "{number}");
            assert!(err.starts_with(&impossible), "{number}: {err}");
            assert_eq!(err.lines().count(), 1, "{number}: {err}");
        }
    }
}

/// What a number over 63 is, the library says.
#[test]
fn larger_numbers_are_the_librarys_to_refuse() {
    let sentence = format!("1: {}\n", tarhuspo::describe(1));
    for command in COMMANDS {
        for features in ["64", "72", "0x100", "4294967295"] {
            let (status, out, err) = run(&[command, &["--features", features]].concat());
            assert_eq!(status, Some(1), "{command:?}");
            let said = out + &err;
            assert!(said.contains(&sentence), "{command:?}: {said}");
        }
    }
}

#[test]
fn nothing_is_written() {
    let folder = Folder::new("features_out");
    let before = folder.write("before.bin", registers());
    let kept = folder.write("kept.bin", "as before");
    let new = folder.path("new.bin");
    let lacking = expected("avx512vl needs avx512f");
    for out in [&kept, &new] {
        let given = ["--features", "avx,avx512vl", "--out", out];
        assert_bad_usage(&[&["map", "build", CODE], &given[..]].concat(), &lacking);
        let arguments = [&["run", CODE, "--registers", &before], &given[..]].concat();
        assert_bad_usage(&arguments, &lacking);
        assert_bad_usage(&[&arguments[..], &["--keep-steps"]].concat(), &lacking);
    }
    assert_eq!(folder.names(), ["before.bin", "kept.bin"]);
    assert_eq!(folder.read("kept.bin"), b"as before");
}
