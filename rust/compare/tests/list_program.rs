//! The proved program `list`, run as a user would: bytes in, text out.

use compare::limits::{CODE_LIMIT, OLD_CODE_LIMIT, TEXT_WHOLE};
use compare::lists::Mix;
use compare::random::Random;
use std::io::Write;
use std::path::{Path, PathBuf};
use std::process::{Command, Output, Stdio};

const HEADINGS: &str = "at\tlen\tname\tbits\tanswer\n";
/// VUNPCKLPS xmm1, xmm2, xmm3: the shortest kind of instruction.
const SHORTEST: [u8; 4] = [0xC5, 0xE8, 0x14, 0xCB];
/// VPSHUFD zmm1, [rsp + disp32]{1to16}, imm8: the longest kind.
const LONGEST: [u8; 12] = [0x62, 0xF1, 0x7D, 0x58, 0x70, 0x8C, 0x24, 1, 2, 3, 4, 9];

/// Proves and compiles the program. That is quick if nothing has changed since it was last proved.
fn program() -> PathBuf {
    let folder = Path::new(env!("CARGO_MANIFEST_DIR")).join("../../crates/list");
    // `rt run` leaves the program it has built in `out/`, and runs it: here on no bytes.
    let ran = Command::new("rt")
        .arg("run")
        .current_dir(&folder)
        .stdin(Stdio::null())
        .output()
        .expect("`rt` of the Rattle kit on the PATH");
    let said = String::from_utf8_lossy(&ran.stderr);
    assert!(ran.status.success(), "`rt run` in crates/list:\n{said}");
    folder.join("out/list")
}

fn run(program: &Path, input: &[u8]) -> Output {
    let mut child = Command::new(program)
        .stdin(Stdio::piped())
        .stdout(Stdio::piped())
        .stderr(Stdio::piped())
        .spawn()
        .expect("the program starts");
    let mut pipe = child.stdin.take().expect("its standard input is a pipe");
    // All inputs here fit into a pipe, so that this does not wait for the program, which stops
    // reading where a list is too long.
    let written = pipe.write_all(input);
    assert!(written.is_ok() || input.len() > CODE_LIMIT, "{written:?}");
    drop(pipe);
    child.wait_with_output().expect("it ends")
}

fn check(program: &Path, input: &[u8], text: &str) {
    let output = run(program, input);
    assert!(output.status.success(), "{:?}", output.status);
    assert_eq!(String::from_utf8_lossy(&output.stdout), text);
    assert_eq!(output.stderr, b"");
}

fn lines_of(count: usize) -> String {
    let places = (0..count).map(|i| i * SHORTEST.len());
    places
        .map(|place| format!("{place}\t4\tVUNPCKLPS\t128\t0\n"))
        .collect()
}

#[test]
fn program_prints_listings() {
    let program = &program();

    // Document 01's example: a whole instruction, and one that the input ends in.
    let example = [0xC5, 0xF9, 0x70, 0xCA, 0x1B, 0xC5, 0xF9, 0x70];
    let lines = "0\t5\tVPSHUFD\t128\t0\n5\t0\t-\t0\t2\n";
    check(program, &example, &format!("{HEADINGS}{lines}"));
    check(program, &[], HEADINGS);

    for length in 1..LONGEST.len() {
        let text = format!("{HEADINGS}0\t0\t-\t0\t2\n");
        check(program, &LONGEST[..length], &text);
    }
    let text = format!("{HEADINGS}0\t12\tVPSHUFD\t512\t0\n");
    check(program, &LONGEST, &text);

    // It decodes with every feature: VPERMB needs one of its own, VPSHUFB another.
    let own_features = [
        [0x62, 0xF2, 0x6D, 0x48, 0x8D, 0xCB],
        [0x62, 0xF2, 0x6D, 0x48, 0x00, 0xCB],
    ];
    let lines = "0\t6\tVPERMB\t512\t0\n6\t6\tVPSHUFB\t512\t0\n";
    check(
        program,
        own_features.as_flattened(),
        &format!("{HEADINGS}{lines}"),
    );

    // Behind answer 4 stands the first of the wrong fields: here width, and behind it b and z.
    let reserved = [&SHORTEST[..], &[0x62, 0xF2, 0x6D, 0xF8, 0x00, 0xCB]].concat();
    let text = format!("{HEADINGS}{}4\t0\t-\t0\t4:3\n", lines_of(1));
    check(program, &reserved, &text);

    check_long_lists(program);
    check_any_lists(program);
}

/// Lists at the old limit and the new one, and a byte more. Past the new one nothing is printed.
fn check_long_lists(program: &Path) {
    assert_eq!((OLD_CODE_LIMIT, CODE_LIMIT), (4_096, 16_384));
    let full = SHORTEST.repeat(CODE_LIMIT / SHORTEST.len());
    let text = |count: usize, last: &str| format!("{HEADINGS}{}{last}", lines_of(count));
    check(program, &full[..4_096], &text(1_024, ""));
    check(program, &full[..4_097], &text(1_024, "4096\t0\t-\t0\t2\n"));
    let whole = text(4_096, "");
    assert!(whole.len() > 0x1_0000, "{} bytes", whole.len());
    check(program, &full, &whole);
    let cut = [&full[..16_380], &LONGEST[..4]].concat();
    check(program, &cut, &text(4_095, "16380\t0\t-\t0\t2\n"));
    let reserved = [&full[..16_376], &[0xC5, 0xE9, 0x70, 0xCA, 0x1B], &[0x90; 3]].concat();
    check(program, &reserved, &text(4_094, "16376\t0\t-\t0\t4:4\n"));

    for more in [1, 2, 4, CODE_LIMIT, 40_000] {
        let long = [&full[..], &vec![0xC5; more]].concat();
        check(program, &long, "");
    }
}

/// The text of a list, by the reference.
fn whole(code: &[u8]) -> String {
    let mut text = vec![0; TEXT_WHOLE];
    let listed = reference::listing(code, 0, &mut text);
    assert_eq!((listed.status, listed.more), (0, false));
    text.truncate(listed.written as usize);
    String::from_utf8(text).expect("ASCII")
}

/// Lists of every form, which end at some byte.
fn check_any_lists(program: &Path) {
    let mut random = Random::new(1);
    let mix = Mix::of(|_| true);
    for most in [100, 1_000, 5_000, 10_000, CODE_LIMIT] {
        for _ in 0..4 {
            let mut code = mix.list(most / 4, &mut random).code;
            code.truncate(most - random.below(20));
            check(program, &code, &whole(&code));
        }
    }
}
