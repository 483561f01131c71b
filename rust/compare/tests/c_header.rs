//! The C header compiles as C and as C++, has the layout that the archive was compiled for, and has
//! the constants of the Rust wrapper.

#[path = "c/compiler.rs"]
mod compiler;

use compiler::{compile, INCLUDE};
use std::path::{Path, PathBuf};
use tarhuspo::{features, limits, reason, version};

fn header() -> PathBuf {
    Path::new(INCLUDE).join("tarhuspo.h")
}

/// What one of the programs in tests/c prints.
fn printed(source: &str, name: &str) -> String {
    let folder = Path::new(env!("CARGO_MANIFEST_DIR")).join("tests/c");
    compiler::printed(&folder.join(source), name)
}

/// What tests/c/header.c prints, up to what each function says of features.
const PRINTED: &str = "\
accepted: 0 6 8 1 256 1 17 9 0 3 1 1 0 0, reason 0\n\
too short: 2 0 0 0 0 0 0 0 0 0 0 0 0 0, reason 0\n\
empty: 2 0 0 0 0 0 0 0 0 0 0 0 0 0, reason 0\n\
features: 1 0 0 0 0 0 0 0 0 0 0 0 0 0, reason 0\n\
vpshufb: 0 6 0 10 512 1 1 2 3 0 0 0 0 0, reason 0\n\
without avx512bw: 5 0 0 0 0 0 0 0 0 0 0 0 0 0, reason 0\n\
z: 4 0 0 0 0 0 0 0 0 0 0 0 0 0, reason 6\n\
b and z: 4 0 0 0 0 0 0 0 0 0 0 0 0 0, reason 5\n\
map 1: 0 7 0 4 512 1 1 0 2 0 0 0 1 27, reason 0\n\
map 0: 3 0 0 0 0 0 0 0 0 0 0 0 0 0, reason 0\n\
map 4: 3 0 0 0 0 0 0 0 0 0 0 0 0 0, reason 0\n\
map 5: 3 0 0 0 0 0 0 0 0 0 0 0 0 0, reason 0\n\
map 6: 3 0 0 0 0 0 0 0 0 0 0 0 0 0, reason 0\n\
map 7: 3 0 0 0 0 0 0 0 0 0 0 0 0 0, reason 0\n\
P bit 3: 4 0 0 0 0 0 0 0 0 0 0 0 0 0, reason 1\n\
P bit 3, map 5: 4 0 0 0 0 0 0 0 0 0 0 0 0 0, reason 1\n\
Q bit 2: 4 0 0 0 0 0 0 0 0 0 0 0 0 0, reason 1\n\
Q bit 2, map 5: 4 0 0 0 0 0 0 0 0 0 0 0 0 0, reason 1\n\
map 5 cut behind the opcode: 3 0 0 0 0 0 0 0 0 0 0 0 0 0, reason 0\n\
map 5 cut before it: 2 0 0 0 0 0 0 0 0 0 0 0 0 0, reason 0\n\
P bit 3 cut behind the opcode: 4 0 0 0 0 0 0 0 0 0 0 0 0 0, reason 1\n\
P bit 3 cut before it: 2 0 0 0 0 0 0 0 0 0 0 0 0 0, reason 0\n\
address: 0 0 1 000000000000a020\n\
next instruction: 0 0 1 fffffffffffffffe\n\
register form: 0 0 0 0000000000000000\n\
fifteen registers: 1 0 0 0000000000000000\n\
short address: 2 0 0 0000000000000000\n\
reserved address: 4 6 0 0000000000000000\n\
step: 0 7, bytes 0 5 8 0 0\n\
refused step: 6 0, bytes 5 8\n\
reserved step: 4 0, reason 2\n\
run: 2 9 3, bytes 199 134 0\n\
no budget: 0 0 0\n\
build: 9 0, entries 196 132 2048\n\
refused build: 9 3, entry 0\n\
apply: 0, bytes 199 0\n\
compose: 0, entries 132 0\n\
refused apply: 9\n\
reserved build: 4 4, reason 3\n\
reserved run: 1 4 4, reason 3\n\
short text: 0 0 1 0, changed 0\n\
place behind: 0 0 1 0, changed 0\n\
listing: 72 9 0 0, changed 72\n\
at\tlen\tname\tbits\tanswer\n\
0\t4\tVUNPCKLPS\t128\t0\n\
4\t5\tVPSHUFD\t128\t0\n\
9\t0\t-\t0\t3\n\
just fits: 72 9 0 0, changed 72\n\
at\tlen\tname\tbits\tanswer\n\
0\t4\tVUNPCKLPS\t128\t0\n\
4\t5\tVPSHUFD\t128\t0\n\
9\t0\t-\t0\t3\n\
a byte less: 62 9 0 1, changed 62\n\
at\tlen\tname\tbits\tanswer\n\
0\t4\tVUNPCKLPS\t128\t0\n\
4\t5\tVPSHUFD\t128\t0\n\
first piece: 62 9 0 1, changed 62\n\
at\tlen\tname\tbits\tanswer\n\
0\t4\tVUNPCKLPS\t128\t0\n\
4\t5\tVPSHUFD\t128\t0\n\
second piece: 10 9 0 0, changed 10\n\
9\t0\t-\t0\t3\n\
nested: 42 9 0 0, changed 42\n\
at\tlen\tname\tbits\tanswer\n\
0\t9\tVPSHUFD\t128\t0\n\
inside: 30 8 0 0, changed 30\n\
4\t4\tVUNPCKLPS\t128\t0\n\
8\t0\t-\t0\t3\n\
at the end: 0 10 0 0, changed 0\n\
empty listing: 24 0 0 0, changed 24\n\
at\tlen\tname\tbits\tanswer\n\
reserved listing: 56 4 0 0, changed 56\n\
at\tlen\tname\tbits\tanswer\n\
0\t4\tVUNPCKLPS\t128\t0\n\
4\t0\t-\t0\t4:3\n\
map 5: 3 0 0 0000000000000000\n\
step: 3 0, reason 0\n\
run: 1 4 3, reason 0\n\
build: 4 3, reason 0\n\
listing: 54 4 0 0, changed 54\n\
at\tlen\tname\tbits\tanswer\n\
0\t4\tVUNPCKLPS\t128\t0\n\
4\t0\t-\t0\t3\n\
P bit 3: 4 1 0 0000000000000000\n\
step: 4 0, reason 1\n\
run: 1 4 4, reason 1\n\
build: 4 4, reason 1\n\
listing: 56 4 0 0, changed 56\n\
at\tlen\tname\tbits\tanswer\n\
0\t4\tVUNPCKLPS\t128\t0\n\
4\t0\t-\t0\t4:1\n\
run: 4096 16384 0, build: 16384 0\n\
listing: 95550 16384 0 0, changed 95550\n\
last line: 24 16384 0 0, changed 24\n\
16380\t4\tVUNPCKLPS\t128\t0\n\
short text: 0 0 1 0, changed 0\n\
run: 0 0 8, build: 0 8\n\
listing: 0 0 8 0, changed 0\n\
last line: 0 0 8 0, changed 0\n\
short text: 0 0 1 0, changed 0\n";

/// What it prints of features: the numbers that pass, with the status of an instruction that needs
/// AVX512F, and how many of 281 numbers do not pass.
fn features_of(name: &str) -> String {
    let low = "0:5 1:5 3:5 5:0 7:0 13:0 15:0 21:0 23:0 29:0 31:0";
    let high = "37:0 39:0 45:0 47:0 53:0 55:0 61:0 63:0";
    format!("features of {name}: {low} {high}, refused 262, changed 0\n")
}

#[test]
fn c_program_runs_against_the_archive() {
    let features = ["decode", "address", "step", "run", "build"].map(features_of);
    let expected = PRINTED.to_string() + &features.concat();
    assert_eq!(printed("header.c", "c_header"), expected);
}

/// The constants of the Rust wrapper, under the names that the header gives them.
const CONSTANTS: [(&str, u64); 23] = [
    ("VERSION_MAJOR", version::MAJOR as u64),
    ("VERSION_MINOR", version::MINOR as u64),
    ("AVX", features::AVX as u64),
    ("AVX2", features::AVX2 as u64),
    ("AVX512F", features::AVX512F as u64),
    ("AVX512VL", features::AVX512VL as u64),
    ("AVX512_VBMI", features::AVX512_VBMI as u64),
    ("AVX512BW", features::AVX512BW as u64),
    ("REASON_FIXED_BITS", reason::FIXED_BITS as u64),
    ("REASON_W", reason::W as u64),
    ("REASON_WIDTH", reason::WIDTH as u64),
    ("REASON_VVVV", reason::VVVV as u64),
    ("REASON_B", reason::B as u64),
    ("REASON_Z", reason::Z as u64),
    ("FILE_SIZE", limits::FILE_SIZE as u64),
    ("MASK_COUNT", limits::MASK_COUNT as u64),
    ("GPR_COUNT", limits::GPR_COUNT as u64),
    ("MAP_SIZE", limits::MAP_SIZE as u64),
    ("MAP_ZERO", limits::MAP_ZERO as u64),
    ("CODE_LIMIT", limits::CODE_LIMIT as u64),
    ("MOST_STEPS", limits::MOST_STEPS),
    ("TEXT_LEAST", limits::TEXT_LEAST as u64),
    ("TEXT_WHOLE", limits::TEXT_WHOLE as u64),
];

#[test]
fn constants_are_those_of_the_wrapper() {
    let lines = CONSTANTS.map(|(name, value)| format!("{name} {value}\n"));
    assert_eq!(printed("constants.c", "c_constants"), lines.concat());
}

/// What requests 3, 4 and 5 say in numbers, and the version that request 7 made.
#[test]
fn constants_of_requests() {
    let reasons = [
        reason::FIXED_BITS,
        reason::W,
        reason::WIDTH,
        reason::VVVV,
        reason::B,
        reason::Z,
    ];
    assert_eq!(reasons, [1, 2, 3, 4, 5, 6]);
    assert_eq!(limits::GPR_COUNT, 16);
    assert_eq!((limits::CODE_LIMIT, limits::MOST_STEPS), (16_384, 4_096));
    // The headings have 24 bytes, and request 3 allows a line 27.
    assert_eq!(
        (limits::TEXT_LEAST, limits::TEXT_WHOLE),
        (64, 24 + 27 * 4_096)
    );
    assert_eq!((version::MAJOR, version::MINOR), (6, 0));
}

/// None is left out above.
#[test]
fn constants_are_all_compared() {
    let header = std::fs::read_to_string(header()).expect("the header");
    let defined = header
        .lines()
        .filter_map(|line| line.strip_prefix("#define TARHUSPO_"));
    let defined = defined.filter_map(|rest| rest.split_once(' '));
    let names: Vec<_> = defined.map(|(name, _)| name).collect();
    assert_eq!(names, CONSTANTS.map(|(name, _)| name));
}

#[test]
fn header_is_valid_cpp() {
    let header = header();
    compile(
        "c++",
        &[
            "-std=c++11",
            "-fsyntax-only",
            "-x",
            "c++",
            &header.to_string_lossy(),
        ],
    );
}
