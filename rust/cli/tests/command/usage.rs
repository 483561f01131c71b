//! What all commands share: help, bad usage, output that cannot be written.

use crate::tools::{assert_bad_usage, command, printed, ran, run, run_bytes, run_with_input};
use std::ffi::OsString;
use std::fs::{File, OpenOptions};
use std::os::unix::ffi::OsStringExt;
use std::process::{Command, Stdio};
use tarhuspo::limits::{CODE_LIMIT, MOST_STEPS};

const COMMANDS: [&str; 7] = [
    "list", "decode", "address", "run", "map", "compare", "audit",
];

#[test]
fn overview_is_printed_when_asked_for_and_when_nothing_is() {
    let overview = printed(&["help"]);
    for command in COMMANDS {
        assert!(overview.contains(&format!("\n  {command} ")), "{command}");
    }
    for arguments in [&["--help"][..], &["-h"]] {
        assert_eq!(printed(arguments), overview);
    }
    assert_eq!(run(&[]), (Some(2), String::new(), overview));
}

#[test]
fn help_names_every_instruction_and_feature() {
    let overview = printed(&["help"]);
    let names: Vec<_> = (1..).map_while(tarhuspo::mnemonic_name).collect();
    assert_eq!(names.len(), 10);
    for name in names {
        assert_eq!(overview.matches(name).count(), 1, "{name}");
    }
    for command in ["decode", "address", "run", "map", "compare"] {
        let help = printed(&["help", command]);
        let words: Vec<_> = help.split([' ', ',', '\n']).collect();
        for (name, _) in tarhuspo::features::NAMED {
            assert!(words.contains(&name), "{name} in the help of {command}");
        }
        let help: Vec<_> = help.split_whitespace().collect();
        let needs = "without avx there is no other, and without avx512f none of the last three";
        assert!(help.join(" ").contains(needs), "{command}");
    }
}

/// What the help says of lists is what the library takes.
#[test]
fn help_has_the_limits() {
    assert_eq!((CODE_LIMIT, MOST_STEPS), (16_384, 4_096));
    for command in ["list", "run", "map", "compare"] {
        let limit = "\nCODE is a list of instructions, end to end, of at most 16,384 bytes:\n";
        assert!(printed(&["help", command]).contains(limit), "{command}");
    }
    let budget = "the most instructions to carry out; 4,096 if not given";
    assert!(printed(&["help", "run"]).contains(budget));
}

/// The reasons stand where refusals are explained, and the other commands say where that is.
#[test]
fn help_has_the_reasons() {
    let fields = ["EVEX fixed bits", "W", "width", "vvvv", "b", "z"];
    for command in ["decode", "list"] {
        let help = printed(&["help", command]);
        for (reason, field) in (1..).zip(fields) {
            let line = format!("\n  {reason}  {field}: ");
            assert_eq!(help.matches(&line).count(), 1, "{line} in {command}");
        }
        // Bit 2 of the second byte is one of the map.
        let bits = "fixed bits: bit 3 of the second byte 0, bit 2 of the third 1\n";
        assert!(help.contains(bits), "{command}");
    }
    for command in ["address", "run", "map", "compare"] {
        let help = printed(&["help", command]);
        let words: Vec<_> = help.split_whitespace().collect();
        let pointer = "reason: tarhuspo help decode lists them.";
        assert!(words.join(" ").contains(pointer), "{command}");
    }
}

#[test]
fn version_is_the_librarys() {
    let (major, minor) = (tarhuspo::version::MAJOR, tarhuspo::version::MINOR);
    assert_eq!(
        printed(&["--version"]),
        format!("tarhuspo {major}.{minor}\n")
    );
    assert!(printed(&["--help"]).contains("\n  --version "));
    assert_bad_usage(&["--version", "run"], "expected nothing after '--version'");
    // It belongs to no command.
    let option = "expected no option but --hex, not '--version'";
    assert_bad_usage(&["list", "--version"], option);
}

#[test]
fn each_command_has_help() {
    for command in COMMANDS {
        let help = printed(&["help", command]);
        assert!(help.starts_with(&format!("usage: tarhuspo {command} ")));
        assert!(help.contains("\nexample: tarhuspo ") && help.contains("\nexit status: 0 "));
        for arguments in [
            &[command, "--help"][..],
            &[command, "-h"],
            &["--help", command],
            &[command, "build", "--what", "--help", "x"],
        ] {
            assert_eq!(printed(arguments), help, "{arguments:?}");
        }
    }
}

/// The examples in the help do what they are there for.
#[test]
fn examples_of_the_help_work() {
    for command in ["list", "decode", "address", "compare"] {
        let help = printed(&["help", command]);
        let mut examples = help
            .lines()
            .filter_map(|line| line.strip_prefix("example: "));
        let example = examples.next().expect("an example");
        let words: Vec<_> = example.split(' ').skip(1).collect();
        let (status, out, err) = run(&words);
        let expected = if command == "compare" { 1 } else { 0 };
        assert_eq!((status, err.as_str()), (Some(expected), ""), "{example}");
        assert!(!out.is_empty(), "{example}");
    }
}

#[test]
fn unknown_commands_are_bad_usage() {
    let names = "list, decode, address, run, map, compare, audit or help";
    for arguments in [&["encode"][..], &["help", "encode"]] {
        let message = format!("expected a command ({names}), not 'encode'");
        assert_bad_usage(arguments, &message);
    }
    assert_bad_usage(&[""], &format!("expected a command ({names}), not ''"));
    assert_bad_usage(
        &["help", "list", "run"],
        "expected at most one command after 'help'",
    );
    let map = "expected build, apply, compose or show after 'map'";
    assert_bad_usage(&["map"], map);
    assert_bad_usage(&["map", "draw"], &format!("{map}, not 'draw'"));
}

fn run_odd(before: &[&str], bytes: &[u8]) -> (Option<i32>, String, String) {
    let mut command = command();
    command.args(before).arg(OsString::from_vec(bytes.to_vec()));
    ran(command.output().expect("the command starts"))
}

#[test]
fn arguments_that_are_no_text_are_bad_usage() {
    let (status, out, err) = run_odd(&[], &[0xFF, 0xFE]);
    assert_eq!((status, out.as_str()), (Some(2), ""));
    assert_eq!(err, "tarhuspo: expected a command in UTF-8\n");
    for before in [
        &["decode"][..],
        &["decode", "90", "--features"],
        &["address"],
        &["address", "90", "--gpr"],
        &["address", "90", "--at"],
        &["map"],
        &["run", "hex:", "--budget"],
        &["list"],
        &["list", "hex:", "--hex"],
    ] {
        let (status, out, err) = run_odd(before, &[0xFF, 0xFE]);
        assert_eq!((status, out.as_str()), (Some(2), ""), "{before:?}");
        assert!(err.starts_with("tarhuspo: expected "), "{err}");
        assert_eq!(err.lines().count(), 1, "{err}");
    }
}

/// A file's name need not be text.
#[test]
fn any_file_name_will_do() {
    let name = OsString::from_vec(b"code-\xFF.bin".to_vec());
    let path = std::path::Path::new(env!("CARGO_TARGET_TMPDIR")).join(name);
    std::fs::write(&path, [0xC5, 0xE8, 0x14, 0xCB]).expect("a file");
    let output = command().arg("list").arg(&path).output();
    let (status, out, err) = ran(output.expect("the command starts"));
    std::fs::remove_file(&path).expect("the file is there");
    assert_eq!((status, err.as_str()), (Some(0), ""));
    assert!(out.ends_with("\n0\t4\tVUNPCKLPS\t128\t0\n"), "{out}");
}

fn into_pipe(command: &mut Command, out: Stdio) -> (Option<i32>, String) {
    let child = command.stdout(out).stderr(Stdio::piped()).spawn();
    let output = child.and_then(|child| child.wait_with_output());
    let (status, _, err) = ran(output.expect("the command starts"));
    (status, err)
}

#[test]
fn a_closed_pipe_is_no_failure() {
    let map = ["map", "build", "hex:C5F970CA1B"];
    for (arguments, expected) in [
        (&["decode", "C5F970CA1B"][..], 0),
        (&["decode", "90"], 1),
        (&["help"], 0),
        (&["list", "hex:C5F970CA1B"], 0),
        (&map, 0),
    ] {
        let (reader, writer) = std::io::pipe().expect("a pipe");
        drop(reader);
        let (status, err) = into_pipe(command().args(arguments), writer.into());
        assert_eq!(
            (status, err.as_str()),
            (Some(expected), ""),
            "{arguments:?}"
        );
    }
}

/// A device on which every write fails, if the system has it.
pub fn full_device() -> Option<File> {
    let full = OpenOptions::new().write(true).open("/dev/full");
    if full.is_err() {
        println!("skipped: this system has no /dev/full");
    }
    full.ok()
}

#[test]
fn output_that_cannot_be_written_is_reported() {
    for arguments in [
        &["decode", "90"][..],
        &["map", "build", "hex:"],
        &["help"],
        &["list", "hex:C5F970CA1B"],
    ] {
        let Some(full) = full_device() else { return };
        let (status, err) = into_pipe(command().args(arguments), full.into());
        assert_eq!(status, Some(2), "{arguments:?}");
        assert!(
            err.starts_with("tarhuspo: cannot write the answer: "),
            "{err}"
        );
        assert_eq!(err.lines().count(), 1, "{err}");
    }
}

const MASKS_NOTE: &str = "tarhuspo: note: the opmasks are taken as zero (see --masks)\n";

/// Where an instruction has an opmask and none are given, nobody should take the answer for another.
#[test]
fn missing_masks_are_noted() {
    // VPSHUFD zmm1{k1}, zmm2, 0x1b, behind an instruction without an opmask.
    let masked = "hex:C5E814CB62F17D4970CA1B";
    let masks = "--masks=hex:0 1 0 0 0 0 0 0";
    for command in [&["run"][..], &["map", "build"], &["compare", "hex:"]] {
        let note_of = |more: &[&str]| {
            let output = run_bytes(&[command, more].concat(), b"");
            String::from_utf8(output.stderr).expect("UTF-8")
        };
        assert_eq!(note_of(&[masked]), MASKS_NOTE, "{command:?}");
        assert_eq!(note_of(&[masked, masks]), "", "{command:?}");
        assert_eq!(note_of(&["hex:C5E814CB"]), "", "{command:?}");
    }
}

#[test]
fn hex_text_that_is_read_as_bytes_is_noted() {
    let (status, out, err) = run_with_input(&["list"], b"C5 F9 70 CA 1B\n");
    assert_eq!(status, Some(0));
    assert!(out.ends_with("0\t0\t-\t0\t3\n"), "{out}");
    assert_eq!(
        err,
        "tarhuspo: note: this looks like hex text, which --hex reads\n"
    );
    let (_, _, err) = run_with_input(&["list", "--hex"], b"C5 F9 70 CA 1B\n");
    assert_eq!(err, "");
}

/// Nothing was carried out, so that zero registers are not the reason.
#[test]
fn a_run_of_no_step_gives_no_reason() {
    let (_, out, _) = run(&["run", "hex:C5F970CA1B", "--budget", "0"]);
    assert!(out.ends_with("changed: none\n"), "{out}");
    let (_, out, _) = run(&["run", "hex:C5F970CA1B"]);
    assert!(
        out.contains("changed: none, as all registers were zero"),
        "{out}"
    );
}
