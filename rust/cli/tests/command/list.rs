//! `tarhuspo list`.

use crate::tools::{assert_bad_usage, command, printed, ran, repository, run, run_with_input};
use crate::tools::{Folder, Ran, WRONG_B, WRONG_VVVV, WRONG_WIDTH};
use std::collections::BTreeSet;
use std::fs;
use std::io::Read;
use std::process::Stdio;

const EXAMPLE: [u8; 8] = [0xC5, 0xF9, 0x70, 0xCA, 0x1B, 0xC5, 0xF9, 0x70];
const LISTING: &str = "at\tlen\tname\tbits\tanswer\n0\t5\tVPSHUFD\t128\t0\n5\t0\t-\t0\t2\n";
const HEADINGS: &str = "at\tlen\tname\tbits\tanswer\n";

fn listed() -> (Option<i32>, String, String) {
    (Some(0), LISTING.to_string(), String::new())
}

#[test]
fn bytes_come_from_files_input_or_arguments() {
    let folder = Folder::new("list_sources");
    let binary = folder.write("code.bin", EXAMPLE);
    assert_eq!(run(&["list", &binary]), listed());
    assert_eq!(run_with_input(&["list"], &EXAMPLE), listed());
    assert_eq!(run_with_input(&["list", "-"], &EXAMPLE), listed());
    assert_eq!(run(&["list", "hex:C5F970CA1BC5F970"]), listed());
    assert_eq!(run(&["list", "--", &binary]), listed());
    let text = "C5 F9 70 CA 1B C5 F9 70";
    assert_eq!(
        run_with_input(&["list", "--hex"], text.as_bytes()),
        listed()
    );
    // Arguments are hex text with and without the option.
    assert_eq!(run(&["list", "--hex", "hex:C5F970CA1BC5F970"]), listed());
}

#[test]
fn hex_text_may_be_written_in_several_ways() {
    let folder = Folder::new("list_hex");
    let ways = [
        "c5f970ca1bc5f970",
        "0xC5, 0xF9, 0x70, 0xCA, 0x1B, 0xC5, 0xF9, 0x70,\n",
        "# a comment: zz\nC5F970CA1B # vpshufd\r\n\r\n\tC5 F970# the rest",
        "0XC5F970CA1B\n0xC5F970\n",
    ];
    for way in ways {
        let file = folder.write("code.hex", way);
        assert_eq!(run(&["list", &file, "--hex"]), listed(), "{way}");
        let inline = format!("hex:{way}");
        assert_eq!(run(&["list", &inline]), listed(), "{way}");
    }
}

#[test]
fn empty_list_has_headings_alone() {
    assert_eq!(printed(&["list", "hex:"]), HEADINGS);
    assert_eq!(printed(&["list"]), HEADINGS);
    assert_eq!(printed(&["list", "/dev/null"]), HEADINGS);
}

/// Each of the lane permutes at its place. All features count as there, AVX512BW too.
#[test]
fn lane_permutes_are_listed() {
    let code = "hex:C4E37904CA1B C4E26D0CCB C5E815CB C5ED14CB 62F1ED4815CB 62F2ED4800CB \
                62F26D2800CB 62F26D5800CB";
    let lines = [
        "0\t6\tVPERMILPS\t128\t0\n",
        "6\t5\tVPERMILPS\t256\t0\n",
        "11\t4\tVUNPCKHPS\t128\t0\n",
        "15\t4\tVUNPCKLPD\t256\t0\n",
        "19\t6\tVUNPCKHPD\t512\t0\n",
        "25\t6\tVPSHUFB\t512\t0\n",
        "31\t6\tVPSHUFB\t256\t0\n",
        "37\t0\t-\t0\t4:5\n",
    ];
    let (status, out, note) = run(&["list", code]);
    assert_eq!(status, Some(0));
    assert_eq!(out, HEADINGS.to_string() + &lines.concat());
    let expected = format!("tarhuspo: note: refused at place 37, status {WRONG_B}\n");
    assert_eq!(note, expected);
}

/// The digit of each reason, and a note for each.
#[test]
fn reasons_are_listed_and_noted() {
    let fields = [
        "62F97D4870CA1B",
        "C4E3FD05CA05",
        "C4E36906CB31",
        "C5E970CA1B",
        "62F26D588D08",
        "62F17DC870CA1B",
    ];
    for (reason, code) in (1..).zip(fields) {
        let (status, out, note) = run(&["list", &format!("hex:C5E814CB {code}")]);
        assert_eq!(status, Some(0));
        assert!(
            out.ends_with(&format!("\n4\t0\t-\t0\t4:{reason}\n")),
            "{out}"
        );
        let start =
            format!("tarhuspo: note: refused at place 4, status 4 (#UD), reason {reason}: ");
        assert!(note.starts_with(&start), "{note}");
        assert_eq!(note.lines().count(), 1, "{note}");
    }
    let (_, _, note) = run(&["list", "hex:C5E970CA1B"]);
    let expected = format!("tarhuspo: note: refused at place 0, status {WRONG_VVVV}\n");
    assert_eq!(note, expected);
}

/// EVEX maps that no instruction has are answer 3, for which there is no note.
#[test]
fn other_evex_maps_end_a_list() {
    for map in [0, 4, 5, 6, 7] {
        let code = format!("hex:C5E814CB 62F{map}7D4870CA1B");
        let text = format!("{HEADINGS}0\t4\tVUNPCKLPS\t128\t0\n4\t0\t-\t0\t3\n");
        assert_eq!(run(&["list", &code]), (Some(0), text, String::new()));
    }
}

/// An instruction, and what its line says of it.
#[derive(Clone, Copy)]
struct Step {
    code: &'static [u8],
    name: &'static str,
    bits: u32,
}

/// vunpcklps xmm1, xmm2, xmm3
const UNPACK: Step = Step {
    code: &[0xC5, 0xE8, 0x14, 0xCB],
    name: "VUNPCKLPS",
    bits: 128,
};
/// vperm2f128 ymm1, ymm2, ymm3, 0x31
const HALVES: Step = Step {
    code: &[0xC4, 0xE3, 0x6D, 0x06, 0xCB, 0x31],
    name: "VPERM2F128",
    bits: 256,
};
/// vpshufd zmm1{k1}{z}, zmm2, 0x1b
const SHUFFLE: Step = Step {
    code: &[0x62, 0xF1, 0x7D, 0xC9, 0x70, 0xCA, 0x1B],
    name: "VPSHUFD",
    bits: 512,
};

/// The bytes of a list, and its listing.
fn listing_of(steps: impl IntoIterator<Item = Step>) -> (Vec<u8>, String) {
    let (mut code, mut text) = (Vec::new(), HEADINGS.to_string());
    for step in steps {
        let (place, length) = (code.len(), step.code.len());
        text += &format!("{place}\t{length}\t{}\t{}\t0\n", step.name, step.bits);
        code.extend(step.code);
    }
    (code, text)
}

/// Bytes as hex text, four in a line with a comment behind.
fn as_hex(code: &[u8]) -> String {
    let mut text = "# a list with comments\n".to_string();
    for (line, bytes) in code.chunks(4).enumerate() {
        for byte in bytes {
            text += &format!("{byte:02X} ");
        }
        text += &format!("   # bytes {} and so on, C5 among them\n", 4 * line);
    }
    text
}

/// What the command says of a list, each way that it may be given.
fn each_way(folder: &Folder, code: &[u8]) -> [Ran; 5] {
    let file = folder.write("code.bin", code);
    let text = as_hex(code);
    let hex = folder.write("code.hex", &text);
    let inline: String = code.iter().map(|byte| format!("{byte:02X}")).collect();
    [
        run(&["list", &file]),
        run_with_input(&["list"], code),
        run(&["list", "--hex", &hex]),
        run_with_input(&["list", "--hex", "-"], text.as_bytes()),
        run(&["list", &format!("hex:{inline}")]),
    ]
}

#[test]
fn lists_up_to_16384_bytes() {
    let folder = Folder::new("list_lengths");
    let short = |place: usize| format!("{place}\t0\t-\t0\t2\n");
    for (count, more, last) in [
        (0, 0, String::new()),
        (1_024, 0, String::new()),
        (1_024, 1, short(4_096)),
        (4_095, 3, short(16_380)),
        (4_096, 0, String::new()),
    ] {
        let (steps, text) = listing_of(vec![UNPACK; count]);
        let code = [steps, UNPACK.code[..more].to_vec()].concat();
        let expected = (Some(0), text + &last, String::new());
        for (way, found) in each_way(&folder, &code).iter().enumerate() {
            assert!(*found == expected, "{} bytes, way {way}", code.len());
        }
    }
}

/// Nothing is printed of a list that is too long, and of a very long one not all is read.
#[test]
fn longer_lists_are_refused() {
    let folder = Folder::new("list_too_long");
    let refused = format!("tarhuspo: refused, status 8: {}\n", tarhuspo::describe(8));
    let refused = (Some(1), String::new(), refused);
    for more in [1, 4, 16_384] {
        let code = [UNPACK.code.repeat(4_096), vec![0xC5; more]].concat();
        for (way, found) in each_way(&folder, &code).into_iter().enumerate() {
            assert_eq!(found, refused, "{more} more, way {way}");
        }
    }
    let code = [UNPACK.code.repeat(4_096), vec![0xC5; 1_000_000]].concat();
    assert_eq!(run_with_input(&["list"], &code), refused);
    assert_eq!(run(&["list", "/dev/zero"]), refused);
}

/// Steps of several lengths, up to the last byte that a list may have. The text would not fit into
/// 64 KiB.
#[test]
fn longest_list_of_mixed_steps() {
    let folder = Folder::new("list_mixed");
    let mixed = [UNPACK, SHUFFLE, UNPACK, HALVES, SHUFFLE];
    let (code, text) = listing_of(mixed.repeat(585).into_iter().chain([UNPACK]));
    assert_eq!(code.len(), 16_384);
    assert!(text.len() > 65_536, "{} bytes", text.len());
    for (way, found) in each_way(&folder, &code).iter().enumerate() {
        assert!(
            *found == (Some(0), text.clone(), String::new()),
            "way {way}"
        );
    }
}

/// A list of accepted steps and VPERM2F128 with L 0 behind them, its listing and its note.
fn refused_at_the_end(steps: Vec<Step>) -> (Vec<u8>, String, String) {
    let (mut code, mut text) = listing_of(steps);
    let place = code.len();
    text += &format!("{place}\t0\t-\t0\t4:3\n");
    code.extend([0xC4, 0xE3, 0x69, 0x06, 0xCB, 0x31]);
    let note = format!("tarhuspo: note: refused at place {place}, status {WRONG_WIDTH}\n");
    (code, text, note)
}

/// The texts have every length around 4,096 bytes, which the command prints at a time: the last
/// line stands in front of that border, across it and behind it.
#[test]
fn refused_lines_at_the_border_of_a_piece() {
    let (mut lengths, wanted) = (BTreeSet::new(), 4_070..4_130);
    for count in 180..192 {
        for halves in 0..30 {
            // Each of the names with a letter more makes the text longer by one.
            let steps = [vec![UNPACK; count - halves], vec![HALVES; halves]].concat();
            let (code, text, note) = refused_at_the_end(steps);
            if wanted.contains(&text.len()) && lengths.insert(text.len()) {
                let found = run_with_input(&["list"], &code);
                assert_eq!(found, (Some(0), text, note));
            }
        }
    }
    assert!(lengths.into_iter().eq(wanted), "a length is not among them");
}

/// A reader that has seen enough: no failure, and the note is there all the same.
#[test]
fn long_listing_into_a_pipe_that_is_closed() {
    let folder = Folder::new("list_pipe");
    let (steps, _) = listing_of(vec![UNPACK; 4_000]);
    let wrong = [0xC5, 0xE9, 0x70, 0xCA, 0x1B];
    let note = format!("tarhuspo: note: refused at place 16000, status {WRONG_VVVV}\n");
    for (code, note) in [(steps.clone(), ""), ([&steps[..], &wrong].concat(), &note)] {
        let file = folder.write("code.bin", code);
        for read in [0, 1, HEADINGS.len(), 10_000] {
            let (mut reader, writer) = std::io::pipe().expect("a pipe");
            let mut command = command();
            command.args(["list", &file]).stdout(writer);
            let child = command.stderr(Stdio::piped()).spawn();
            // The command alone has the other end now.
            drop(command);
            reader.read_exact(&mut vec![0; read]).expect("a beginning");
            drop(reader);
            let output = child.and_then(|child| child.wait_with_output());
            let (status, _, err) = ran(output.expect("the command ends"));
            assert_eq!((status, err.as_str()), (Some(0), note), "{read} bytes read");
        }
    }
}

#[test]
fn bad_input_is_one_line() {
    let folder = Folder::new("list_bad");
    let missing = folder.path("missing");
    let message = format!(
        "expected a readable file, not '{missing}': No such file or directory (os error 2)"
    );
    assert_bad_usage(&["list", &missing], &message);
    // Somebody has pasted the bytes.
    let message = "expected a readable file, not 'C5F970CA1B': No such file or directory \
                   (os error 2) (bytes are written hex:C5F970CA1B)";
    assert_bad_usage(&["list", "C5F970CA1B"], message);
    assert_bad_usage(&["list", "--hex", "C5F970CA1B"], message);
    let (status, out, err) = run(&["list", &folder.path("")]);
    assert_eq!((status, out.as_str()), (Some(2), ""));
    assert!(err.contains("Is a directory") && err.lines().count() == 1);

    let odd = folder.write("odd.hex", "C5 F9\n# all of it\n70 CA 1\n");
    let message = format!("expected pairs of hex digits in line 3 of '{odd}', not '1'");
    assert_bad_usage(&["list", "--hex", &odd], &message);
    let binary = folder.write("code.bin", [0xC5, 0xF9]);
    let message = format!("expected hex text in '{binary}'");
    assert_bad_usage(&["list", "--hex", &binary], &message);
    let huge = folder.write("huge.hex", " ".repeat((1 << 20) + 1));
    let message = format!("expected at most 1 MiB of text in '{huge}'");
    assert_bad_usage(&["list", "--hex", &huge], &message);
    assert_bad_usage(
        &["list", "hex:C5F"],
        "expected pairs of hex digits, not 'C5F'",
    );
    assert_bad_usage(
        &["list", "hex:", "hex:"],
        "expected one list of instructions, and not 'hex:' as well",
    );
    let option = "expected no option but --hex, not '--text'";
    assert_bad_usage(&["list", "--text"], option);
    assert_bad_usage(&["list", "--hex=yes"], "expected --hex without a value");
}

/// The list for newcomers: what its comments say is what its bytes are.
#[test]
fn sample_is_what_it_says() {
    let path = repository("examples/sample.hex");
    let sample = fs::read_to_string(&path).expect("the sample");
    let steps = sample.lines().filter(|line| !line.starts_with('#'));
    let steps: Vec<_> = steps.filter_map(|line| line.split_once('#')).collect();
    for (bytes, instruction) in &steps {
        let words = printed(&["decode", bytes]);
        assert_eq!(words.lines().next(), Some(instruction.trim()), "{bytes}");
    }
    let listing = printed(&["list", "--hex", &path]);
    let accepted = listing.lines().skip(1).filter(|line| line.ends_with("\t0"));
    assert_eq!(accepted.count(), steps.len());
    assert_eq!(listing.lines().count(), 1 + steps.len());
}
