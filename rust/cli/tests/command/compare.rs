//! `tarhuspo compare`.

use crate::tools::{assert_bad_usage, printed, run, run_with_input, Folder};
use crate::tools::{WRONG_B, WRONG_VVVV};

/// vpshufd xmm1, xmm2, 0xe4: a copy of the lowest lane.
const COPY: &str = "hex:C5F970CAE4";
/// vpshufd xmm1, xmm2, 0x1b, then vpshufd xmm1, xmm1, 0x1b: there and back.
const TWICE: &str = "hex:C5F970CA1B C5F970C91B";
/// vpshufd xmm1, xmm2, 0x1b
const SHUFFLE: &str = "hex:C5F970CA1B";

fn refusal(place: u64, status: u32) -> String {
    let sentence = tarhuspo::describe(status);
    format!("refused at place {place}, status {status}: {sentence}")
}

#[test]
fn different_lists_may_do_the_same() {
    let expected = format!("list 1 ('{COPY}') and list 2 ('{TWICE}'): same\n");
    assert_eq!(printed(&["compare", COPY, TWICE]), expected);
    let expected = "list 1 ('hex:') and list 2 ('hex:'): same\n";
    assert_eq!(printed(&["compare", "hex:", "hex:"]), expected);
}

/// The same moves under other names.
#[test]
fn different_instructions_may_do_the_same() {
    for (one, other) in [
        // vpermilps xmm1, xmm2, 0x1b and vpshufd xmm1, xmm2, 0x1b
        ("hex:C4E37904CA1B", SHUFFLE),
        // vunpckhpd ymm1, ymm2, ymm2 and vpermilpd ymm1, ymm2, 0x0f
        ("hex:C5ED15CA", "hex:C4E37D05CA0F"),
        // vunpcklpd xmm1, xmm2, xmm2 with W 0 and 1
        ("hex:C5E914CA", "hex:C4E1E914CA"),
    ] {
        let expected = format!("list 1 ('{one}') and list 2 ('{other}'): same\n");
        assert_eq!(printed(&["compare", one, other]), expected);
    }
}

fn assert_differ(arguments: &[&str], difference: &str) {
    let (status, out, err) = run(arguments);
    assert_eq!((status, err.as_str()), (Some(1), ""), "{arguments:?}");
    let found = out
        .rsplit_once(": differ first in ")
        .map(|(_, found)| found);
    assert_eq!(found, Some(difference), "{out}");
}

#[test]
fn the_lowest_byte_and_both_origins_are_named() {
    assert_differ(
        &["compare", COPY, SHUFFLE],
        "zmm1[0], which comes from zmm2[0] in list 1 and comes from zmm2[12] in list 2\n",
    );
    assert_differ(
        &["compare", "hex:", COPY],
        "zmm1[0], which is kept in list 1 and comes from zmm2[0] in list 2\n",
    );
    // vpshufd zmm1, zmm2, 0xe4 copies the other lanes too.
    assert_differ(
        &["compare", COPY, "hex:62F17D4870CAE4"],
        "zmm1[16], which is zero in list 1 and comes from zmm2[16] in list 2\n",
    );
    // vpshufd zmm31{k1}{z}, zmm31, 0xe4 clears what the mask leaves out.
    assert_differ(
        &[
            "compare",
            "hex:62017DC970FFE4",
            "hex:",
            "--masks",
            "hex:0,7FFF,0,0,0,0,0,0",
        ],
        "zmm31[60], which is zero in list 1 and is kept in list 2\n",
    );
}

#[test]
fn each_list_is_compared_with_the_first() {
    let folder = Folder::new("compare_many");
    let shuffle = folder.write("shuffle.bin", [0xC5, 0xF9, 0x70, 0xCA, 0x1B]);
    let arguments = ["compare", COPY, TWICE, &shuffle, "hex:C5F970CA", "-"];
    let (status, out, err) = run_with_input(&arguments, &[0xC5, 0xF9, 0x70, 0xCA, 0xE4]);
    assert_eq!((status, err.as_str()), (Some(1), ""));
    let first = format!("list 1 ('{COPY}')");
    let origins = "comes from zmm2[0] in list 1 and comes from zmm2[12] in list 3";
    let expected = [
        format!("{first} and list 2 ('{TWICE}'): same\n"),
        format!("{first} and list 3 ('{shuffle}'): differ first in zmm1[0], which {origins}\n"),
        format!("list 4 ('hex:C5F970CA'): {}\n", refusal(0, 2)),
        format!("{first} and list 5 (standard input): same\n"),
    ];
    assert_eq!(out, expected.concat());
}

/// Lists of 16,384 bytes, which differ in the last step alone if at all, and one of a byte more.
#[test]
fn lists_of_up_to_16384_bytes_are_compared() {
    let folder = Folder::new("compare_longest");
    let unpack = [0xC5, 0xE8, 0x14, 0xCB];
    let one = folder.write("one.bin", unpack.repeat(4_096));
    // vunpcklps xmm4, xmm2, xmm3 as the last step
    let last = [0xC5, 0xE8, 0x14, 0xE3];
    let other = folder.write("other.bin", [unpack.repeat(4_095), last.to_vec()].concat());
    let long = folder.write("long.bin", vec![0xC5; 16_385]);
    let (status, out, err) = run(&["compare", &one, "hex:C5E814CB", &other, &long]);
    assert_eq!((status, err.as_str()), (Some(1), ""));
    let first = format!("list 1 ('{one}')");
    let origins = "is kept in list 1 and comes from zmm2[0] in list 3";
    let expected = [
        format!("{first} and list 2 ('hex:C5E814CB'): same\n"),
        format!("{first} and list 3 ('{other}'): differ first in zmm4[0], which {origins}\n"),
        format!("list 4 ('{long}'): {}\n", refusal(0, 8)),
    ];
    assert_eq!(out, expected.concat());
}

#[test]
fn the_first_refusal_of_the_first_list_ends_it() {
    let (status, out, err) = run(&["compare", "hex:C5F970CAE490", "hex:90"]);
    assert_eq!((status, err.as_str()), (Some(1), ""));
    let expected = format!("list 1 ('hex:C5F970CAE490'): {}\n", refusal(5, 3));
    assert_eq!(out, expected);
    let (status, out, _) = run(&["compare", COPY, COPY, "--features", "0"]);
    assert_eq!(status, Some(1));
    assert_eq!(out, format!("list 1 ('{COPY}'): {}\n", refusal(0, 5)));
}

/// vpshufd with a wrong vvvv as the second list, and vpshufb with b as the first.
#[test]
fn a_wrong_field_of_a_list_is_named() {
    let (status, out, err) = run(&["compare", COPY, "hex:C5F970CAE4 C5E970CA1B"]);
    assert_eq!((status, err.as_str()), (Some(1), ""));
    let list = "list 2 ('hex:C5F970CAE4 C5E970CA1B')";
    assert_eq!(
        out,
        format!("{list}: refused at place 5, status {WRONG_VVVV}\n")
    );
    let (status, out, err) = run(&["compare", "hex:62F26D5800CB", COPY]);
    assert_eq!((status, err.as_str()), (Some(1), ""));
    let list = "list 1 ('hex:62F26D5800CB')";
    assert_eq!(
        out,
        format!("{list}: refused at place 0, status {WRONG_B}\n")
    );
}

#[test]
fn bad_usage_is_one_line() {
    let two = "expected two or more lists of instructions after 'compare'";
    assert_bad_usage(&["compare"], two);
    assert_bad_usage(&["compare", COPY], two);
    let twice = "expected standard input (-) for one input only";
    assert_bad_usage(&["compare", "-", "-"], twice);
    assert_bad_usage(
        &["compare", COPY, "hex:zz"],
        "expected pairs of hex digits, not 'zz'",
    );
    let options = "expected an option among --hex, --masks, --features, not '--out'";
    assert_bad_usage(&["compare", COPY, COPY, "--out", "x"], options);
}
