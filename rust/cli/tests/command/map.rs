//! `tarhuspo map`: building, applying, composing, showing.

use crate::tools::{assert_bad_usage, assert_refused, assert_refused_with, at_terminal};
use crate::tools::{map_with, printed, printed_bytes, registers, run_bytes, Folder, WRONG_WIDTH};

/// vpshufd xmm1, xmm2, 0x1b
const SHUFFLE: &str = "hex:C5F970CA1B";
/// vunpcklps ymm3, ymm1, ymm1
const UNPACK: &str = "hex:C5F414D9";

const SHUFFLED: &str = "\
zmm1[0..3] from zmm2[12..15]
zmm1[4..7] from zmm2[8..11]
zmm1[8..11] from zmm2[4..7]
zmm1[12..15] from zmm2[0..3]
zmm1[16..63] zero
";

#[test]
fn build_writes_the_entries_of_the_library() {
    let folder = Folder::new("map_build");
    let mut map = [0; 2_048];
    let code = [0xC5, 0xF9, 0x70, 0xCA, 0x1B];
    assert_eq!(
        tarhuspo::bytemap_build(&code, &[0; 8], 63, &mut map).status,
        0
    );
    let expected: Vec<u8> = map.into_iter().flat_map(u16::to_le_bytes).collect();
    assert_eq!(printed_bytes(&["map", "build", SHUFFLE]), expected);
    assert_eq!(
        printed_bytes(&["map", "build", SHUFFLE, "--out", "-"]),
        expected
    );
    let out = folder.path("shuffle.map");
    assert_eq!(printed(&["map", "build", SHUFFLE, "--out", &out]), "");
    assert_eq!(folder.read("shuffle.map"), expected);
    let text = folder.write("code.hex", "C5 F9 70 CA 1B");
    assert_eq!(printed_bytes(&["map", "build", "--hex", &text]), expected);
}

/// What vunpcklps to a register moves, from xmm2 and xmm3.
fn unpacked(register: u32) -> String {
    format!(
        "\
zmm{register}[0..3] from zmm2[0..3]
zmm{register}[4..7] from zmm3[0..3]
zmm{register}[8..11] from zmm2[4..7]
zmm{register}[12..15] from zmm3[4..7]
zmm{register}[16..63] zero
"
    )
}

/// vunpcklps xmm1, xmm2, xmm3 again and again, and vunpcklps xmm4, xmm2, xmm3 as the last step.
#[test]
fn lists_of_up_to_16384_bytes_have_a_map() {
    let folder = Folder::new("map_longest");
    for steps in [1_024, 1_025, 4_096] {
        let first = [0xC5, 0xE8, 0x14, 0xCB].repeat(steps - 1);
        let code = [&first[..], &[0xC5, 0xE8, 0x14, 0xE3]].concat();
        let list = folder.write("long.bin", &code);
        let map = folder.path("long.map");
        printed(&["map", "build", &list, "--out", &map]);
        let expected = unpacked(1) + &unpacked(4);
        assert_eq!(printed(&["map", "show", &map]), expected, "{steps} steps");
        let mut entries = [0; 2_048];
        let built = tarhuspo::bytemap_build(&code, &[0; 8], 63, &mut entries);
        assert_eq!((built.place, built.status), (code.len() as u64, 0));
        let bytes: Vec<u8> = entries.into_iter().flat_map(u16::to_le_bytes).collect();
        assert_eq!(folder.read("long.map"), bytes, "{steps} steps");
    }
}

/// vpshufd zmm1{k1}, zmm2, 0xe4 and its mask.
#[test]
fn masks_and_features_count() {
    let code = "hex:62F17D4970CAE4";
    let masks = "hex:0 8001 0 0 0 0 0 0";
    let shown = |arguments: &[&str]| {
        let map = printed_bytes(arguments);
        let output = run_bytes(&["map", "show", "-"], &map);
        String::from_utf8(output.stdout).expect("UTF-8")
    };
    let expected = "zmm1[0..3] from zmm2[0..3]\nzmm1[60..63] from zmm2[60..63]\n";
    assert_eq!(shown(&["map", "build", code, "--masks", masks]), expected);
    let nothing = "nothing moves: every byte stays as it is\n";
    assert_eq!(shown(&["map", "build", code]), nothing);
    let arguments = ["map", "build", code, "--features", "avx,avx2"];
    assert_refused(&arguments, "refused at place 0", 5);
}

#[test]
fn refused_lists_write_nothing() {
    let folder = Folder::new("map_refused");
    let out = folder.write("kept.map", "as before");
    for (code, place, status) in [
        ("hex:C5F970CA1B C5F970", 5, 2),
        ("hex:90", 0, 3),
        // vpshufd zmm1, zmm2, 0x1b in EVEX map 5
        ("hex:C5E814CB 62F57D4870CA1B", 4, 3),
        ("hex:C5E814CB C5F970081B", 4, 7),
        ("hex:C4E2690DCB", 0, 7),
        // vpermilps and vpshufb with a register as control, behind a step that has a map
        ("hex:C5E814CB C4E2690CCB", 4, 7),
        ("hex:C5E814CB 62F26D4800CB", 4, 7),
        ("hex:C4E26900CB", 0, 7),
    ] {
        let refusal = format!("refused at place {place}");
        assert_refused(&["map", "build", code], &refusal, status);
        assert_refused(&["map", "build", code, "--out", &out], &refusal, status);
    }
    let features = ["map", "build", SHUFFLE, "--features", "64"];
    assert_refused(&features, "refused at place 0", 1);
    for size in [16_385, 20_000] {
        let long = folder.write("long.bin", vec![0xC5; size]);
        assert_refused(&["map", "build", &long], "refused at place 0", 8);
    }
    assert_eq!(folder.read("kept.map"), b"as before");
    assert_eq!(folder.names(), ["kept.map", "long.bin"]);
}

/// vperm2f128 with L 0, behind a step that has a map.
#[test]
fn a_wrong_field_of_a_list_is_named() {
    let arguments = ["map", "build", "hex:C5E814CB C4E36906CB31"];
    let refusal = format!("refused at place 4, status {WRONG_WIDTH}");
    assert_refused_with(&arguments, &refusal);
    let folder = Folder::new("map_field");
    let out = folder.write("kept.map", "as before");
    let arguments = [&arguments[..], &["--out", &out]].concat();
    assert_refused_with(&arguments, &refusal);
    assert_eq!(folder.read("kept.map"), b"as before");
}

#[test]
fn applying_is_running() {
    let folder = Folder::new("map_apply");
    let before = folder.write("before.bin", registers());
    let (map, after) = (folder.path("list.map"), folder.path("after.bin"));
    let code = "hex:C5F970CA1BC5F414D9";
    printed(&["map", "build", code, "--out", &map]);
    printed(&["run", code, "--registers", &before, "--out", &after]);
    let applied = printed_bytes(&["map", "apply", &map, "--registers", &before]);
    assert_eq!(applied, folder.read("after.bin"));
    assert_ne!(applied, registers());
    let arguments = [
        "map",
        "apply",
        &map,
        "--registers",
        &before,
        "--out",
        &before,
    ];
    assert_eq!(printed(&arguments), "");
    assert_eq!(folder.read("before.bin"), applied);
    let output = run_bytes(&["map", "apply", &map, "--registers", "-"], &registers());
    assert_eq!(output.stdout, applied);
}

#[test]
fn composing_is_joining_lists() {
    let folder = Folder::new("map_compose");
    let [one, two] = ["one.map", "two.map"].map(|name| folder.path(name));
    printed(&["map", "build", SHUFFLE, "--out", &one]);
    printed(&["map", "build", UNPACK, "--out", &two]);
    let joined = printed_bytes(&["map", "build", "hex:C5F970CA1BC5F414D9"]);
    assert_eq!(printed_bytes(&["map", "compose", &one, &two]), joined);
    let other = printed_bytes(&["map", "build", "hex:C5F414D9C5F970CA1B"]);
    assert_eq!(printed_bytes(&["map", "compose", &two, &one]), other);
    assert_ne!(joined, other);
    let three = printed_bytes(&["map", "build", "hex:C5F970CA1BC5F414D9C5F970CA1B"]);
    let out = folder.path("out.map");
    assert_eq!(
        printed(&["map", "compose", &one, &two, &one, "--out", &out]),
        ""
    );
    assert_eq!(folder.read("out.map"), three);
}

#[test]
fn show_prints_what_moves_in_runs() {
    let folder = Folder::new("map_show");
    let map = folder.path("shuffle.map");
    printed(&["map", "build", SHUFFLE, "--out", &map]);
    assert_eq!(printed(&["map", "show", &map]), SHUFFLED);

    let same = folder.write("same.map", map_with(&[]));
    let nothing = "nothing moves: every byte stays as it is\n";
    assert_eq!(printed(&["map", "show", &same]), nothing);
}

/// What each of the lane permutes without a control in a register does to every file.
#[test]
fn lane_permutes_have_maps() {
    let folder = Folder::new("map_lanes");
    let map = folder.path("lanes.map");
    let zero = "zmm1[16..63] zero\n";
    for (code, moved) in [
        // vunpckhps xmm1, xmm2, xmm3
        (
            "hex:C5E815CB",
            "zmm1[0..3] from zmm2[8..11]\nzmm1[4..7] from zmm3[8..11]\n\
             zmm1[8..11] from zmm2[12..15]\nzmm1[12..15] from zmm3[12..15]\n",
        ),
        // vunpcklpd xmm1, xmm2, xmm3, and vunpckhpd
        (
            "hex:C5E914CB",
            "zmm1[0..7] from zmm2[0..7]\nzmm1[8..15] from zmm3[0..7]\n",
        ),
        (
            "hex:C5E915CB",
            "zmm1[0..7] from zmm2[8..15]\nzmm1[8..15] from zmm3[8..15]\n",
        ),
    ] {
        printed(&["map", "build", code, "--out", &map]);
        assert_eq!(printed(&["map", "show", &map]), format!("{moved}{zero}"));
    }
}

/// Runs end at the end of a register, of the target and of the source, and at a byte that stays.
#[test]
fn runs_stay_in_registers() {
    let folder = Folder::new("map_runs");
    let mut entries: Vec<(usize, u16)> = (60..68).map(|i| (i, i as u16 + 128)).collect();
    entries.extend((128..136).map(|i| (i, i as u16 + 60)));
    entries.extend([
        (200, 2_048),
        (201, 2_048),
        (203, 2_048),
        (255, 2_048),
        (256, 2_048),
    ]);
    entries.extend([(300, 7), (301, 7), (302, 8), (304, 10), (2_047, 0)]);
    let map = folder.write("runs.map", map_with(&entries));
    let expected = "\
zmm0[60..63] from zmm2[60..63]
zmm1[0..3] from zmm3[0..3]
zmm2[0..3] from zmm2[60..63]
zmm2[4..7] from zmm3[0..3]
zmm3[8..9] zero
zmm3[11] zero
zmm3[63] zero
zmm4[0] zero
zmm4[44] from zmm0[7]
zmm4[45..46] from zmm0[7..8]
zmm4[48] from zmm0[10]
zmm31[63] from zmm0[0]
";
    assert_eq!(printed(&["map", "show", &map]), expected);
}

#[test]
fn entries_above_2048_are_refused() {
    let folder = Folder::new("map_entries");
    let good = folder.write("good.map", map_with(&[(5, 2_048)]));
    let before = folder.write("before.bin", registers());
    let picture = folder.path("picture.svg");
    for (place, entry) in [(0, 2_049), (2_047, 65_535)] {
        let bad = folder.write("bad.map", map_with(&[(place, entry)]));
        let refusal = format!("'{bad}': refused");
        let arguments: [&[&str]; 5] = [
            &["map", "show", &bad],
            &["map", "show", &bad, "--svg", &picture],
            &["map", "apply", &bad, "--registers", &before],
            &["map", "compose", &bad, &good],
            &["map", "compose", &good, &good, &bad],
        ];
        for arguments in arguments {
            assert_refused(arguments, &refusal, 9);
        }
    }
    assert_eq!(folder.names(), ["bad.map", "before.bin", "good.map"]);
}

#[test]
fn files_of_the_wrong_size_are_bad_usage() {
    let folder = Folder::new("map_sizes");
    let what = "expected a map of 4,096 bytes (2,048 entries of 16 bits) in";
    for (size, found) in [(0, "0"), (2_048, "2048"), (4_095, "4095"), (4_097, "more")] {
        let map = folder.write("odd.map", vec![0; size]);
        let message = format!("{what} '{map}', not {found}");
        assert_bad_usage(&["map", "show", &map], &message);
    }
    let map = folder.write("even.map", map_with(&[]));
    let short = folder.write("short.bin", [0; 100]);
    let message = format!("expected 2,048 bytes of registers in '{short}', not 100");
    assert_bad_usage(&["map", "apply", &map, "--registers", &short], &message);
}

#[test]
fn bad_usage_is_one_line() {
    assert_bad_usage(&["map", "build"], "expected one list of instructions");
    assert_bad_usage(&["map", "show"], "expected one map");
    assert_bad_usage(&["map", "apply"], "expected one map");
    let registers = "expected --registers FILE, to apply the map to";
    assert_bad_usage(&["map", "apply", "x.map"], registers);
    let maps = "expected two or more maps, in the order of applying";
    assert_bad_usage(&["map", "compose"], maps);
    assert_bad_usage(&["map", "compose", "x.map"], maps);
    let twice = "expected --out only once";
    assert_bad_usage(&["map", "build", "--out", "x", "--out=y"], twice);
    let option = "expected no option but --svg, not '--png'";
    assert_bad_usage(&["map", "show", "--png", "x"], option);
}

#[test]
fn bytes_are_not_printed_on_a_terminal() {
    let Some((status, out)) = at_terminal("map build hex:C5F970CA1B") else {
        return;
    };
    let line = "tarhuspo: expected --out FILE or a pipe: maps are no text for a terminal";
    assert_eq!((status, out.trim_end()), (Some(2), line));
}
