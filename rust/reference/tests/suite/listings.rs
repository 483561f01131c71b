//! The listing, in pieces.

use crate::sample::Sample;
use crate::support::{Random, ALL};
use reference::{decode, listing, Decoded, Listed};

const HEADER: &str = "at\tlen\tname\tbits\tanswer\n";
const VUNPCKLPS: [u8; 4] = [0xC5, 0xE8, 0x14, 0xCB];
/// The names by their numbers; 0 is a refused step's.
const NAMES: [&str; 11] = [
    "-",
    "VPERMILPD",
    "VPERMB",
    "VUNPCKLPS",
    "VPSHUFD",
    "VPERM2F128",
    "VPERMILPS",
    "VUNPCKHPS",
    "VUNPCKLPD",
    "VUNPCKHPD",
    "VPSHUFB",
];
/// Every listing fits into so many bytes: the header, and 27 for each of 4,096 lines.
const WHOLE: usize = 110_616;
/// The least size, sizes around it, and larger ones.
const SIZES: [usize; 7] = [64, 65, 84, 100, 1_000, 27_672, 70_000];

/// What a piece is: its text, the next place, and whether lines remain.
type Piece = (String, usize, bool);

/// Lists a piece into text of the given size and checks that nothing behind it is touched.
fn piece(code: &[u8], place: usize, size: usize) -> Piece {
    let mut text = vec![0xEE; size];
    let listed = listing(code, place, &mut text);
    assert_eq!(listed.status, 0);
    let (written, rest) = text.split_at(listed.written as usize);
    assert!(rest.iter().all(|&byte| byte == 0xEE));
    let written = String::from_utf8(written.to_vec()).unwrap();
    (written, listed.next as usize, listed.more)
}

/// Lists all of a list as one piece.
fn list(code: &[u8]) -> String {
    let (text, _, more) = piece(code, 0, WHOLE);
    assert!(!more);
    text
}

/// Lists in pieces from place 0 on, each of the size that `size` gives, and joins them.
fn joined(code: &[u8], mut size: impl FnMut() -> usize) -> String {
    let (mut text, mut next, mut more) = piece(code, 0, size());
    while more {
        let (line, place, remain) = piece(code, next, size());
        assert!(place > next || !remain, "no end at {next}");
        text += &line;
        (next, more) = (place, remain);
    }
    text
}

fn refused(code: &[u8], place: usize, size: usize, status: u32) {
    let mut text = vec![0xEE; size];
    let expected = Listed {
        written: 0,
        next: 0,
        status,
        more: false,
    };
    assert_eq!(listing(code, place, &mut text), expected);
    assert!(text.iter().all(|&byte| byte == 0xEE));
}

/// The line of a decoded step.
fn line(place: usize, step: &Decoded) -> String {
    let [length, bits] = [step.length, step.bits];
    let name = NAMES[step.mnemonic as usize];
    let reason = match step.status {
        4 => format!(":{}", step.reason),
        _ => String::new(),
    };
    format!(
        "{place}\t{length}\t{name}\t{bits}\t{}{reason}\n",
        step.status
    )
}

/// All lines from a place on with their places, and the place behind the last one, by decoding.
fn lines(code: &[u8], mut place: usize) -> (Vec<(usize, String)>, usize) {
    let mut lines = Vec::new();
    while place < code.len() {
        let step = decode(&code[place..], ALL);
        lines.push((place, line(place, &step)));
        if step.status != 0 {
            break;
        }
        place += step.length as usize;
    }
    (lines, place)
}

/// The piece with as many of all lines as fit.
fn expected(code: &[u8], place: usize, size: usize) -> Piece {
    let mut text = String::from(if place == 0 { HEADER } else { "" });
    let (lines, end) = lines(code, place);
    for (place, line) in lines {
        if text.len() + line.len() > size {
            return (text, place, true);
        }
        text += &line;
    }
    (text, end, false)
}

/// A list of accepted steps with its lines, worked out from the fields of its steps.
fn sample_list(count: usize, random: &mut Random) -> (Vec<u8>, String) {
    let mut code = Vec::new();
    let mut text = String::from(HEADER);
    for _ in 0..count {
        let sample = Sample::random(random);
        text += &line(code.len(), &sample.expected());
        code.extend(sample.encode());
    }
    (code, text)
}

/// A list of accepted steps; in most, a refused one among or behind them.
fn any_list(most: usize, random: &mut Random) -> Vec<u8> {
    let count = random.below(most);
    let (mut code, _) = sample_list(count, random);
    if count > 0 && random.flag() {
        let at = random.below(code.len());
        code[at] = random.byte();
    }
    if random.flag() {
        let tail = random.bytes(3);
        code.extend(tail);
    }
    code
}

#[test]
fn the_example() {
    let code = [0xC5, 0xF9, 0x70, 0xCA, 0x1B, 0xC5, 0xF9, 0x70];
    let text = "at\tlen\tname\tbits\tanswer\n0\t5\tVPSHUFD\t128\t0\n5\t0\t-\t0\t2\n";
    for size in SIZES {
        assert_eq!(piece(&code, 0, size), (text.to_string(), 5, false));
    }
}

/// Lines of 20 bytes up to place 8 and of 21 from there on: two behind the header fill 64 bytes.
#[test]
fn lines_that_fill_the_text() {
    let code = VUNPCKLPS.repeat(7);
    let line = |place: usize| format!("{place}\t4\tVUNPCKLPS\t128\t0\n");
    let lines = |places: &[usize]| places.iter().map(|&place| line(place)).collect();
    let first: String = [HEADER.to_string(), line(0), line(4)].concat();
    assert_eq!(first.len(), 64);
    for size in 64..84 {
        assert_eq!(piece(&code, 0, size), (first.clone(), 8, true));
    }
    let cases: [(usize, usize, &[usize], usize, bool); 8] = [
        (8, 64, &[8, 12, 16], 20, true),
        (8, 82, &[8, 12, 16], 20, true),
        (8, 83, &[8, 12, 16, 20], 24, true),
        (12, 64, &[12, 16, 20], 24, true),
        (12, 83, &[12, 16, 20], 24, true),
        (12, 84, &[12, 16, 20, 24], 28, false),
        (16, 64, &[16, 20, 24], 28, false),
        (24, 64, &[24], 28, false),
    ];
    for (place, size, places, next, more) in cases {
        assert_eq!(piece(&code, place, size), (lines(places), next, more));
    }
    assert_eq!(joined(&code, || 64), list(&code));
}

#[test]
fn the_empty_list() {
    for size in SIZES {
        assert_eq!(piece(&[], 0, size), (HEADER.to_string(), 0, false));
    }
}

#[test]
fn every_name_and_memory_forms() {
    let code = [
        &[0xC4, 0xE3, 0x7D, 0x05, 0xCA, 0x05][..],
        &[0x62, 0xF2, 0xED, 0x58, 0x0D, 0x08],
        &[0x62, 0xF2, 0x6D, 0x48, 0x8D, 0x8C, 0x24, 1, 2, 3, 4],
        &VUNPCKLPS,
        &[0x62, 0xF1, 0x7D, 0x58, 0x70, 0x8C, 0x24, 1, 2, 3, 4, 9],
        &[0xC4, 0xE3, 0x6D, 0x06, 0xCB, 0x88],
        &[0xC4, 0xE3, 0x79, 0x04, 0xCA, 0x1B],
        &[0x62, 0xF2, 0x6D, 0x58, 0x0C, 0x08],
        &[0xC5, 0xE8, 0x15, 0xCB],
        &[0xC4, 0xE1, 0xED, 0x14, 0xCB],
        &[0x62, 0xF1, 0xED, 0x48, 0x15, 0xCB],
        &[0x62, 0xF2, 0xED, 0x48, 0x00, 0xCB],
    ];
    let expected = "0\t6\tVPERMILPD\t256\t0\n6\t6\tVPERMILPD\t512\t0\n12\t11\tVPERMB\t512\t0\n\
        23\t4\tVUNPCKLPS\t128\t0\n27\t12\tVPSHUFD\t512\t0\n39\t6\tVPERM2F128\t256\t0\n\
        45\t6\tVPERMILPS\t128\t0\n51\t6\tVPERMILPS\t512\t0\n57\t4\tVUNPCKHPS\t128\t0\n\
        61\t5\tVUNPCKLPD\t256\t0\n66\t6\tVUNPCKHPD\t512\t0\n72\t6\tVPSHUFB\t512\t0\n";
    let expected = [HEADER, expected].concat();
    assert_eq!(list(&code.concat()), expected);
    assert_eq!(joined(&code.concat(), || 64), expected);
}

#[test]
fn the_first_refusal_ends_it() {
    let cases: [(&[u8], &str); 8] = [
        (&[0xC5, 0xE8, 0x14], "2"),
        (&[0x90], "3"),
        (&[0x62, 0xF9, 0x01, 0xF0, 0xFF], "4:1"),
        (&[0xC4, 0xE3, 0xE9, 0x06, 0xCB, 0x31], "4:2"),
        (&[0xC4, 0xE3, 0x69, 0x06, 0xCB, 0x31], "4:3"),
        (&[0xC5, 0xE9, 0x70, 0xCA, 0x1B], "4:4"),
        (&[0x62, 0xF2, 0x6D, 0xD8, 0x8D, 0x08], "4:5"),
        (&[0x62, 0xF1, 0x7D, 0xC8, 0x70, 0xCA, 0x1B], "4:6"),
    ];
    for (bad, answer) in cases {
        let code = [bad, &VUNPCKLPS].concat();
        // A short step is only short at the end.
        let code = if answer == "2" { bad } else { &code };
        let text = format!("{HEADER}0\t0\t-\t0\t{answer}\n");
        assert_eq!(piece(code, 0, 64), (text, 0, false));
        let behind = [&VUNPCKLPS, code].concat();
        let text = format!("4\t0\t-\t0\t{answer}\n");
        assert_eq!(piece(&behind, 4, 64), (text, 4, false));
    }
}

/// A last line that just fits ends the listing; with a byte less of room it remains.
#[test]
fn the_last_line_just_fits_or_not() {
    for (bad, last) in [
        (&[0x90][..], "12\t0\t-\t0\t3\n"),
        (&[0xC5, 0xE9, 0x70, 0xCA, 0x1B], "12\t0\t-\t0\t4:4\n"),
        (&VUNPCKLPS, "12\t4\tVUNPCKLPS\t128\t0\n"),
    ] {
        let code = [&VUNPCKLPS.repeat(3), bad].concat();
        let end = if bad == VUNPCKLPS { 16 } else { 12 };
        let whole = list(&code);
        assert!(whole.ends_with(last));
        let fits = whole.len();
        assert_eq!(piece(&code, 0, fits), (whole.clone(), end, false));
        let before = whole[..fits - last.len()].to_string();
        assert_eq!(piece(&code, 0, fits - 1), (before, 12, true));
        assert_eq!(piece(&code, 12, 64), (last.to_string(), end, false));
    }
}

#[test]
fn sizes_and_places_come_before_the_list_limit() {
    let full = VUNPCKLPS.repeat(4_096);
    let over = VUNPCKLPS.repeat(4_097);
    for code in [&[][..], &VUNPCKLPS, &[0x90], &full, &over] {
        let end = code.len();
        for size in [0, 1, 24, 63] {
            for place in [0, end / 2, end, end + 1, usize::MAX] {
                refused(code, place, size, 1);
            }
        }
        for size in SIZES {
            for place in [end + 1, end + 2, 2 * end + 64, usize::MAX] {
                refused(code, place, size, 1);
            }
        }
    }
    for code in [&over[..], &over[..16_385], &VUNPCKLPS.repeat(20_000)] {
        for size in SIZES {
            for place in [0, 4, 16_383, 16_384, code.len() - 1, code.len()] {
                refused(code, place, size, 8);
            }
        }
    }
}

#[test]
fn a_place_at_the_end_has_no_line() {
    for code in [&VUNPCKLPS[..], &[0x90], &VUNPCKLPS.repeat(4_096)] {
        for size in SIZES {
            let end = code.len();
            assert_eq!(piece(code, end, size), (String::new(), end, false));
        }
    }
}

/// In and between instructions.
#[test]
fn every_place_of_a_list() {
    let mut random = Random(20);
    let mut inside = 0;
    for _ in 0..40 {
        let code = any_list(12, &mut random);
        let (steps, _) = lines(&code, 0);
        for place in 0..=code.len() {
            inside += u32::from(steps.iter().all(|step| step.0 != place));
            for size in SIZES {
                let found = piece(&code, place, size);
                assert_eq!(found, expected(&code, place, size), "{code:02X?} {place}");
            }
        }
        refused(&code, code.len() + 1, 64, 1);
    }
    assert!(inside > 1_000, "{inside} places in instructions");
}

/// A place inside an instruction is decoded from there: its immediate, C5, and the bytes behind it
/// are another one.
#[test]
fn a_place_inside_an_instruction() {
    // vperm2f128 ymm1, ymm2, ymm3, 0xc5, then bytes that are vunpcklps behind that C5.
    let code = [0xC4, 0xE3, 0x6D, 0x06, 0xCB, 0xC5, 0xE8, 0x14, 0xCB];
    let whole = format!("{HEADER}0\t6\tVPERM2F128\t256\t0\n6\t0\t-\t0\t3\n");
    assert_eq!(list(&code), whole);
    let text = "5\t4\tVUNPCKLPS\t128\t0\n".to_string();
    assert_eq!(piece(&code, 5, 64), (text, 9, false));
    let text = "1\t0\t-\t0\t3\n".to_string();
    assert_eq!(piece(&code, 1, 64), (text, 1, false));
}

#[test]
fn pieces_join_to_the_whole_text() {
    let mut random = Random(21);
    for _ in 0..60 {
        let (code, text) = sample_list(random.below(80), &mut random);
        assert_eq!(list(&code), text);
        for size in (64..200).chain(SIZES) {
            assert_eq!(joined(&code, || size), text, "{code:02X?} in {size}");
        }
        for _ in 0..20 {
            assert_eq!(joined(&code, || 64 + random.below(200)), text);
        }
    }
    for _ in 0..200 {
        let code = any_list(80, &mut random);
        let text = expected(&code, 0, usize::MAX).0;
        assert_eq!(list(&code), text);
        for size in SIZES {
            assert_eq!(joined(&code, || size), text, "{code:02X?} in {size}");
        }
        assert_eq!(joined(&code, || 64 + random.below(200)), text);
    }
}

/// Lists at the old limit and at the new one, of the shortest steps and with the longest lines.
#[test]
fn the_longest_lists() {
    // vperm2f128 ymm1, ymm2, [rsp + ...], 1, of 11 bytes.
    let long = [0xC4, 0xE3, 0x6D, 0x06, 0x8C, 0x24, 1, 2, 3, 4, 1];
    for length in [4_095, 4_096, 4_097, 16_383, 16_384] {
        for step in [&VUNPCKLPS[..], &long] {
            let code = [&step.repeat(length / step.len()), &[0xC5; 11][..]].concat();
            let code = &code[..length];
            let text = list(code);
            assert_eq!(text, expected(code, 0, usize::MAX).0);
            assert_eq!(text.lines().count(), 1 + length.div_ceil(step.len()));
            assert!(text.lines().all(|line| line.len() < 27));
            for size in SIZES {
                assert_eq!(joined(code, || size), text);
            }
        }
    }
    let full = list(&VUNPCKLPS.repeat(4_096));
    assert!(full.ends_with("\n16380\t4\tVUNPCKLPS\t128\t0\n"));
    assert!(full.len() > 0x1_0000 && full.len() <= WHOLE);
}
