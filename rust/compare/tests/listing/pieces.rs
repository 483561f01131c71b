//! Listings in pieces (request 5).

use crate::expected::Lines;
use crate::lists::{for_lists, with_or_without_fault};
use crate::Kind;
use compare::limits::{OLD_CODE_LIMIT, OLD_TEXT_SIZES};
use compare::listings::{enough, refusal, Case, Comparison};
use compare::lists::Mix;
use compare::random::Random;
use tarhuspo::limits::{CODE_LIMIT, TEXT_LEAST, TEXT_WHOLE};

pub const KINDS: [Kind; 8] = [
    ("every place", every_place),
    ("joined, of one size", joined),
    ("joined, of any sizes", joined_of_any_sizes),
    ("last line fits or not", last_lines),
    ("size of the text", text_sizes),
    ("place past the end", past_end),
    ("pieces of long lists", long_lists),
    ("long, from any place", long_lists_from_any_place),
];

/// Compares a piece with what decoding each instruction gives.
fn check_piece(comparison: &mut Comparison, case: &Case, lines: &Lines) {
    let (text, answer) = lines.piece(case.text_size);
    assert_eq!(comparison.check(case), answer, "{case}");
    assert_eq!(comparison.written(answer), text, "{case}");
}

/// The text of a list, by the reference.
fn whole_of_reference(code: &[u8]) -> String {
    let mut text = vec![0; enough(code)];
    let listed = reference::listing(code, 0, &mut text);
    assert_eq!((listed.status, listed.more), (0, false), "{code:02X?}");
    text.truncate(listed.written as usize);
    String::from_utf8(text).expect("ASCII")
}

/// Compares the pieces, joined, with the whole text: the reference's, and the one of each
/// instruction's decoding.
fn check_joined(comparison: &mut Comparison, case: &Case, size: impl FnMut() -> usize) {
    let text = comparison.joined(case, size);
    assert_eq!(text, whole_of_reference(&case.code), "{case}");
    assert_eq!(text, Lines::new(&case.code, 0).text(), "{case}");
}

/// In and between instructions, and at the end, where other bytes follow in memory.
fn every_place(comparison: &mut Comparison) {
    for_lists(11, 300, 9, |list, case, random| {
        case.code = with_or_without_fault(list, random);
        case.behind = random.bytes(12);
        for place in 0..=case.code.len() {
            case.place = place;
            let lines = Lines::new(&case.code, place);
            for size in [TEXT_LEAST, TEXT_LEAST + 1, 100, enough(&case.code)] {
                case.text_size = size;
                check_piece(comparison, case, &lines);
            }
        }
    });
}

fn joined(comparison: &mut Comparison) {
    for_lists(12, 200, 40, |list, case, random| {
        case.code = with_or_without_fault(list, random);
        for size in (TEXT_LEAST..TEXT_LEAST + 30).chain([100, 200, 500, 1_000]) {
            check_joined(comparison, case, || size);
        }
    });
}

/// Another size for each piece.
fn joined_of_any_sizes(comparison: &mut Comparison) {
    for_lists(13, 1_000, 40, |list, case, random| {
        case.code = with_or_without_fault(list, random);
        for most in [30, 300] {
            check_joined(comparison, case, || TEXT_LEAST + random.below(most));
        }
    });
}

/// Text for exactly all lines from a place on, and a byte less: then the last one remains, with its
/// place, whether it is a refused step's or not.
fn last_lines(comparison: &mut Comparison) {
    for_lists(14, 3_000, 12, |list, case, random| {
        case.code = with_or_without_fault(list, random);
        let steps = random.below(3);
        case.place = list.end_of(steps).min(case.code.len());
        let lines = Lines::new(&case.code, case.place);
        let text = lines.text();
        let Some(last) = lines.last().filter(|_| text.len() > TEXT_LEAST) else {
            return;
        };
        for size in [text.len(), text.len() - 1, text.len() - last] {
            case.text_size = size.max(TEXT_LEAST);
            check_piece(comparison, case, &lines);
        }
    });
}

/// Lists of no bytes, of some, around both limits, and far over.
fn codes_of_all_lengths(random: &mut Random) -> Vec<Vec<u8>> {
    let mix = Mix::of(|form| !form.shape.memory);
    let around = |limit| [limit, limit + 1];
    let lengths = [around(OLD_CODE_LIMIT), around(CODE_LIMIT)].concat();
    let lists = lengths
        .iter()
        .map(|&length| mix.list_of_length(length, random).code);
    let mut codes: Vec<_> = lists.collect();
    codes.extend([0, 1, 9, 100_000].map(|length| random.bytes(length)));
    codes
}

/// Text that is too small answers 1 whatever code and place are, and before 8.
fn text_sizes(comparison: &mut Comparison) {
    let mut random = Random::new(15);
    for _ in 0..4 {
        for code in codes_of_all_lengths(&mut random) {
            check_text_sizes(comparison, &code);
        }
    }
}

fn check_text_sizes(comparison: &mut Comparison, code: &[u8]) {
    let mut case = Case::new(code);
    let end = code.len();
    for place in [0, end / 2, end.saturating_sub(1), end] {
        case.place = place;
        for size in [0, 1, 24, TEXT_LEAST - 1] {
            case.text_size = size;
            assert_eq!(comparison.check(&case), refusal(1), "{case}");
        }
        let lines = Lines::new(code, place);
        let sizes = [TEXT_LEAST, TEXT_LEAST + 1, 100, 70_000, TEXT_WHOLE];
        for size in [&sizes[..], &OLD_TEXT_SIZES].concat() {
            case.text_size = size;
            if end > CODE_LIMIT {
                assert_eq!(comparison.check(&case), refusal(8), "{case}");
            } else {
                check_piece(comparison, &case, &lines);
            }
        }
    }
}

/// A place past the end answers 1 whatever code and text are, and before 8.
fn past_end(comparison: &mut Comparison) {
    let mut random = Random::new(16);
    for _ in 0..4 {
        for code in codes_of_all_lengths(&mut random) {
            let mut case = Case::new(&code);
            case.behind = random.bytes(64);
            check_past_end(comparison, &mut case);
        }
    }
}

fn check_past_end(comparison: &mut Comparison, case: &mut Case) {
    let end = case.code.len();
    let far = [1 << 32, usize::MAX - 1, usize::MAX];
    for place in [&[end + 1, end + 2, end + 64, end + CODE_LIMIT][..], &far].concat() {
        case.place = place;
        for size in [0, TEXT_LEAST - 1, TEXT_LEAST, 100, 70_000] {
            case.text_size = size;
            assert_eq!(comparison.check(case), refusal(1), "{case}");
        }
    }
}

/// Any place of lists at the limit, in and between instructions.
fn long_lists_from_any_place(comparison: &mut Comparison) {
    let mut random = Random::new(18);
    let mix = Mix::of(|form| !form.shape.memory);
    for _ in 0..4 {
        let list = mix.list_of_length(CODE_LIMIT, &mut random);
        let mut case = Case::new(&list.code);
        for _ in 0..100 {
            let any = random.below(CODE_LIMIT + 1);
            case.place = random.pick(&[any, list.starts[any % list.count()]]);
            case.text_size = random.pick(&[TEXT_LEAST, 100, 1_000, 70_000]);
            check_piece(comparison, &case, &Lines::new(&case.code, case.place));
        }
    }
}

/// At the old limit and the new one, and one byte more or less. A list whose last bytes are missing
/// ends with a refused line.
fn long_lists(comparison: &mut Comparison) {
    let mut random = Random::new(17);
    let mix = Mix::of(|form| !form.shape.memory);
    for limit in [
        OLD_CODE_LIMIT,
        OLD_CODE_LIMIT + 1,
        CODE_LIMIT - 1,
        CODE_LIMIT,
    ] {
        for cut in 0..3 {
            let list = mix.list_of_length(limit + cut, &mut random);
            let mut case = Case::new(&list.code);
            case.behind = case.code.split_off(limit);
            for size in [TEXT_LEAST, 100, 4_000, 70_000, TEXT_WHOLE] {
                check_joined(comparison, &case, || size);
            }
            check_joined(comparison, &case, || TEXT_LEAST + random.below(1_000));
        }
    }
    // As many lines as there can be: more than 64 KiB of text.
    let case = Case::new(&[0xC5, 0xE8, 0x14, 0xCB].repeat(CODE_LIMIT / 4));
    assert!(Lines::new(&case.code, 0).text().len() > 0x1_0000);
    for size in [TEXT_LEAST, 100, 0x1_0000, TEXT_WHOLE] {
        check_joined(comparison, &case, || size);
    }
}
