//! Listings of whole lists.

use crate::expected::HEADINGS;
use crate::lists::{for_lists, FAULTS};
use crate::Kind;
use compare::form::Form;
use compare::limits::features::ALL;
use compare::limits::OLD_CODE_LIMIT;
use compare::listings::{refusal, Case, Comparison};
use compare::lists::{List, Mix};
use compare::random::Random;
use tarhuspo::limits::CODE_LIMIT;
use tarhuspo::Listed;

pub const KINDS: [Kind; 8] = [
    ("written out", written_out),
    ("accepted", accepted),
    ("every form", every_form),
    ("bad step at each position", bad_steps),
    ("cut at each byte", cuts),
    ("4,096 bytes and more", long_lists),
    ("one bit flipped", bit_flips),
    ("any bytes", any_bytes),
];

/// Compares a list whose text is known, with the place behind it.
fn check_text(comparison: &mut Comparison, code: &[u8], lines: &str, next: usize) {
    let expected = format!("{HEADINGS}{lines}");
    let answer = Listed {
        written: expected.len() as u64,
        next: next as u64,
        status: 0,
        more: false,
    };
    let mut case = Case::new(code);
    for more in [0, 1, 3_000] {
        case.text_size += more;
        assert_eq!(comparison.check(&case), answer, "{case}");
        assert_eq!(comparison.written(answer), expected, "{case}");
    }
    assert_eq!(comparison.joined(&case, || 64), expected, "{case}");
}

/// Document 01's example, the empty list, every mnemonic, and places of one to five digits.
fn written_out(comparison: &mut Comparison) {
    let example = [0xC5, 0xF9, 0x70, 0xCA, 0x1B, 0xC5, 0xF9, 0x70];
    check_text(
        comparison,
        &example,
        "0\t5\tVPSHUFD\t128\t0\n5\t0\t-\t0\t2\n",
        5,
    );
    check_text(comparison, &[], "", 0);
    check_text(comparison, &[0x90], "0\t0\t-\t0\t3\n", 0);
    check_text(
        comparison,
        &[0xC5, 0xE9, 0x70, 0xCA, 0x1B],
        "0\t0\t-\t0\t4:4\n",
        0,
    );
    every_name(comparison);

    let many = [0xC5, 0xE8, 0x14, 0xCB].repeat(CODE_LIMIT / 4);
    let places = (0..CODE_LIMIT).step_by(4);
    let lines: String = places
        .map(|place| format!("{place}\t4\tVUNPCKLPS\t128\t0\n"))
        .collect();
    check_text(comparison, &many, &lines, CODE_LIMIT);
}

fn every_name(comparison: &mut Comparison) {
    let names: [&[u8]; 10] = [
        &[0xC4, 0xE3, 0x7D, 0x05, 0xCA, 0x05],
        &[0x62, 0xF2, 0x6D, 0x48, 0x8D, 0x8C, 0x24, 1, 2, 3, 4],
        &[0xC5, 0xE8, 0x14, 0xCB],
        &[0x62, 0xF1, 0x7D, 0x58, 0x70, 0x8C, 0x24, 1, 2, 3, 4, 9],
        &[0xC4, 0xE3, 0x6D, 0x06, 0xCB, 0x88],
        &[0xC4, 0xE3, 0x79, 0x04, 0xCA, 0x1B],
        &[0xC5, 0xE8, 0x15, 0xCB],
        &[0xC4, 0xE1, 0xED, 0x14, 0xCB],
        &[0x62, 0xF1, 0xED, 0x48, 0x15, 0xCB],
        &[0x62, 0xF2, 0xED, 0x48, 0x00, 0xCB],
    ];
    let lines = "0\t6\tVPERMILPD\t256\t0\n6\t11\tVPERMB\t512\t0\n17\t4\tVUNPCKLPS\t128\t0\n\
                 21\t12\tVPSHUFD\t512\t0\n33\t6\tVPERM2F128\t256\t0\n\
                 39\t6\tVPERMILPS\t128\t0\n45\t4\tVUNPCKHPS\t128\t0\n\
                 49\t5\tVUNPCKLPD\t256\t0\n54\t6\tVUNPCKHPD\t512\t0\n\
                 60\t6\tVPSHUFB\t512\t0\n";
    check_text(comparison, &names.concat(), lines, 66);
}

/// Compares a list that has `lines` lines behind the headings. The last one ends with `last`, and
/// `next` is its place if it is a refused step's, or else the end of the list.
fn check_lines(comparison: &mut Comparison, case: &Case, lines: usize, next: usize, last: &str) {
    let listed = comparison.check(case);
    let text = comparison.written(listed);
    let answer = (listed.status, listed.more, listed.next as usize);
    assert_eq!(answer, (0, false, next), "{case}");
    assert_eq!(text.lines().count(), lines + 1, "{case}\n{text}");
    assert!(text.ends_with(last), "{case}\n{text}");
}

fn accepted(comparison: &mut Comparison) {
    for_lists(1, 8_000, 40, |list, case, _| {
        check_lines(comparison, case, list.count(), list.code.len(), "\n");
    });
}

/// Each form alone, with its length, name and width.
fn every_form(comparison: &mut Comparison) {
    let mut random = Random::new(2);
    for form in Form::all() {
        for _ in 0..20 {
            let code = form.encode(&mut random);
            let (name, bits) = (form.shape.row.name, 8 * form.bytes());
            let line = format!("0\t{}\t{name}\t{bits}\t0\n", code.len());
            check_text(comparison, &code, &line, code.len());
        }
    }
}

/// The first refusal ends the text, whatever follows it.
fn bad_steps(comparison: &mut Comparison) {
    for_lists(3, 1_000, 9, |list, case, random| {
        let (fault, status) = random.pick(&FAULTS);
        let Some(bad) = fault.encode(ALL, random) else {
            return;
        };
        case.behind = random.bytes(8);
        let answer = match bad.reason {
            0 => format!("{status}"),
            reason => format!("{status}:{reason}"),
        };
        for position in 0..=list.count() {
            case.set_code(fault.insert(list, position, &bad));
            let place = list.end_of(position);
            let last = format!("\n{place}\t0\t-\t0\t{answer}\n");
            check_lines(comparison, case, position + 1, place, &last);
        }
    });
}

/// A list that ends inside a step has a line with 2 there, whatever follows in memory.
fn cuts(comparison: &mut Comparison) {
    for_lists(4, 300, 8, |list, case, _| {
        while let Some(last) = case.code.pop() {
            case.behind.insert(0, last);
            let length = case.code.len();
            let started = list.starts.iter().filter(|&&start| start < length).count();
            let (next, last) = match list.starts.contains(&length) {
                true => (length, "\n"),
                false => (list.starts[started - 1], "\t0\t-\t0\t2\n"),
            };
            check_lines(comparison, case, started, next, last);
        }
    });
}

fn long_lists(comparison: &mut Comparison) {
    let mut random = Random::new(6);
    for _ in 0..10 {
        for limit in [OLD_CODE_LIMIT, OLD_CODE_LIMIT + 1, CODE_LIMIT] {
            check_long(comparison, limit, &mut random);
        }
    }
    let mut case = Case::new(&random.bytes(100_000));
    case.old = random.byte();
    assert_eq!(comparison.check(&case), refusal(8));
}

/// Lists of so many bytes, and of up to three more.
fn check_long(comparison: &mut Comparison, length: usize, random: &mut Random) {
    let mix = Mix::of(|form| !form.shape.memory);
    for more in 0..4 {
        let list = mix.list_of_length(length + more, random);
        let mut case = Case::new(&list.code);
        case.old = random.byte();
        if list.code.len() > CODE_LIMIT {
            assert_eq!(comparison.check(&case), refusal(8), "{case}");
        } else {
            check_lines(comparison, &case, list.count(), list.code.len(), "\n");
        }
        if more > 0 {
            check_cut(comparison, &list, length, case);
        }
    }
}

/// Without up to three bytes, which follow in memory, a list ends inside its last step.
fn check_cut(comparison: &mut Comparison, list: &List, length: usize, mut case: Case) {
    case.behind = case.code.split_off(length);
    let place = list.starts[list.count() - 1];
    let last = format!("\n{place}\t0\t-\t0\t2\n");
    check_lines(comparison, &case, list.count(), place, &last);
}

fn bit_flips(comparison: &mut Comparison) {
    for_lists(7, 2_000, 10, |_, case, random| {
        for _ in 0..3 {
            let bits = 8 * case.code.len();
            if bits > 0 {
                let bit = random.below(bits);
                case.code[bit / 8] ^= 1 << (bit % 8);
            }
            comparison.check(case);
        }
    });
}

fn any_bytes(comparison: &mut Comparison) {
    let mut random = Random::new(8);
    let mut case = Case::new(&[]);
    for _ in 0..5_000 {
        let length = random.below(40);
        case.set_code(random.bytes(length));
        if let Some(first) = case.code.first_mut() {
            *first = random.pick(&[*first, 0xC4, 0xC5, 0x62]);
        }
        comparison.check(&case);
    }
}
