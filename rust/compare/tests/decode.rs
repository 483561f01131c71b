//! Every field of the library's decoding equals the reference's, on millions of inputs.

use compare::decoding::{Comparison, STATUSES};
use compare::encoding::{Prefix, Shape};
use compare::feature_sets;
use compare::instructions::Instructions;
use compare::limits::features::{ALL, SETS};
use compare::random::Random;
use compare::tally::Reasons;
use std::collections::BTreeMap;

const LEAST: u64 = 1_000_000;

/// A kind of input: its name, and what compares all inputs of that kind.
type Kind = (&'static str, fn(&mut Comparison));

const KINDS: [Kind; 14] = [
    ("accepted", accepted),
    ("one byte, any value", one_byte),
    ("two bytes, any values", two_bytes),
    ("opcode, map, pp, W", table_keys),
    ("ModRM, SIB, any length", operand_lengths),
    ("one bit flipped", bit_flips),
    ("truncated", truncations),
    ("one bit flipped, cut", flipped_truncations),
    ("bytes behind", extra_bytes),
    ("any first byte", first_bytes),
    ("15 bytes from a prefix", random_behind_prefix),
    ("features", feature_numbers),
    ("short", short_inputs),
    ("100,000 bytes", long_inputs),
];

#[test]
fn library_agrees_with_reference() {
    let mut totals = [0; STATUSES];
    let mut reasons = BTreeMap::new();
    let mut instructions = Instructions::default();
    println!(
        "{:24}{:>10}  by status 0 to 5",
        "compared decodings", "cases"
    );
    for (name, compare_all) in KINDS {
        let mut comparison = Comparison::default();
        compare_all(&mut comparison);
        report(name, comparison.counts);
        assert!(
            comparison.counts.iter().sum::<u64>() > 0,
            "no case of the kind '{name}'"
        );
        for (total, count) in totals.iter_mut().zip(comparison.counts) {
            *total += count;
        }
        for (first, more) in comparison.reasons {
            let counted: &mut Reasons = reasons.entry(first).or_default();
            counted.merge(&more);
        }
        instructions.merge(&comparison.instructions);
    }
    report("total", totals);
    assert!(
        totals.iter().sum::<u64>() >= LEAST,
        "fewer than {LEAST} cases"
    );
    assert!(
        totals.iter().all(|&total| total > 0),
        "a status from 0 to 5 never occurred"
    );
    check_reasons(&reasons);
    instructions.print("accepted, by instruction", |_| true);
}

/// The reasons that a prefix can have, by its first byte. C5 has neither W nor the rows that ask for
/// a width. C4 has no fixed bits, b or z. Under 62 another W is another row or none.
const REASONS: [(u8, &[u32]); 3] = [(0x62, &[1, 3, 4, 5, 6]), (0xC4, &[2, 3, 4]), (0xC5, &[4])];

fn check_reasons(reasons: &BTreeMap<u8, Reasons>) {
    Reasons::print_head("reasons by first byte");
    let mut found = Vec::new();
    for (first, reasons) in reasons.iter().filter(|(_, r)| r.sum() > 0) {
        reasons.print(&format!("{first:02X}"));
        found.push((*first, reasons.found()));
    }
    let expected = REASONS.map(|(first, reasons)| (first, reasons.to_vec()));
    assert_eq!(found, expected, "reasons of each first byte");
}

fn report(name: &str, counts: [u64; STATUSES]) {
    let sum: u64 = counts.iter().sum();
    let by_status: Vec<_> = counts.iter().map(|count| format!("{count:>8}")).collect();
    println!("{name:24}{sum:>10}  {}", by_status.join(" "));
}

/// An accepted instruction of each shape, `count` times over.
fn samples(seed: u64, count: usize) -> Vec<(Shape, Vec<u8>)> {
    let mut random = Random::new(seed);
    let shapes = Shape::all()
        .into_iter()
        .cycle()
        .take(Shape::all().len() * count);
    shapes
        .map(|shape| (shape, shape.encode(&mut random)))
        .collect()
}

/// As `samples`, each followed by enough bytes for any change of its ModRM and SIB.
fn padded_samples(seed: u64, count: usize) -> Vec<(Shape, Vec<u8>)> {
    let mut random = Random::new(!seed);
    let mut samples = samples(seed, count);
    for (_, code) in &mut samples {
        code.extend(random.bytes(8));
    }
    samples
}

fn check_features(
    comparison: &mut Comparison,
    code: &[u8],
    numbers: impl IntoIterator<Item = u32>,
) {
    for features in numbers {
        comparison.check(code, features);
    }
}

fn accepted(comparison: &mut Comparison) {
    for (shape, code) in samples(1, 4_000) {
        let status = comparison.check(&code, ALL);
        assert_eq!(status, 0, "the generator made {code:02X?} of {shape:?}");
    }
}

/// Each byte up to the SIB takes every value, under every set of features that passes, and under a
/// number of either kind that does not.
fn one_byte(comparison: &mut Comparison) {
    let mut random = Random::new(17);
    for (shape, mut code) in padded_samples(2, 6) {
        for at in 0..=shape.opcode_at() + 2 {
            let kept = code[at];
            for value in 0..=u8::MAX {
                code[at] = value;
                check_features(comparison, &code, SETS);
                let refused = [feature_sets::impossible, feature_sets::unknown];
                check_features(comparison, &code, refused.map(|number| number(&mut random)));
            }
            code[at] = kept;
        }
    }
}

/// Every two bytes between the first byte and the SIB take all pairs of values.
fn two_bytes(comparison: &mut Comparison) {
    for (shape, code) in padded_samples(3, 1) {
        let last = shape.opcode_at() + 2;
        for one in 1..last {
            for other in one + 1..=last {
                all_pairs(comparison, code.clone(), one, other);
            }
        }
    }
}

fn all_pairs(comparison: &mut Comparison, mut code: Vec<u8>, one: usize, other: usize) {
    for values in 0..=u16::MAX {
        [code[one], code[other]] = values.to_be_bytes();
        comparison.check(&code, ALL);
    }
}

/// All values of the fields that a row is found by, with the other fields of each shape.
fn table_keys(comparison: &mut Comparison) {
    for (shape, mut code) in padded_samples(4, 1) {
        if shape.prefix == Prefix::Vex2 {
            all_pairs(comparison, code, 1, 2);
            continue;
        }
        let (p, q) = (code[1] & 0xE0, code[2] & 0x78);
        for key in 0..=u16::MAX {
            let [opcode, fields] = key.to_be_bytes();
            // The five low bits of P, and W and pp of Q. Q's fixed bit or L stays as it is.
            code[1] = p | (fields & 0x1F);
            code[2] = q | (code[2] & 4) | (fields >> 7 << 7) | (fields >> 5 & 3);
            code[shape.opcode_at()] = opcode;
            comparison.check(&code, ALL);
        }
    }
}

/// Every ModRM with every SIB base, cut at every length from the opcode on.
fn operand_lengths(comparison: &mut Comparison) {
    for (shape, mut code) in padded_samples(5, 1) {
        let modrm_at = shape.opcode_at() + 1;
        for values in 0..1 << 11 {
            code[modrm_at] = values as u8;
            code[modrm_at + 1] = (code[modrm_at + 1] & !7) | (values >> 8) as u8;
            for length in modrm_at..=modrm_at + 8 {
                comparison.check_part(&code, length, ALL);
            }
        }
    }
}

fn bit_flips(comparison: &mut Comparison) {
    for (_, mut code) in samples(6, 400) {
        for bit in 0..8 * code.len() {
            code[bit / 8] ^= 1 << (bit % 8);
            comparison.check(&code, ALL);
            code[bit / 8] ^= 1 << (bit % 8);
        }
    }
}

fn truncations(comparison: &mut Comparison) {
    for (_, code) in samples(7, 1_000) {
        for length in 0..code.len() {
            let status = comparison.check_part(&code, length, ALL).status;
            assert_eq!(status, 2, "{length} bytes of {code:02X?}");
        }
    }
}

/// Which of two faults is reported, under all sets of features that pass in turn.
fn flipped_truncations(comparison: &mut Comparison) {
    for (_, mut code) in samples(16, 60) {
        for bit in 0..8 * code.len() {
            code[bit / 8] ^= 1 << (bit % 8);
            for length in 0..code.len() {
                comparison.check_part(&code, length, SETS[(bit + length) % SETS.len()]);
            }
            code[bit / 8] ^= 1 << (bit % 8);
        }
    }
}

/// Bytes behind an instruction change nothing.
fn extra_bytes(comparison: &mut Comparison) {
    let mut random = Random::new(8);
    for (_, code) in samples(9, 500) {
        for extra in [1, 2, 3, 8, 15, 64] {
            let longer = [&code[..], &random.bytes(extra)].concat();
            assert_eq!(comparison.check(&longer, ALL), 0, "{longer:02X?}");
            let (short, long) = (tarhuspo::decode(&code, ALL), tarhuspo::decode(&longer, ALL));
            assert_eq!(short, long, "{longer:02X?}");
        }
    }
}

fn first_bytes(comparison: &mut Comparison) {
    let mut random = Random::new(10);
    for first in 0..=u8::MAX {
        for _ in 0..1_000 {
            let length = random.below(20);
            let mut code = random.bytes(1 + length);
            code[0] = first;
            comparison.check(&code, feature_sets::any(&mut random));
        }
    }
}

fn random_behind_prefix(comparison: &mut Comparison) {
    let mut random = Random::new(11);
    for first in [0xC4, 0xC5, 0x62] {
        for _ in 0..200_000 {
            let mut code = random.bytes(15);
            code[0] = first;
            comparison.check(&code, feature_sets::any(&mut random));
        }
    }
}

/// Sets of features that pass, and numbers that do not.
fn feature_numbers(comparison: &mut Comparison) {
    let mut random = Random::new(12);
    let mut codes = vec![vec![], vec![0x62], vec![0x90], random.bytes(15)];
    for (_, code) in samples(13, 10) {
        let mut damaged = code.clone();
        damaged[1] ^= 1 << random.below(8);
        codes.extend([code[..code.len() - 1].to_vec(), code, damaged]);
    }
    for code in &codes {
        check_features(comparison, code, feature_sets::numbers());
    }
}

/// No byte, every single byte, every two bytes, and 15 equal bytes.
fn short_inputs(comparison: &mut Comparison) {
    for features in [0, ALL, ALL - 1, ALL + 1] {
        comparison.check(&[], features);
        for byte in 0..=u8::MAX {
            comparison.check(&[byte], features);
            comparison.check(&[byte; 15], features);
        }
        for pair in 0..=u16::MAX {
            comparison.check(&pair.to_be_bytes(), features);
        }
    }
}

/// Instructions of each shape, whole and with a bit flipped, and random bytes, all 100,000 long.
fn long_inputs(comparison: &mut Comparison) {
    let mut random = Random::new(14);
    let tail = random.bytes(100_000);
    comparison.check(&tail, ALL);
    for (_, mut code) in samples(15, 4) {
        let bit = random.below(8 * code.len());
        code.extend_from_slice(&tail[code.len()..]);
        comparison.check(&code, ALL);
        comparison.check(&code, ALL + 1);
        comparison.check(&code, ALL - 1);
        code[bit / 8] ^= 1 << (bit % 8);
        comparison.check(&code, ALL);
    }
}
