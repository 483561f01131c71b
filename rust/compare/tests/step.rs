//! A step of the library leaves the same bytes everywhere as one of the reference, on more than a
//! million inputs.

use compare::coverage::Coverage;
use compare::encoding::Shape;
use compare::feature_sets;
use compare::form::Form;
use compare::limits::features::ALL;
use compare::limits::{FILE_SIZE, MASK_COUNT};
use compare::random::Random;
use compare::stepping::{Case, Comparison};
use compare::tally::{Reasons, Table};

const LEAST: u64 = 1_000_000;

/// A kind of input: its name, and what compares all inputs of that kind.
type Kind = (&'static str, fn(&mut Comparison));

const KINDS: [Kind; 17] = [
    ("every form", every_form),
    ("every register", every_register),
    ("shared registers", shared_registers),
    ("every immediate", every_immediate),
    ("every opmask bit", every_opmask_bit),
    ("extreme bytes", extreme_bytes),
    ("every length of memory", memory_lengths),
    ("size of the file", file_sizes),
    ("number of opmasks", mask_counts),
    ("features", feature_numbers),
    ("one bit flipped", bit_flips),
    ("one byte replaced", replaced_bytes),
    ("truncated", truncations),
    ("bytes behind", extra_bytes),
    ("15 bytes from a prefix", random_behind_prefix),
    ("any bytes", any_bytes),
    ("several faults", several_faults),
];

#[test]
fn library_agrees_with_reference() {
    let mut table = Table::new("compared steps", &[0, 1, 2, 3, 4, 5, 6]);
    let mut reasons = Reasons::default();
    let mut coverage = Coverage::default();
    for (name, compare_all) in KINDS {
        let mut comparison = Comparison::default();
        compare_all(&mut comparison);
        table.line(name, comparison.counts);
        reasons.merge(&comparison.reasons);
        coverage.merge(&comparison.coverage);
    }
    table.finish(LEAST);
    reasons.finish("steps by reason");
    coverage.check_complete();
}

/// Calls `each` for every form, `count` times over, with an accepted case of that form.
fn for_forms(seed: u64, count: usize, mut each: impl FnMut(Form, &mut Case, &mut Random)) {
    let mut random = Random::new(seed);
    let mut case = Case::new(&mut random);
    for form in Form::all() {
        for _ in 0..count {
            case.refill(&mut random);
            case.features = ALL;
            case.set_code(form.encode(&mut random), form.memory(), &mut random);
            each(form, &mut case, &mut random);
        }
    }
}

/// Compares a case that has to be carried out.
fn check_accepted(comparison: &mut Comparison, case: &Case) {
    let status = comparison.check(case);
    assert_eq!(status, 0, "the generator made\n{case}");
}

/// Gives the case a memory operand of the length that its code asks for, if it is accepted.
fn fit_memory(case: &mut Case, random: &mut Random) {
    let decoded = reference::decode(&case.code, case.features);
    if decoded.status == 0 {
        case.set_memory(decoded.memory as usize, random);
    }
}

fn every_form(comparison: &mut Comparison) {
    for_forms(1, 2_500, |_, case, _| check_accepted(comparison, case));
}

/// Every destination with every third operand, and with every first source.
fn every_register(comparison: &mut Comparison) {
    for_forms(2, 1, |form, case, random| {
        let shape = form.shape;
        for destination in 0..shape.registers() {
            shape.set_destination(&mut case.code, destination);
            check_sources(comparison, shape, case, random);
        }
    });
}

fn check_sources(comparison: &mut Comparison, shape: Shape, case: &mut Case, random: &mut Random) {
    let thirds = if shape.memory {
        0
    } else {
        shape.third_registers()
    };
    for third in 0..thirds {
        case.refill(random);
        shape.set_third(&mut case.code, third);
        check_accepted(comparison, case);
    }
    let firsts = if shape.row.first {
        shape.registers()
    } else {
        0
    };
    for first in 0..firsts {
        case.refill(random);
        shape.set_first(&mut case.code, first);
        check_accepted(comparison, case);
    }
}

/// The destination is one of the sources or both, or the sources are one register.
fn shared_registers(comparison: &mut Comparison) {
    for_forms(3, 300, |form, case, random| {
        let shape = form.shape;
        let one = random.below(shape.third_registers().into()) as u8;
        let other = random.below(shape.registers().into()) as u8;
        let (destination, first, third) = match random.below(4) {
            0 => (one, one, one),
            1 => (one, other, one),
            2 => (other, other, one),
            _ => (other, one, one),
        };
        shape.set_destination(&mut case.code, destination);
        if shape.row.first {
            shape.set_first(&mut case.code, first);
        }
        if !shape.memory {
            shape.set_third(&mut case.code, third);
        }
        check_accepted(comparison, case);
    });
}

fn every_immediate(comparison: &mut Comparison) {
    for_forms(4, 3, |form, case, random| {
        if !form.shape.row.immediate {
            return;
        }
        for immediate in 0..=u8::MAX {
            case.refill(random);
            form.shape.set_immediate(&mut case.code, immediate);
            check_accepted(comparison, case);
        }
    });
}

/// Each opmask with each bit alone set, and alone clear.
fn every_opmask_bit(comparison: &mut Comparison) {
    for_forms(5, 1, |form, case, random| {
        let numbers = if form.masked { 1..8 } else { 0..0 };
        for number in numbers {
            form.shape.set_mask(&mut case.code, number, form.zeroing);
            check_opmask_bits(comparison, number.into(), case, random);
        }
    });
}

/// The other opmasks have the opposite bits.
fn check_opmask_bits(
    comparison: &mut Comparison,
    number: usize,
    case: &mut Case,
    random: &mut Random,
) {
    for bit in 0..64 {
        random.fill(&mut case.file);
        for opmask in [1 << bit, !(1 << bit)] {
            case.masks.fill(!opmask);
            case.masks[number] = opmask;
            check_accepted(comparison, case);
        }
    }
}

/// Registers and memory of equal bytes, of ascending ones, and of a single byte that is not 0.
fn extreme_bytes(comparison: &mut Comparison) {
    for_forms(6, 20, |_, case, random| {
        for byte in [0, 1, 2, 0x7F, 0x80, 0xFD, 0xFF] {
            case.file.fill(byte);
            check_accepted(comparison, case);
            case.memory.fill(!byte);
            check_accepted(comparison, case);
        }
        for (i, byte) in case.file.iter_mut().enumerate() {
            *byte = (i + i / 64) as u8;
        }
        check_accepted(comparison, case);
        case.file.fill(0);
        case.file[random.below(FILE_SIZE)] = 0xFF;
        check_accepted(comparison, case);
    });
}

/// Every length up to one above the widest vector, and some long ones.
fn memory_lengths(comparison: &mut Comparison) {
    for_forms(7, 2, |form, case, random| {
        for length in (0..=65).chain([127, 128, 129, FILE_SIZE, 5_000]) {
            case.set_memory(length, random);
            let expected = if length == form.memory() { 0 } else { 6 };
            let status = comparison.check(case);
            assert_eq!(status, expected, "the generator made\n{case}");
        }
    });
}

fn file_sizes(comparison: &mut Comparison) {
    for_forms(8, 2, |_, case, random| {
        for size in [0, 1, 63, 64, 1_024, 2_047, 2_049, 2_112, 4_096] {
            case.file.resize(size, 0);
            random.fill(&mut case.file);
            assert_eq!(comparison.check(case), 1, "{size} bytes of registers");
        }
    });
}

fn mask_counts(comparison: &mut Comparison) {
    for_forms(9, 2, |_, case, random| {
        for count in [0, 1, 6, 7, 9, 10, 16, 64] {
            case.masks.resize(count, random.number());
            assert_eq!(comparison.check(case), 1, "{count} opmasks");
        }
    });
}

/// Sets of features that pass, and numbers that do not.
fn feature_numbers(comparison: &mut Comparison) {
    let numbers = feature_sets::numbers();
    for_forms(10, 4, |_, case, _| {
        for &features in &numbers {
            case.features = features;
            comparison.check(case);
        }
    });
}

fn bit_flips(comparison: &mut Comparison) {
    for_forms(11, 12, |_, case, random| {
        for bit in 0..8 * case.code.len() {
            random.fill(&mut case.file);
            case.code[bit / 8] ^= 1 << (bit % 8);
            fit_memory(case, random);
            comparison.check(case);
            case.code[bit / 8] ^= 1 << (bit % 8);
        }
    });
}

/// Each byte of an instruction takes random values. Bytes follow for a longer operand.
fn replaced_bytes(comparison: &mut Comparison) {
    for_forms(12, 4, |_, case, random| {
        let length = case.code.len();
        case.code.extend(random.bytes(8));
        for at in 0..length {
            let kept = case.code[at];
            for _ in 0..16 {
                case.code[at] = random.byte();
                fit_memory(case, random);
                comparison.check(case);
            }
            case.code[at] = kept;
        }
    });
}

fn truncations(comparison: &mut Comparison) {
    for_forms(13, 40, |_, case, _| {
        while let Some(last) = case.code.pop() {
            case.behind.insert(0, last);
            assert_eq!(comparison.check(case), 2, "the generator made\n{case}");
        }
    });
}

/// Bytes behind an instruction change nothing, neither those that are passed nor the others.
fn extra_bytes(comparison: &mut Comparison) {
    for_forms(14, 20, |_, case, random| {
        let length = case.code.len();
        for extra in [1, 2, 3, 8, 15, 64, 5_000] {
            case.code.truncate(length);
            case.code.extend(random.bytes(extra));
            case.behind = random.bytes(16);
            check_accepted(comparison, case);
        }
    });
}

fn random_behind_prefix(comparison: &mut Comparison) {
    let mut random = Random::new(15);
    let mut case = Case::new(&mut random);
    for first in [0xC4, 0xC5, 0x62] {
        for _ in 0..40_000 {
            let mut code = random.bytes(15);
            code[0] = first;
            case.set_code(code, 0, &mut random);
            case.features = feature_sets::any(&mut random);
            fit_memory(&mut case, &mut random);
            comparison.check(&case);
        }
    }
}

fn any_bytes(comparison: &mut Comparison) {
    let mut random = Random::new(16);
    let mut case = Case::new(&mut random);
    for _ in 0..40_000 {
        let length = random.below(20);
        let memory = random.below(66);
        case.set_code(random.bytes(length), memory, &mut random);
        case.features = feature_sets::any(&mut random);
        comparison.check(&case);
    }
}

/// Each fault is there or not, independently: which of them is reported, and that none is done.
fn several_faults(comparison: &mut Comparison) {
    for_forms(17, 1_000, |_, case, random| {
        let mut is_there = || random.below(3) == 0;
        let [bits, cut, length, missing, refused] = [(); 5].map(|()| is_there());
        // These two hide all others, so they are rarer.
        let [file, masks] = [(); 2].map(|()| is_there() && is_there());
        if bits {
            let bit = random.below(8 * case.code.len());
            case.code[bit / 8] ^= 1 << (bit % 8);
        }
        if cut {
            case.cut(random.below(case.code.len()));
        }
        if length {
            let wrong = (case.memory.len() + 1).saturating_sub(2 * random.below(2));
            case.set_memory(wrong, random);
        }
        if missing {
            case.features = feature_sets::possible(random);
        }
        if refused && random.flag() {
            case.features = feature_sets::refused(random);
        }
        if file {
            case.file
                .resize(random.pick(&[0, FILE_SIZE - 1, FILE_SIZE + 1]), 0);
        }
        if masks {
            case.masks
                .resize(random.pick(&[0, MASK_COUNT - 1, MASK_COUNT + 1]), 0);
        }
        comparison.check(case);
    });
}
