//! Lists to build maps of.

use crate::Kind;
use compare::building::{Case, Comparison};
use compare::faults::{Fault, BUILD_FAULTS, FEATURE_SETS};
use compare::feature_sets;
use compare::form::Form;
use compare::limits::features::ALL;
use compare::limits::OLD_CODE_LIMIT;
use compare::lists::{List, Mix};
use compare::random::Random;
use tarhuspo::limits::{CODE_LIMIT, MAP_SIZE, MASK_COUNT, MOST_STEPS};
use tarhuspo::Built;

pub const KINDS: [Kind<Comparison>; 8] = [
    ("accepted", accepted),
    ("bad step at each position", bad_steps),
    ("steps of every form", every_form),
    ("wrong sizes", wrong_sizes),
    ("4,096 bytes and more", long_lists),
    ("cut at each byte", cuts),
    ("one bit flipped", bit_flips),
    ("any bytes", any_bytes),
];

/// Calls `each` with `count` accepted lists of at most `most` steps, and a case that has their code.
fn for_lists(
    seed: u64,
    count: usize,
    most: usize,
    mut each: impl FnMut(&List, &mut Case, &mut Random),
) {
    let mut random = Random::new(seed);
    let mixes = FEATURE_SETS.map(Mix::mappable);
    let mut case = Case::new(&mut random);
    for i in 0..count {
        let which = i % FEATURE_SETS.len();
        let steps = random.below(most + 1);
        let list = mixes[which].list(steps, &mut random);
        case.refill(&mut random);
        case.features = FEATURE_SETS[which];
        case.code.clone_from(&list.code);
        case.behind.clear();
        each(&list, &mut case, &mut random);
    }
}

/// Compares a list that does not answer 4.
fn check_expected(comparison: &mut Comparison, case: &Case, place: usize, status: u32) {
    check_built(comparison, case, place, (status, 0));
}

/// Compares a list with a known status and reason.
fn check_built(
    comparison: &mut Comparison,
    case: &Case,
    place: usize,
    (status, reason): (u32, u32),
) {
    let expected = Built {
        place: place as u64,
        status,
        reason,
    };
    let built = comparison.check(case);
    assert_eq!(built, expected, "the generator made\n{case}");
}

fn accepted(comparison: &mut Comparison) {
    for_lists(1, 24_000, 24, |_, case, _| {
        check_expected(comparison, case, case.code.len(), 0);
    });
}

fn bad_steps(comparison: &mut Comparison) {
    let mut random = Random::new(2);
    for features in FEATURE_SETS {
        let mix = Mix::mappable(features);
        for (fault, status) in BUILD_FAULTS {
            for _ in 0..100 {
                let steps = random.below(9);
                let list = mix.list(steps, &mut random);
                check_fault(comparison, (fault, status), &list, features, &mut random);
            }
        }
    }
}

/// Compares with the fault at each position of an accepted list.
fn check_fault(
    comparison: &mut Comparison,
    (fault, status): (Fault, u32),
    list: &List,
    features: u32,
    random: &mut Random,
) {
    let Some(bad) = fault.encode(features, random) else {
        return;
    };
    let mut case = Case::new(random);
    case.features = features;
    // For a step that is cut short, this is where the rest would be.
    case.behind = random.bytes(8);
    for position in 0..=list.count() {
        case.code = fault.insert(list, position, &bad);
        let answer = (status, bad.reason);
        check_built(comparison, &case, list.end_of(position), answer);
    }
}

/// Lists with memory operands and controls in registers among their steps.
fn every_form(comparison: &mut Comparison) {
    let mut random = Random::new(3);
    let mut case = Case::new(&mut random);
    for form in Form::all() {
        let single = Mix::of(|other| other.combination() == form.combination());
        for count in [1, 2, 3] {
            case.refill(&mut random);
            case.code = single.list(count, &mut random).code;
            let unmappable = form.shape.memory || form.has_register_control();
            let (place, status) = if unmappable {
                (0, 7)
            } else {
                (case.code.len(), 0)
            };
            check_expected(comparison, &case, place, status);
        }
    }
    let all = Mix::of(|_| true);
    for _ in 0..4_000 {
        let count = random.below(8);
        case.refill(&mut random);
        case.code = all.list(count, &mut random).code;
        case.features = random.pick(&FEATURE_SETS);
        comparison.check(&case);
    }
}

/// Wrong sizes answer 1 whatever the code is, and before 8.
fn wrong_sizes(comparison: &mut Comparison) {
    for_lists(4, 60, 6, |list, case, random| {
        let mut codes = vec![vec![], list.code.clone(), random.bytes(9)];
        codes.extend([CODE_LIMIT, CODE_LIMIT + 1].map(|length| random.bytes(length)));
        for code in codes {
            case.code = code;
            check_sizes(comparison, case);
        }
    });
}

fn check_sizes(comparison: &mut Comparison, case: &Case) {
    for size in [0, 1, MAP_SIZE - 1, MAP_SIZE + 1] {
        let mut wrong = case.clone();
        wrong.map.resize(size, 7);
        check_expected(comparison, &wrong, 0, 1);
    }
    for count in [0, MASK_COUNT - 1, MASK_COUNT + 1] {
        let mut wrong = case.clone();
        wrong.masks.resize(count, 7);
        check_expected(comparison, &wrong, 0, 1);
    }
    for features in feature_sets::REFUSED {
        let mut wrong = case.clone();
        wrong.features = features;
        check_expected(comparison, &wrong, 0, 1);
    }
}

/// Lists at the old limit and the new one, and over it.
fn long_lists(comparison: &mut Comparison) {
    let mut random = Random::new(5);
    let mix = Mix::mappable(ALL);
    let mut case = Case::new(&mut random);
    for _ in 0..20 {
        for length in [OLD_CODE_LIMIT, OLD_CODE_LIMIT + 1, CODE_LIMIT] {
            case.refill(&mut random);
            case.code = mix.list_of_length(length, &mut random).code;
            check_expected(comparison, &case, length, 0);
        }
        for more in [1, 2, 3, 4, 900] {
            case.code = mix.list_of_length(CODE_LIMIT + more, &mut random).code;
            check_expected(comparison, &case, 0, 8);
        }
        for cut in 1..4 {
            check_cut(comparison, cut, &mut random);
        }
    }
    // As many steps as a list can have.
    case.code = [0xC5, 0xE8, 0x14, 0xD9].repeat(MOST_STEPS as usize);
    check_expected(comparison, &case, CODE_LIMIT, 0);
    case.code = random.bytes(100_000);
    check_expected(comparison, &case, 0, 8);
}

/// A list at the limit that ends inside its last step, which has 4 or 5 bytes.
fn check_cut(comparison: &mut Comparison, cut: usize, random: &mut Random) {
    let list = Mix::mappable(ALL).list_of_length(CODE_LIMIT + cut, random);
    let mut case = Case::new(random);
    case.code.clone_from(&list.code);
    case.behind = case.code.split_off(CODE_LIMIT);
    check_expected(comparison, &case, list.starts[list.count() - 1], 2);
}

/// A list that ends inside a step answers 2 there, whatever follows in memory.
fn cuts(comparison: &mut Comparison) {
    for_lists(6, 400, 8, |list, case, _| {
        while let Some(last) = case.code.pop() {
            case.behind.insert(0, last);
            let length = case.code.len();
            let mut starts = list.starts.iter().rev().copied();
            let place = starts.find(|&start| start <= length).unwrap_or(0);
            let status = if place == length { 0 } else { 2 };
            check_expected(comparison, case, place, status);
        }
    });
}

fn bit_flips(comparison: &mut Comparison) {
    for_lists(7, 3_000, 10, |_, case, random| {
        for _ in 0..4 {
            let bits = 8 * case.code.len();
            if bits > 0 {
                let bit = random.below(bits);
                case.code[bit / 8] ^= 1 << (bit % 8);
            }
            comparison.check(case);
        }
    });
}

fn any_bytes(comparison: &mut Comparison) {
    let mut random = Random::new(8);
    let mut case = Case::new(&mut random);
    for _ in 0..10_000 {
        let length = random.below(40);
        case.code = random.bytes(length);
        if let Some(first) = case.code.first_mut() {
            *first = random.pick(&[*first, 0xC4, 0xC5, 0x62]);
        }
        case.features = feature_sets::any(&mut random);
        comparison.check(&case);
    }
}
