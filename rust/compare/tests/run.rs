//! A run of the library gives the same numbers and leaves the same bytes as one of the reference.

use compare::faults::{Fault, FEATURE_SETS, RUN_FAULTS};
use compare::feature_sets;
use compare::instructions::Instructions;
use compare::limits::features::ALL;
use compare::limits::{OLD_CODE_LIMIT, OLD_MOST_STEPS};
use compare::lists::{List, Mix};
use compare::random::Random;
use compare::running::{Case, Comparison};
use compare::tally::{Reasons, Table};
use tarhuspo::limits::{CODE_LIMIT, FILE_SIZE, MASK_COUNT, MOST_STEPS};
use tarhuspo::Ran;

/// Lists, each of which is run with one or more budgets.
const LEAST_LISTS: u64 = 50_000;
const LEAST_RUNS: u64 = 200_000;

/// vunpcklps xmm3, xmm2, xmm1: with 4 bytes, no instruction is shorter.
const SHORTEST: [u8; 4] = [0xC5, 0xE8, 0x14, 0xD9];

/// A kind of input: its name, and what compares all inputs of that kind.
type Kind = (&'static str, fn(&mut Comparison));

const KINDS: [Kind; 10] = [
    ("accepted, every budget", every_budget),
    ("bad step at each position", bad_steps),
    ("run in two parts", two_parts),
    ("long run in two parts", long_parts),
    ("one step at a time", single_steps),
    ("wrong sizes", wrong_sizes),
    ("4,096 bytes and more", long_lists),
    ("cut at each byte", cuts),
    ("one bit flipped", bit_flips),
    ("any bytes", any_bytes),
];

#[test]
fn library_agrees_with_reference() {
    let mut table = Table::new("compared runs", &[0, 1, 2, 3, 4, 5, 6, 8]);
    let mut lists = 0;
    let mut reasons = Reasons::default();
    let mut instructions = Instructions::default();
    for (name, compare_all) in KINDS {
        let mut comparison = Comparison::default();
        compare_all(&mut comparison);
        table.line(name, comparison.counts);
        lists += comparison.lists;
        reasons.merge(&comparison.reasons);
        instructions.merge(&comparison.instructions);
    }
    table.finish(LEAST_RUNS);
    println!("{lists} lists");
    assert!(lists >= LEAST_LISTS, "fewer than {LEAST_LISTS} lists");
    reasons.finish("runs by reason");
    instructions.print("steps by instruction", |form| !form.shape.memory);
}

/// Calls `each` with `count` accepted lists of at most `most` steps, and a case that has their code.
fn for_lists(
    seed: u64,
    count: usize,
    most: usize,
    mut each: impl FnMut(&List, &mut Case, &mut Random),
) {
    let mut random = Random::new(seed);
    let mix = Mix::runnable(ALL);
    let mut case = Case::new(&mut random);
    for _ in 0..count {
        let steps = random.below(most + 1);
        let list = mix.list(steps, &mut random);
        case.refill(&mut random);
        case.code.clone_from(&list.code);
        each(&list, &mut case, &mut random);
    }
}

/// The result of a run that ends at the end of `list`, or because of its budget.
fn accepted(list: &List, budget: u64) -> Ran {
    let steps = budget.min(list.count() as u64);
    Ran {
        steps,
        place: list.end_of(steps as usize) as u64,
        status: 0,
        reason: 0,
    }
}

fn refused(status: u32) -> Ran {
    Ran {
        steps: 0,
        place: 0,
        status,
        reason: 0,
    }
}

fn check_expected(comparison: &mut Comparison, case: &Case, expected: Ran) {
    let ran = comparison.check(case);
    assert_eq!(ran, expected, "the generator made\n{case}");
}

fn every_budget(comparison: &mut Comparison) {
    for_lists(1, 8_000, 24, |list, case, random| {
        let count = list.count() as u64;
        let around = [count.saturating_sub(1), count, count + 1];
        let fixed = [0, 1, MOST_STEPS, u64::MAX];
        let large = [MOST_STEPS + 1, 1 << 31, 1 << 32, 1 << 63, u64::MAX - 1];
        let others = [random.below(26) as u64, random.pick(&large)];
        for budget in [&fixed[..], &around, &others].concat() {
            case.budget = budget;
            check_expected(comparison, case, accepted(list, budget));
        }
    });
}

fn bad_steps(comparison: &mut Comparison) {
    let mut random = Random::new(2);
    for features in FEATURE_SETS {
        let mix = Mix::runnable(features);
        for (fault, status) in RUN_FAULTS {
            for _ in 0..200 {
                let steps = random.below(9);
                let list = mix.list(steps, &mut random);
                check_fault(comparison, (fault, status), &list, features, &mut random);
            }
        }
    }
}

/// Compares with the fault at each position of an accepted list.
fn check_fault(
    comparison: &mut Comparison,
    (fault, status): (Fault, u32),
    list: &List,
    features: u32,
    random: &mut Random,
) {
    let Some(bad) = fault.encode(features, random) else {
        return;
    };
    let mut case = Case::new(random);
    case.features = features;
    // For a step that is cut short, this is where the rest would be.
    case.behind = random.bytes(8);
    for position in 0..=list.count() {
        case.code = fault.insert(list, position, &bad);
        let steps = position as u64;
        let at_fault = Ran {
            status,
            reason: bad.reason,
            ..accepted(list, steps)
        };
        for budget in [0, 1, steps, steps + 1, MOST_STEPS, u64::MAX] {
            case.budget = budget;
            let spent = budget <= steps;
            let expected = if spent {
                accepted(list, budget)
            } else {
                at_fault
            };
            check_expected(comparison, &case, expected);
        }
    }
}

/// Stopping after n steps and going on for m more changes nothing.
fn two_parts(comparison: &mut Comparison) {
    for_lists(3, 8_000, 16, |list, case, random| {
        let (fault, _) = random.pick(&RUN_FAULTS);
        let bad = fault.encode(ALL, random).filter(|_| random.flag());
        if let Some(bad) = bad {
            case.code = fault.insert(list, random.below(list.count() + 1), &bad);
        }
        let mut part = || random.pick(&[0, 1, 2, 5, 8, 16, MOST_STEPS - 1, MOST_STEPS]);
        check_parts(comparison, case, part(), part());
    });
}

fn check_parts(comparison: &mut Comparison, case: &mut Case, n: u64, m: u64) {
    case.budget = n + m;
    let whole = comparison.check(case);
    let whole_file = comparison.file().to_vec();
    case.budget = n;
    let first = comparison.check(case);
    if first.status != 0 {
        assert_eq!(
            (first, comparison.file()),
            (whole, &whole_file[..]),
            "{case}"
        );
        return;
    }
    let mut rest = case.clone();
    rest.code.drain(..first.place as usize);
    rest.file = comparison.file().to_vec();
    rest.budget = m;
    let second = comparison.check(&rest);
    let sum = Ran {
        steps: first.steps + second.steps,
        place: first.place + second.place,
        ..second
    };
    let parts = (sum, comparison.file());
    assert_eq!(
        parts,
        (whole, &whole_file[..]),
        "{n} then {m} steps of\n{case}"
    );
}

/// Budgets up to 4,096 each, on lists of 16,384 bytes, accepted and with a bad last step.
fn long_parts(comparison: &mut Comparison) {
    let mut random = Random::new(11);
    let mut case = Case::new(&mut random);
    let parts = [0, OLD_MOST_STEPS, 2_048, MOST_STEPS - 1, MOST_STEPS];
    case.code = SHORTEST.repeat(MOST_STEPS as usize);
    for n in parts {
        for m in parts {
            check_parts(comparison, &mut case, n, m);
        }
    }
    let mix = Mix::runnable(ALL);
    for (fault, _) in RUN_FAULTS {
        let Some(bad) = fault.encode(ALL, &mut random) else {
            continue;
        };
        let list = mix.list_of_length(CODE_LIMIT - bad.code.len(), &mut random);
        case.refill(&mut random);
        for code in [list.code.clone(), [list.code, bad.code].concat()] {
            case.code = code;
            let [n, m] = [random.pick(&parts), random.pick(&parts)];
            check_parts(comparison, &mut case, n, m);
            check_parts(comparison, &mut case, OLD_MOST_STEPS, MOST_STEPS);
        }
    }
}

/// A run does what as many calls of the step do, one after the other.
fn single_steps(comparison: &mut Comparison) {
    for_lists(4, 1_500, 12, |list, case, _| {
        let mut file = case.file.clone();
        for steps in 0..=list.count() {
            case.budget = steps as u64;
            check_expected(comparison, case, accepted(list, case.budget));
            assert!(comparison.file() == file, "{steps} steps of\n{case}");
            let rest = &case.code[list.end_of(steps)..];
            tarhuspo::step(rest, &mut file, &case.masks, ALL, &[]);
        }
    });
}

/// Wrong sizes answer 1 whatever the code and the budget are, and before 8.
fn wrong_sizes(comparison: &mut Comparison) {
    for_lists(5, 60, 6, |list, case, random| {
        let mut codes = vec![vec![], list.code.clone(), random.bytes(9)];
        codes.extend([CODE_LIMIT, CODE_LIMIT + 1].map(|length| random.bytes(length)));
        for code in codes {
            case.code = code;
            for budget in [0, 1, MOST_STEPS] {
                case.budget = budget;
                check_sizes(comparison, case);
            }
        }
    });
}

fn check_sizes(comparison: &mut Comparison, case: &Case) {
    for size in [0, 1, FILE_SIZE - 1, FILE_SIZE + 1] {
        let mut wrong = case.clone();
        wrong.file.resize(size, 7);
        check_expected(comparison, &wrong, refused(1));
    }
    for count in [0, MASK_COUNT - 1, MASK_COUNT + 1] {
        let mut wrong = case.clone();
        wrong.masks.resize(count, 7);
        check_expected(comparison, &wrong, refused(1));
    }
    for features in feature_sets::REFUSED {
        let mut wrong = case.clone();
        wrong.features = features;
        check_expected(comparison, &wrong, refused(1));
    }
}

/// Lists at the old limit and the new one, and over it, with budgets around the old one and the new
/// one.
fn long_lists(comparison: &mut Comparison) {
    let mut random = Random::new(6);
    for _ in 0..10 {
        for length in [
            OLD_CODE_LIMIT,
            OLD_CODE_LIMIT + 1,
            CODE_LIMIT - 1,
            CODE_LIMIT,
        ] {
            let list = Mix::runnable(ALL).list_of_length(length, &mut random);
            check_long(comparison, &list);
        }
        for more in [1, 2, 3, 4, 900] {
            let over = Mix::runnable(ALL).list_of_length(CODE_LIMIT + more, &mut random);
            check_too_long(comparison, &over.code);
        }
        for cut in 1..4 {
            check_cut(comparison, cut, &mut random);
        }
    }
    // As many steps as a list can have.
    let mut shortest = List::default();
    (0..MOST_STEPS).for_each(|_| shortest.push(&SHORTEST));
    check_long(comparison, &shortest);
    check_too_long(comparison, &random.bytes(100_000));
}

fn check_long(comparison: &mut Comparison, list: &List) {
    let count = list.count() as u64;
    let around = [OLD_MOST_STEPS, MOST_STEPS, count].map(|n| [n - 1, n, n + 1]);
    let budgets = [around.as_flattened(), &[0, 500, u64::MAX]].concat();
    check_budgets(comparison, &list.code, 0, &budgets, |budget| {
        accepted(list, budget)
    });
}

fn check_too_long(comparison: &mut Comparison, code: &[u8]) {
    let budgets = [0, 1, OLD_MOST_STEPS, MOST_STEPS, u64::MAX];
    check_budgets(comparison, code, 0, &budgets, |_| refused(8));
}

/// A list at the limit that ends inside its last step, which has 4 or 5 bytes.
fn check_cut(comparison: &mut Comparison, cut: usize, random: &mut Random) {
    let list = Mix::runnable(ALL).list_of_length(CODE_LIMIT + cut, random);
    let budgets = [list.count() as u64, MOST_STEPS, 1 << 40, u64::MAX];
    let expected = Ran {
        status: 2,
        ..accepted(&list, list.count() as u64 - 1)
    };
    check_budgets(comparison, &list.code, cut, &budgets, |_| expected);
}

/// Compares runs of `code` without its last `cut` bytes, which follow in memory.
fn check_budgets(
    comparison: &mut Comparison,
    code: &[u8],
    cut: usize,
    budgets: &[u64],
    expected: impl Fn(u64) -> Ran,
) {
    let mut case = Case::new(&mut Random::new(7));
    let (code, behind) = code.split_at(code.len() - cut);
    (case.code, case.behind) = (code.to_vec(), behind.to_vec());
    for &budget in budgets {
        case.budget = budget;
        check_expected(comparison, &case, expected(budget));
    }
}

/// A list that ends inside a step answers 2 there, whatever follows in memory.
fn cuts(comparison: &mut Comparison) {
    for_lists(8, 400, 8, |list, case, _| {
        case.budget = MOST_STEPS;
        while let Some(last) = case.code.pop() {
            case.behind.insert(0, last);
            let length = case.code.len();
            let steps = list.starts.iter().filter(|&&start| start <= length).count() - 1;
            let whole = list.starts.contains(&length);
            let status = if whole { 0 } else { 2 };
            let expected = Ran {
                status,
                ..accepted(list, steps as u64)
            };
            check_expected(comparison, case, expected);
        }
        case.behind.clear();
    });
}

fn bit_flips(comparison: &mut Comparison) {
    for_lists(9, 3_000, 10, |_, case, random| {
        for _ in 0..4 {
            let bits = 8 * case.code.len();
            if bits > 0 {
                let bit = random.below(bits);
                case.code[bit / 8] ^= 1 << (bit % 8);
            }
            case.budget = random.pick(&[1, 4, MOST_STEPS]);
            case.features = random.pick(&FEATURE_SETS);
            comparison.check(case);
        }
    });
}

fn any_bytes(comparison: &mut Comparison) {
    let mut random = Random::new(10);
    let mut case = Case::new(&mut random);
    for _ in 0..10_000 {
        let length = random.below(40);
        case.code = random.bytes(length);
        if let Some(first) = case.code.first_mut() {
            *first = random.pick(&[*first, 0xC4, 0xC5, 0x62]);
        }
        case.budget = random.below(5) as u64;
        case.features = feature_sets::any(&mut random);
        comparison.check(&case);
    }
}
