//! Request 6 on every entry point that takes features: all numbers of 8 bits and some large ones,
//! over code that is accepted or refused with each other answer where they pass. What is expected
//! comes from the generator's list of sets, which neither library nor reference has a part in.

use compare::decoding::library_fields;
use compare::faults::{Fault, RUN_FAULTS};
use compare::feature_sets::{numbers, passes};
use compare::form::Form;
use compare::limits::features::{ALL, SETS};
use compare::limits::{CODE_LIMIT, MOST_STEPS};
use compare::random::Random;
use compare::tally::{Counts, Table};
use compare::{addressing, building, decoding, running, stepping};
use tarhuspo::{Addressed, Built, Ran, Stepped};

const LEAST: u64 = 500_000;

/// An entry point: its name, and what compares all inputs of it.
type EntryPoint = (&'static str, fn(&mut Tally));

const ENTRY_POINTS: [EntryPoint; 5] = [
    ("decode", decode),
    ("address", address),
    ("step", step),
    ("run", run),
    ("build", build),
];

#[test]
fn library_agrees_with_reference() {
    let mut table = Table::new("every feature number", &[0, 1, 2, 3, 4, 5, 6, 7, 8]);
    let mut tallies = Vec::new();
    for (name, compare_all) in ENTRY_POINTS {
        let mut tally = Tally::default();
        compare_all(&mut tally);
        table.line(name, tally.counts);
        tallies.push((name, tally));
    }
    table.finish(LEAST);
    let (all, sets) = (numbers().len() as u64, SETS.len() as u64);
    println!("{all} numbers, of which {sets} pass");
    println!(
        "{:26}{:>9} {:>9} {:>11}",
        "by entry point", "passing", "refused", "wrong sizes"
    );
    for (name, tally) in tallies {
        let [passing, refused, sizes] = [tally.passing, tally.refused, tally.sizes];
        println!("{name:26}{passing:>9} {refused:>9} {sizes:>11}");
        // Every input was compared under every number.
        assert_eq!(passing * (all - sets), refused * sets, "{name}");
        assert!(passing > 0 && (sizes > 0) == (name != "decode"), "{name}");
    }
}

/// How many cases had each status, and how many had features that pass, others, or a wrong size.
#[derive(Default)]
struct Tally {
    counts: Counts,
    passing: u64,
    refused: u64,
    sizes: u64,
}

impl Tally {
    /// Counts a case with right sizes.
    fn add(&mut self, code: &Code, features: u32, status: u32) {
        let expected = code.answer(features);
        assert_eq!(status, expected, "{features:#x}, {:02X?}", code.bytes);
        self.counts.add(status);
        match passes(features) {
            true => self.passing += 1,
            false => self.refused += 1,
        }
    }

    /// Counts a case with wrong sizes for every number, each of which has to answer 1.
    fn add_wrong_sizes(&mut self, mut status: impl FnMut(u32) -> u32) {
        for features in numbers() {
            let found = status(features);
            assert_eq!(found, 1, "wrong sizes under {features:#x}");
            self.counts.add(found);
            self.sizes += 1;
        }
    }
}

/// Instructions one behind the other.
#[derive(Clone)]
struct Code {
    bytes: Vec<u8>,
    /// The forms that are looked at, each of which the features have to enable.
    forms: Vec<Form>,
    /// The answer if they do.
    status: u32,
}

impl Code {
    fn new(forms: &[Form], status: u32, random: &mut Random) -> Code {
        let codes = forms.iter().map(|form| form.encode(random));
        Code {
            bytes: codes.collect::<Vec<_>>().concat(),
            forms: forms.to_vec(),
            status,
        }
    }

    /// As `new`, with a bad instruction at the end.
    fn with_fault(forms: &[Form], fault: Fault, status: u32, random: &mut Random) -> Code {
        let mut code = Code::new(forms, status, random);
        let bad = fault.encode(ALL, random);
        code.bytes.extend(bad.expect("a bad instruction").code);
        code
    }

    fn answer(&self, features: u32) -> u32 {
        let is_enabled = |form: &Form| form.is_enabled(features);
        match passes(features) {
            false => 1,
            true if self.forms.iter().all(is_enabled) => self.status,
            true => 5,
        }
    }
}

/// What bytes are refused for whatever the features that pass are, with the statuses.
fn faults() -> impl Iterator<Item = (Fault, u32)> {
    RUN_FAULTS.into_iter().filter(|&(_, status)| status < 5)
}

/// Single instructions: one of every form, no byte, and faults.
fn singles(random: &mut Random) -> Vec<Code> {
    let forms = Form::all().into_iter();
    let mut codes: Vec<_> = forms.map(|form| Code::new(&[form], 0, random)).collect();
    codes.push(Code::new(&[], 2, random));
    for (fault, status) in faults() {
        codes.extend((0..10).map(|_| Code::with_fault(&[], fault, status, random)));
    }
    codes
}

/// Lists of up to three steps that fit: as they are, and before a step that does not, which answers
/// `other`, or before a fault; and a list that is too long.
fn lists(fits: fn(&Form) -> bool, other: u32, random: &mut Random) -> Vec<Code> {
    let (good, bad): (Vec<Form>, Vec<Form>) = Form::all().into_iter().partition(fits);
    let mut codes = vec![Code {
        bytes: random.bytes(CODE_LIMIT + 1),
        ..Code::new(&[], 8, random)
    }];
    for _ in 0..40 {
        let count = random.below(4);
        let steps: Vec<_> = (0..count).map(|_| random.pick(&good)).collect();
        codes.push(Code::new(&steps, 0, random));
        for (fault, status) in faults() {
            codes.push(Code::with_fault(&steps, fault, status, random));
        }
        let with_other = [steps, vec![random.pick(&bad)]].concat();
        codes.push(Code::new(&with_other, other, random));
    }
    codes
}

/// Calls `each` with every code and number.
fn for_numbers(codes: &[Code], mut each: impl FnMut(&Code, u32)) {
    let numbers = numbers();
    for code in codes {
        numbers.iter().for_each(|&features| each(code, features));
    }
}

fn decode(tally: &mut Tally) {
    let mut comparison = decoding::Comparison::default();
    for_numbers(&singles(&mut Random::new(1)), |code, features| {
        let (bytes, length) = (&code.bytes, code.bytes.len());
        let decoded = comparison.check_part(bytes, length, features);
        let fields = library_fields(decoded);
        assert!(fields[0] != 1 || fields[1..] == [0; 14], "{fields:?}");
        tally.add(code, features, decoded.status);
    });
}

fn address(tally: &mut Tally) {
    let mut random = Random::new(2);
    let mut comparison = addressing::Comparison::default();
    let mut case = addressing::Case::new(&mut random);
    for_numbers(&singles(&mut random), |code, features| {
        case.refill(&mut random);
        case.code.clone_from(&code.bytes);
        case.features = features;
        let found = comparison.check(&case);
        let nothing = Addressed {
            address: 0,
            status: 1,
            reason: 0,
            has_address: false,
        };
        assert!(found.status != 1 || found == nothing, "{found:?}");
        tally.add(code, features, found.status);
    });
    for count in [0, 15, 17] {
        case.registers.resize(count, 7);
        tally.add_wrong_sizes(|features| {
            case.features = features;
            comparison.check(&case).status
        });
    }
}

/// With the memory that each form wants, and with a byte more, which answers 6.
fn step(tally: &mut Tally) {
    let mut random = Random::new(3);
    let mut comparison = stepping::Comparison::default();
    let mut case = stepping::Case::new(&mut random);
    let right = singles(&mut random);
    let wrong = right.iter().filter(|code| code.status == 0);
    let wrong: Vec<_> = wrong
        .map(|code| Code {
            status: 6,
            ..code.clone()
        })
        .collect();
    for_numbers(&[right, wrong].concat(), |code, features| {
        let wanted = code.forms.first().map_or(0, |form| form.memory());
        let memory = wanted + usize::from(code.status == 6);
        case.refill(&mut random);
        case.set_code(code.bytes.clone(), memory, &mut random);
        case.features = features;
        let stepped = comparison.check_whole(&case);
        let nothing = Stepped {
            status: 1,
            length: 0,
            reason: 0,
        };
        assert!(stepped.status != 1 || stepped == nothing, "{stepped:?}");
        tally.add(code, features, stepped.status);
    });
    for (size, count) in WRONG_SIZES {
        case.file.resize(size, 7);
        case.masks.resize(count, 7);
        tally.add_wrong_sizes(|features| {
            case.features = features;
            comparison.check(&case)
        });
    }
}

/// Sizes of a register file or a map, and numbers of opmasks, of which not both are right.
const WRONG_SIZES: [(usize, usize); 5] = [(0, 0), (2_047, 8), (2_049, 8), (2_048, 7), (2_048, 9)];

/// With a budget that is enough, and with none, with which only a list that is too long is refused.
fn run(tally: &mut Tally) {
    let mut random = Random::new(4);
    let mut comparison = running::Comparison::default();
    let mut case = running::Case::new(&mut random);
    let codes = lists(|form| !form.shape.memory, 6, &mut random);
    for_numbers(&codes, |code, features| {
        let unspent = Code {
            forms: Vec::new(),
            status: if code.status == 8 { 8 } else { 0 },
            ..code.clone()
        };
        for (budget, code) in [(MOST_STEPS, code), (u64::MAX, code), (0, &unspent)] {
            case.refill(&mut random);
            case.code.clone_from(&code.bytes);
            (case.features, case.budget) = (features, budget);
            let ran = comparison.check(&case);
            let nothing = Ran {
                steps: 0,
                place: 0,
                status: 1,
                reason: 0,
            };
            assert!(ran.status != 1 || ran == nothing, "{ran:?}");
            tally.add(code, features, ran.status);
        }
    });
    for (size, count) in WRONG_SIZES {
        case.file.resize(size, 7);
        case.masks.resize(count, 7);
        tally.add_wrong_sizes(|features| {
            case.features = features;
            comparison.check(&case).status
        });
    }
}

fn build(tally: &mut Tally) {
    let mut random = Random::new(5);
    let mut comparison = building::Comparison::default();
    let mut case = building::Case::new(&mut random);
    let is_mappable = |form: &Form| !form.shape.memory && !form.has_register_control();
    let codes = lists(is_mappable, 7, &mut random);
    for_numbers(&codes, |code, features| {
        case.refill(&mut random);
        case.code.clone_from(&code.bytes);
        case.features = features;
        let built = comparison.check(&case);
        let nothing = Built {
            place: 0,
            status: 1,
            reason: 0,
        };
        assert!(built.status != 1 || built == nothing, "{built:?}");
        tally.add(code, features, built.status);
    });
    for (size, count) in WRONG_SIZES {
        case.map.resize(size, 7);
        case.masks.resize(count, 7);
        tally.add_wrong_sizes(|features| {
            case.features = features;
            comparison.check(&case).status
        });
    }
}
