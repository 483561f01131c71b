//! The library's addresses equal the reference's, on millions of inputs, and depend on what they
//! should and on nothing else.

use compare::addressing::{Case, Comparison};
use compare::encoding::Prefix;
use compare::feature_sets;
use compare::form::Form;
use compare::limits::features::ALL;
use compare::limits::GPR_COUNT;
use compare::operand::{Base, Operand, EDGES};
use compare::random::Random;
use compare::reserved::Wrong;
use compare::tally::Table;
use tarhuspo::Addressed;

const LEAST: u64 = 3_000_000;

/// A kind of input: its name, and what compares all inputs of that kind.
type Kind = (&'static str, fn(&mut Comparison));

const KINDS: [Kind; 15] = [
    ("every ModRM, SIB, X, B", every_operand),
    ("every form", every_form),
    ("register forms", register_forms),
    ("extreme registers", extreme_registers),
    ("number of registers", register_counts),
    ("features", feature_numbers),
    ("reserved fields", reserved_fields),
    ("unknown opcode", unknown_opcodes),
    ("one bit flipped", bit_flips),
    ("one byte replaced", replaced_bytes),
    ("truncated", truncations),
    ("bytes behind", extra_bytes),
    ("15 bytes from a prefix", random_behind_prefix),
    ("any bytes", any_bytes),
    ("several faults", several_faults),
];

#[test]
fn library_agrees_with_reference() {
    let mut table = Table::new("compared addresses", &[0, 1, 2, 3, 4, 5]);
    let mut all = Comparison::default();
    for (name, compare_all) in KINDS {
        let mut comparison = Comparison::default();
        compare_all(&mut comparison);
        table.line(name, comparison.counts);
        all.merge(&comparison);
    }
    table.finish(LEAST);
    all.reasons.finish("addresses by reason");
    all.addresses.finish("addresses by kind", 1_000);
    println!("{:26}{:>9}", "register forms", all.register_forms);
    assert!(all.register_forms >= 1_000, "register forms");
    all.instructions.print("accepted, by instruction", |_| true);
}

/// What makes an operand for a prefix.
type Maker = fn(Prefix, &mut Random) -> Operand;

const MAKERS: [Maker; 4] = [
    Operand::random,
    Operand::near,
    Operand::relative,
    Operand::unusual_sib,
];

/// Calls `each` for every form that fits, `count` times over, with an accepted case of that form.
fn for_forms(
    seed: u64,
    count: usize,
    fits: impl Fn(Form) -> bool,
    mut each: impl FnMut(Form, &mut Case, &mut Random),
) {
    let mut random = Random::new(seed);
    let mut case = Case::new(&mut random);
    for form in Form::all().into_iter().filter(|&form| fits(form)) {
        for _ in 0..count {
            case.refill(&mut random);
            case.features = ALL;
            case.behind.clear();
            case.code = form.encode(&mut random);
            each(form, &mut case, &mut random);
        }
    }
}

/// As `for_forms`, for memory forms with operands of each maker, `count` times over.
fn for_operands(seed: u64, count: usize, mut each: impl FnMut(Form, &mut Case, &mut Random)) {
    for (maker, seed) in MAKERS.into_iter().zip(seed..) {
        for_forms(seed, count, is_memory, |form, case, random| {
            let operand = maker(form.shape.prefix, random);
            form.shape.set_operand(&mut case.code, &operand);
            each(form, case, random);
        });
    }
}

fn is_memory(form: Form) -> bool {
    form.shape.memory
}

fn is_register(form: Form) -> bool {
    !form.shape.memory
}

/// Compares a case that has to be accepted and to have an address.
fn check_address(comparison: &mut Comparison, case: &Case) -> u64 {
    let found = comparison.check(case);
    assert!(found.has_address, "the generator made\n{case}");
    found.address
}

/// Compares a case that has to be refused.
fn check_refused(comparison: &mut Comparison, case: &Case, status: u32, reason: u32) {
    let found = comparison.check(case);
    let answer = (found.status, found.reason);
    assert_eq!(answer, (status, reason), "the generator made\n{case}");
}

/// Every ModRM with every SIB, X and B, of three rows that differ in element and immediate: under
/// each prefix, and under EVEX at a width of its own, with and without b. Where there is no SIB, a
/// displacement of one byte is every byte; others are at edges.
fn every_operand(comparison: &mut Comparison) {
    let is_one = |form: &Form| {
        let evex_width = match form.shape.row.name {
            "VUNPCKLPS" => 2,
            "VPSHUFD" => 0,
            "VPERMILPD" if !form.shape.row.immediate => 1,
            _ => return false,
        };
        let width = match form.shape.prefix {
            Prefix::Evex => evex_width,
            Prefix::Vex2 | Prefix::Vex3 => 1,
        };
        form.shape.memory && !form.masked && form.width == width
    };
    let mut random = Random::new(1);
    for form in Form::all().into_iter().filter(is_one) {
        check_operands(comparison, form, &mut random);
    }
}

fn check_operands(comparison: &mut Comparison, form: Form, random: &mut Random) {
    let shape = form.shape;
    let mut case = Case::new(random);
    case.code = form.encode(random);
    // Two-byte VEX has neither X nor B.
    let bits = if shape.prefix == Prefix::Vex2 { 16 } else { 18 };
    for values in 0..1_u32 << bits {
        let [modrm, sib, high, _] = values.to_le_bytes();
        let mut operand = Operand {
            mode: modrm >> 6,
            rm: modrm & 7,
            sib,
            x: high & 1,
            b: high >> 1,
            displacement: random.pick(&EDGES),
        };
        if !operand.has_sib() && operand.mode == 1 {
            operand.displacement[0] = sib;
        }
        shape.set_operand(&mut case.code, &operand);
        case.code[shape.opcode_at() + 1] = modrm;
        if modrm == 0 {
            case.refill(random);
        }
        match (operand.mode, form.broadcast) {
            (3, true) => check_refused(comparison, &case, 4, 5),
            (3, false) => assert_eq!(comparison.check(&case), NONE, "{case}"),
            _ => check_sum(comparison, &case, &operand, form),
        }
    }
}

/// An accepted register form's answer.
const NONE: Addressed = Addressed {
    address: 0,
    status: 0,
    reason: 0,
    has_address: false,
};

/// Compares, and sees that the address is what the fields that were written say.
fn check_sum(comparison: &mut Comparison, case: &Case, operand: &Operand, form: Form) {
    let unit = match form.shape.prefix {
        Prefix::Evex => form.memory() as i64,
        Prefix::Vex2 | Prefix::Vex3 => 1,
    };
    let next = i128::from(case.instruction_address) + case.code.len() as i128;
    let sum = operand.sum(unit, &case.registers, next);
    let found = check_address(comparison, case);
    assert_eq!(found, sum as u64, "{found:016X} for {operand:X?}\n{case}");
}

fn every_form(comparison: &mut Comparison) {
    for (maker, seed) in MAKERS.into_iter().zip(10..) {
        for_forms(seed, 1_250, is_memory, |form, case, random| {
            let operand = maker(form.shape.prefix, random);
            form.shape.set_operand(&mut case.code, &operand);
            check_sum(comparison, case, &operand, form);
        });
    }
}

fn register_forms(comparison: &mut Comparison) {
    for_forms(20, 300, is_register, |_, case, _| {
        assert_eq!(comparison.check(case), NONE, "{case}");
    });
}

/// All registers and the instruction's address alike, at the ends of their range and in its middle.
fn extreme_registers(comparison: &mut Comparison) {
    const MIDDLE: u64 = 1 << 63;
    let numbers = [0, 1, MIDDLE - 1, MIDDLE, u64::MAX - 1, u64::MAX];
    for_operands(30, 10, |_, case, _| {
        for number in numbers {
            case.registers.fill(number);
            case.instruction_address = number;
            check_address(comparison, case);
            case.instruction_address = !number;
            check_address(comparison, case);
        }
    });
}

/// Numbers of general registers other than sixteen.
const COUNTS: [usize; 9] = [0, 1, 8, 14, 15, 17, 18, 32, 100];

/// Whatever else is wrong.
fn register_counts(comparison: &mut Comparison) {
    for_operands(40, 2, |_, case, random| {
        for count in COUNTS {
            case.registers.resize(count, random.number());
            check_refused(comparison, case, 1, 0);
        }
        case.code.truncate(random.below(case.code.len()));
        case.features = feature_sets::any(random);
        for count in COUNTS {
            case.registers.resize(count, random.number());
            check_refused(comparison, case, 1, 0);
        }
    });
}

/// Sets of features that pass, and numbers that do not.
fn feature_numbers(comparison: &mut Comparison) {
    let numbers = feature_sets::numbers();
    for_operands(50, 1, |form, case, _| {
        for &features in &numbers {
            case.features = features;
            let status = comparison.check(case).status;
            let expected = match features {
                _ if !feature_sets::passes(features) => 1,
                _ if form.is_enabled(features) => 0,
                _ => 5,
            };
            assert_eq!(status, expected, "the generator made\n{case}");
        }
    });
}

/// Every set of fields that can be wrong together, whole and cut at each byte.
fn reserved_fields(comparison: &mut Comparison) {
    let mut random = Random::new(60);
    let mut case = Case::new(&mut random);
    for wrong in Wrong::all() {
        for _ in 0..4 {
            case.refill(&mut random);
            case.code = wrong.encode(&mut random);
            case.features = feature_sets::possible(&mut random);
            check_cuts(comparison, &mut case, |length, whole| {
                wrong.answer(length, whole)
            });
        }
    }
}

/// Compares with all bytes, then with one less at a time. The others follow in memory.
fn check_cuts(
    comparison: &mut Comparison,
    case: &mut Case,
    answer: impl Fn(usize, usize) -> (u32, u32),
) {
    let whole = case.code.len();
    case.behind.clear();
    loop {
        let (status, reason) = answer(case.code.len(), whole);
        check_refused(comparison, case, status, reason);
        match case.code.pop() {
            Some(last) => case.behind.insert(0, last),
            None => return,
        }
    }
}

/// Opcodes that no map has a row for.
fn unknown_opcodes(comparison: &mut Comparison) {
    for_operands(70, 5, |form, case, random| {
        let opcode = random.pick(&[0x0B, 0x58, 0xA2, 0xFE, 0xFF]);
        case.code[form.shape.opcode_at()] = opcode;
        case.features = feature_sets::possible(random);
        check_refused(comparison, case, 3, 0);
    });
}

fn bit_flips(comparison: &mut Comparison) {
    for_operands(80, 4, |_, case, random| {
        case.code.extend(random.bytes(8));
        for bit in 0..8 * (case.code.len() - 8) {
            case.code[bit / 8] ^= 1 << (bit % 8);
            comparison.check(case);
            case.code[bit / 8] ^= 1 << (bit % 8);
        }
    });
}

/// Each byte of an instruction takes random values. Bytes follow for a longer operand.
fn replaced_bytes(comparison: &mut Comparison) {
    for_operands(90, 2, |_, case, random| {
        let length = case.code.len();
        case.code.extend(random.bytes(8));
        for at in 0..length {
            let kept = case.code[at];
            for _ in 0..16 {
                case.code[at] = random.byte();
                comparison.check(case);
            }
            case.code[at] = kept;
        }
    });
}

fn truncations(comparison: &mut Comparison) {
    for_operands(100, 10, |_, case, _| {
        while let Some(last) = case.code.pop() {
            case.behind.insert(0, last);
            check_refused(comparison, case, 2, 0);
        }
    });
}

/// Bytes behind an instruction change nothing, neither those that are passed nor the others. So an
/// instruction's own length counts for the next one's address, and not that of the code.
fn extra_bytes(comparison: &mut Comparison) {
    for_operands(110, 10, |_, case, random| {
        let expected = check_address(comparison, case);
        let length = case.code.len();
        for extra in [1, 2, 3, 8, 15, 64, 5_000] {
            case.code.truncate(length);
            case.code.extend(random.bytes(extra));
            case.behind = random.bytes(16);
            assert_eq!(check_address(comparison, case), expected, "{case}");
        }
    });
}

fn random_behind_prefix(comparison: &mut Comparison) {
    let mut random = Random::new(120);
    let mut case = Case::new(&mut random);
    for first in [0xC4, 0xC5, 0x62] {
        for _ in 0..50_000 {
            case.refill(&mut random);
            case.code = random.bytes(15);
            case.code[0] = first;
            case.features = feature_sets::any(&mut random);
            comparison.check(&case);
        }
    }
}

fn any_bytes(comparison: &mut Comparison) {
    let mut random = Random::new(130);
    let mut case = Case::new(&mut random);
    for _ in 0..50_000 {
        let length = random.below(20);
        case.refill(&mut random);
        case.code = random.bytes(length);
        case.features = feature_sets::any(&mut random);
        comparison.check(&case);
    }
}

/// Each fault is there or not, independently: which of them is reported.
fn several_faults(comparison: &mut Comparison) {
    for_operands(140, 200, |_, case, random| {
        let mut is_there = || random.below(3) == 0;
        let [bits, cut, missing, refused] = [(); 4].map(|()| is_there());
        // This hides all others, so it is rarer.
        let count = is_there() && is_there();
        if bits {
            let bit = random.below(8 * case.code.len());
            case.code[bit / 8] ^= 1 << (bit % 8);
        }
        if cut {
            case.behind = case.code.split_off(random.below(case.code.len()));
        }
        if missing {
            case.features = feature_sets::possible(random);
        }
        if refused && random.flag() {
            case.features = feature_sets::refused(random);
        }
        if count {
            case.registers.resize(random.pick(&COUNTS), 0);
        }
        comparison.check(case);
    });
}

/// The operand of a case, which is accepted and in memory.
fn operand(case: &Case) -> Operand {
    let Some(operand) = Operand::read(&case.code) else {
        panic!("the generator made\n{case}");
    };
    operand
}

/// Registers that a form does not name do not count, and one that it names moves the address along
/// with it: by as much as a base, and times the scale as an index.
#[test]
fn registers_count_as_often_as_they_are_named() {
    let mut counts = [0, 0];
    for_operands(200, 60, |_, case, random| {
        let before = case.address();
        let operand = operand(case);
        for number in 0..GPR_COUNT {
            let step = random.number() | 1;
            let kept = case.registers[number];
            case.registers[number] = kept.wrapping_add(step);
            let factor = operand.factor(number as u8);
            let moved = factor.wrapping_mul(step);
            let address = before.address.wrapping_add(moved);
            let expected = Addressed { address, ..before };
            assert_eq!(case.address(), expected, "register {number}\n{case}");
            case.registers[number] = kept;
            counts[usize::from(factor > 0)] += 1;
        }
    });
    let [others, named] = counts;
    println!("{named} registers that are named, {others} that are not");
    assert!(named >= 40_000 && others >= 500_000);
}

/// Only a rip-relative address moves with the instruction, and no register moves it.
#[test]
fn the_instructions_own_address_counts_if_rip_is_named() {
    let mut counts = [0, 0];
    for_operands(210, 200, |_, case, random| {
        let before = case.address();
        let is_relative = operand(case).base() == Base::NextInstruction;
        let step = random.number() | 1;
        case.instruction_address = case.instruction_address.wrapping_add(step);
        let moved = if is_relative { step } else { 0 };
        let address = before.address.wrapping_add(moved);
        let expected = Addressed { address, ..before };
        assert_eq!(case.address(), expected, "{case}");
        if is_relative {
            case.registers.fill_with(|| random.number());
            assert_eq!(case.address(), expected, "{case}");
        }
        counts[usize::from(is_relative)] += 1;
    });
    let [others, relative] = counts;
    println!("{relative} rip-relative forms, {others} others");
    assert!(relative >= 10_000 && others >= 10_000);
}

#[test]
fn a_register_forms_answer_depends_on_nothing() {
    let mut count = 0;
    for_forms(220, 100, is_register, |_, case, random| {
        for _ in 0..4 {
            assert_eq!(case.address(), NONE, "{case}");
            case.refill(random);
        }
        count += 1;
    });
    println!("{count} register forms");
    assert!(count >= 10_000);
}

/// Destination, first source, opmask, z and the immediate's value are no part of an address.
#[test]
fn other_operands_do_not_count() {
    for_operands(230, 30, |form, case, random| {
        let before = case.address();
        assert!(before.has_address, "{case}");
        let shape = form.shape;
        let mut below = |registers: u8| random.below(registers.into()) as u8;
        shape.set_destination(&mut case.code, below(shape.registers()));
        if shape.row.first {
            shape.set_first(&mut case.code, below(shape.registers()));
        }
        if form.masked {
            shape.set_mask(&mut case.code, 1 + below(7), below(2) == 1);
        }
        if shape.row.immediate {
            shape.set_immediate(&mut case.code, random.byte());
        }
        assert_eq!(case.address(), before, "{case}");
    });
}

/// The request's own numbers, beside what VEX makes of the same bytes, and what b does.
#[test]
fn numbers_of_request_4() {
    let registers = [0; GPR_COUNT];
    let address = |code: &[u8]| tarhuspo::address(code, ALL, &registers, 0).address as i64;
    let cases = [
        (0x80, -8_192, -128, -512, -1_024),
        (0xFF, -64, -1, -4, -8),
        (0x7F, 8_128, 127, 508, 1_016),
    ];
    for (byte, evex, vex, by_doublewords, by_quadwords) in cases {
        // vunpcklps zmm1, zmm2, [rax + ..], and the same with ymm, and with a repeated element
        assert_eq!(address(&[0x62, 0xF1, 0x6C, 0x48, 0x14, 0x48, byte]), evex);
        assert_eq!(address(&[0xC5, 0xEC, 0x14, 0x48, byte]), vex);
        assert_eq!(address(&[0xC4, 0xE1, 0x6C, 0x14, 0x48, byte]), vex);
        let repeated = [0x62, 0xF1, 0x6C, 0x58, 0x14, 0x48, byte];
        assert_eq!(address(&repeated), by_doublewords);
        // vunpcklpd
        let repeated = [0x62, 0xF1, 0xED, 0x58, 0x14, 0x48, byte];
        assert_eq!(address(&repeated), by_quadwords);
    }
}
