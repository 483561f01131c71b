//! Request 7: over every EVEX row's opcode, pp and W, all values of the prefix's second byte, P, which
//! has the opcode map and a fixed bit, and both of the fixed bit of the third, Q. What is expected
//! comes from the generator, so that library and reference cannot be wrong together.

use compare::decoding::library_fields;
use compare::encoding::{Prefix, Shape};
use compare::feature_sets::{self, passes};
use compare::form::Form;
use compare::limits::features::SETS;
use compare::opcode_maps::{evex_shapes, Outcome};
use compare::random::Random;
use compare::refusing::Input;
use compare::tally::{Counts, Table};
use compare::{addressing, building, decoding, listings, refusing, running, stepping};
use tarhuspo::{mnemonic_name, Built, Decoded, Ran, Stepped};

/// Decodings, refused instructions and accepted ones, by all entry points together.
const LEAST_DECODED: u64 = 4_000_000;
const LEAST_REFUSED: u64 = 500_000;
const LEAST_ACCEPTED: u64 = 20_000;

/// The request's codes with status and reason, and the row's own opcode map.
#[test]
fn equations_of_the_request() {
    let cases: [(&[u8], u32, u32); 7] = [
        (&[0x62, 0xF5, 0x7D, 0x48, 0x70, 0xCA, 0x1B], 3, 0),
        (&[0x62, 0xF9, 0x7D, 0x48, 0x70, 0xCA, 0x1B], 4, 1),
        (&[0x62, 0xF1, 0x79, 0x48, 0x70, 0xCA, 0x1B], 4, 1),
        (&[0x62, 0xF4, 0x7D, 0x48, 0x70, 0xCA, 0x1B], 3, 0),
        (&[0x62, 0xF0, 0x7D, 0x48, 0x70, 0xCA, 0x1B], 3, 0),
        (&[0x62, 0xFD, 0x7D, 0x48, 0x70, 0xCA, 0x1B], 4, 1),
        (&[0x62, 0xF5, 0x7D, 0x48], 2, 0),
    ];
    for (code, status, reason) in cases {
        let mut refused = [0; 15];
        (refused[0], refused[14]) = (status, reason);
        for features in SETS {
            let found = library_fields(tarhuspo::decode(code, features));
            assert_eq!(found, refused, "{code:02X?}");
        }
    }
    let own = [0x62, 0xF1, 0x7D, 0x48, 0x70, 0xCA, 0x1B];
    let accepted = [0, 7, 0, 4, 512, 1, 1, 0, 2, 0, 0, 0, 1, 0x1B, 0];
    assert_eq!(library_fields(tarhuspo::decode(&own, 5)), accepted);
}

/// What P and Q are: the opcode map where the fixed bits are right, or which of these are wrong.
const KINDS: [&str; 11] = [
    "map 0",
    "map 1",
    "map 2",
    "map 3",
    "map 4",
    "map 5",
    "map 6",
    "map 7",
    "P bit 3",
    "Q bit 2",
    "P bit 3 and Q bit 2",
];

fn kind_of(code: &[u8]) -> usize {
    match (code[1] & 0x08 != 0, code[2] & 0x04 == 0) {
        (false, false) => usize::from(code[1] & 0x07),
        (true, false) => 8,
        (false, true) => 9,
        (true, true) => 10,
    }
}

/// How many cases of each kind there were, by status.
#[derive(Default)]
struct Tally([Counts; KINDS.len()]);

impl Tally {
    fn finish(self, what: &str, statuses: &'static [u32], least: u64) {
        let mut table = Table::new(what, statuses);
        for (name, counts) in KINDS.into_iter().zip(self.0) {
            table.line(name, counts);
        }
        table.finish(least);
    }
}

/// Calls `each` with the instruction under every value of P and of Q bit 2, and with either W if the
/// row has any.
fn for_prefixes(shape: Shape, mut code: Vec<u8>, mut each: impl FnMut(&[u8])) {
    let [own, other] = [code[2] | 0x04, (code[2] | 0x04) ^ 0x80];
    let thirds = match shape.row.evex_any_w {
        true => vec![own, own ^ 0x04, other, other ^ 0x04],
        false => vec![own, own ^ 0x04],
    };
    for q in thirds {
        for p in 0..=u8::MAX {
            (code[1], code[2]) = (p, q);
            each(&code);
        }
    }
}

fn evex_forms() -> impl Iterator<Item = Form> {
    let forms = Form::all().into_iter();
    forms.filter(|form| form.shape.prefix == Prefix::Evex)
}

#[test]
fn decoding_agrees_with_reference() {
    let mut random = Random::new(1);
    let mut comparison = decoding::Comparison::default();
    let mut tally = Tally::default();
    let mut outcomes = [0; 3];
    for form in evex_forms() {
        let code = form.encode(&mut random);
        for_prefixes(form.shape, code, |code| {
            let outcome = form.shape.outcome(code[1], code[2]);
            let counts = &mut tally.0[kind_of(code)];
            check_cuts(&mut comparison, code, outcome, counts);
            check_features(&mut comparison, code, form, counts, &mut random);
            outcomes[outcome as usize] += 1;
        });
    }
    tally.finish(
        "decodings by opcode map",
        &[0, 1, 2, 3, 4, 5],
        LEAST_DECODED,
    );
    let [fixed_bits, no_row, row] = outcomes;
    println!(
        "{fixed_bits} prefixes with wrong fixed bits, {no_row} without row, {row} with their row"
    );
    // Of 32 values of opcode map and fixed bits, 24 have a wrong one, 7 another map, and one neither.
    assert_eq!((fixed_bits, no_row), (24 * row, 7 * row));
    let is_evex = |form: Form| form.shape.prefix == Prefix::Evex;
    comparison.instructions.print("accepted", is_evex);
}

/// Cut at every length, under the sets that pass in turn.
fn check_cuts(
    comparison: &mut decoding::Comparison,
    code: &[u8],
    outcome: Outcome,
    counts: &mut Counts,
) {
    for length in 0..code.len() {
        let features = SETS[(usize::from(code[1]) + length) % SETS.len()];
        let decoded = comparison.check_part(code, length, features);
        let answer = (decoded.status, decoded.reason);
        let expected = outcome.answer(length, code.len());
        assert_eq!(answer, expected, "{length} bytes of {code:02X?}");
        counts.add(decoded.status);
    }
}

/// Whole, under every set that passes, and under a number of either kind that does not.
fn check_features(
    comparison: &mut decoding::Comparison,
    code: &[u8],
    form: Form,
    counts: &mut Counts,
    random: &mut Random,
) {
    let outcome = form.shape.outcome(code[1], code[2]);
    let refused = [feature_sets::impossible, feature_sets::unknown];
    let refused = refused.map(|number| number(random));
    for features in SETS.into_iter().chain(refused) {
        let decoded = comparison.check_part(code, code.len(), features);
        let expected = match outcome.answer(code.len(), code.len()) {
            _ if !passes(features) => (1, 0),
            (0, _) if !form.is_enabled(features) => (5, 0),
            answer => answer,
        };
        let answer = (decoded.status, decoded.reason);
        assert_eq!(answer, expected, "{features:#x}, {code:02X?}");
        if decoded.status == 0 {
            check_row(form, code, &decoded);
        }
        counts.add(decoded.status);
    }
}

/// An accepted instruction is the form's, with the registers that R, X, B and R' name.
fn check_row(form: Form, code: &[u8], decoded: &Decoded) {
    let (p, modrm) = (code[1], code[5]);
    let register = |high: u8, low: u8, bits: u8| {
        let above = (!p >> high & 1) << 4 | (!p >> low & 1) << 3;
        u32::from(above | bits & 7)
    };
    let destination = register(4, 7, modrm >> 3);
    let third = match form.shape.memory {
        true => 0,
        false => register(6, 5, modrm),
    };
    let found = [decoded.destination, decoded.third, decoded.evex];
    assert_eq!(found, [destination, third, 1], "{code:02X?}");
    let sizes = [decoded.length, decoded.memory, decoded.bits / 8].map(|size| size as usize);
    assert_eq!(sizes, [code.len(), form.memory(), form.bytes()]);
    let name = mnemonic_name(decoded.mnemonic);
    assert_eq!(name, Some(form.shape.row.name), "{code:02X?}");
}

/// Whole with any values of the fields that come later, and cut at every length.
#[test]
fn refused_by_every_entry_point() {
    let mut random = Random::new(2);
    let mut comparison = refusing::Comparison::default();
    let mut tally = Tally::default();
    for shape in evex_shapes() {
        let code = shape.encode(&mut random);
        for_prefixes(shape, code, |code| {
            comparison.counts = Counts::default();
            check_refused(&mut comparison, shape, code, &mut random);
            tally.0[kind_of(code)].merge(&comparison.counts);
        });
    }
    let what = "refused, all entry points";
    tally.finish(what, &[0, 1, 2, 3, 4], LEAST_REFUSED);
    println!();
    for (name, reasons) in comparison.reasons() {
        println!("{name}: {} times 4 with reason 1", reasons.of(1));
        assert_eq!(reasons.found(), [1], "reasons of {name}");
    }
}

fn check_refused(
    comparison: &mut refusing::Comparison,
    shape: Shape,
    code: &[u8],
    random: &mut Random,
) {
    let outcome = shape.outcome(code[1], code[2]);
    for length in 0..code.len() {
        let (passed, behind) = code.split_at(length);
        let input = Input {
            code: passed,
            behind,
            features: feature_sets::any(random),
            answer: outcome.answer(length, code.len()),
        };
        comparison.check(&input, random);
    }
    if outcome == Outcome::Row {
        return;
    }
    let mut any = code.to_vec();
    any[2] ^= random.byte() & 0x78;
    any[3] = random.byte();
    for code in [code, &any] {
        let input = Input {
            code,
            behind: &[],
            features: feature_sets::any(random),
            answer: outcome.answer(code.len(), code.len()),
        };
        comparison.check(&input, random);
    }
}

/// A comparison for each entry point that carries an accepted instruction out, or names its operand.
#[derive(Default)]
struct Accepted {
    addressing: addressing::Comparison,
    stepping: stepping::Comparison,
    running: running::Comparison,
    building: building::Comparison,
    listings: listings::Comparison,
}

impl Accepted {
    fn check(&mut self, form: Form, code: &[u8], random: &mut Random) {
        let mut case = addressing::Case::new(random);
        case.code = code.to_vec();
        let found = self.addressing.check(&case);
        assert_eq!((found.status, found.reason), (0, 0), "{case}");
        assert_eq!(found.has_address, form.shape.memory, "{case}");
        let mut case = stepping::Case::new(random);
        case.set_code(code.to_vec(), form.memory(), random);
        let done = Stepped {
            status: 0,
            length: code.len() as u32,
            reason: 0,
        };
        assert_eq!(self.stepping.check_whole(&case), done, "{case}");
        self.check_list(form, code, random);
    }

    /// As a list of its own. A run has no memory, and a byte map has none and no control in a register.
    fn check_list(&mut self, form: Form, code: &[u8], random: &mut Random) {
        let length = code.len() as u64;
        let mut case = running::Case::new(random);
        case.code = code.to_vec();
        let (steps, place, status) = match form.shape.memory {
            true => (0, 0, 6),
            false => (1, length, 0),
        };
        let ran = Ran {
            steps,
            place,
            status,
            reason: 0,
        };
        assert_eq!(self.running.check(&case), ran, "{case}");
        let mut case = building::Case::new(random);
        case.code = code.to_vec();
        let (place, status) = match form.shape.memory || form.has_register_control() {
            true => (0, 7),
            false => (length, 0),
        };
        let reason = 0;
        let built = Built {
            place,
            status,
            reason,
        };
        assert_eq!(self.building.check(&case), built, "{case}");
        self.check_listing(form, code);
    }

    fn check_listing(&mut self, form: Form, code: &[u8]) {
        let case = listings::Case::new(code);
        let listed = self.listings.check(&case);
        let (name, bits) = (form.shape.row.name, 8 * form.bytes());
        let line = format!("0\t{}\t{name}\t{bits}\t0\n", code.len());
        let text = self.listings.written(listed);
        assert_eq!(text, format!("at\tlen\tname\tbits\tanswer\n{line}"));
    }
}

/// Every form in its own opcode map, with every R, X, B and R'.
#[test]
fn accepted_by_every_entry_point() {
    let mut random = Random::new(3);
    let mut accepted = Accepted::default();
    for form in evex_forms() {
        let code = form.encode(&mut random);
        for_prefixes(form.shape, code, |code| {
            if form.shape.outcome(code[1], code[2]) == Outcome::Row {
                accepted.check(form, code, &mut random);
            }
        });
    }
    let mut table = Table::new("accepted in their opcode map", &[0, 6, 7]);
    table.line("address", accepted.addressing.counts);
    table.line("step", accepted.stepping.counts);
    table.line("run", accepted.running.counts);
    table.line("build", accepted.building.counts);
    table.line("listing", accepted.listings.counts);
    table.finish(LEAST_ACCEPTED);
}
