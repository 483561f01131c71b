//! There are inputs enough, of every status and form, and no two are the same.

use crate::vectors;
use inputs::encoding::ROWS;
use inputs::form::Form;
use inputs::limits::features::ALL;
use std::collections::BTreeSet;
use vectors::layout::{CODE_ROOM, INPUTS};
use vectors::lists::{Build, ListInput, Listing, Run};
use vectors::section::{Input, Samples};
use vectors::{address_inputs, decode_inputs, list_inputs, step_inputs};

/// Of each status that an entry point can answer.
const LEAST_OF_EACH: u64 = 36;

#[test]
fn every_status_has_dozens_of_inputs() {
    let sections = &vectors().sections;
    let names: Vec<_> = sections.iter().map(|section| section.name).collect();
    let wanted = "decode step run build apply compose listing address";
    assert_eq!(names.join(" "), wanted);
    for section in sections {
        let (name, counts) = (section.name, section.counts());
        assert!(counts.sum() >= 20_000, "{name}: {} inputs", counts.sum());
        assert_eq!(counts.sum(), INPUTS as u64, "{name}: inputs that are read");
        let known: u64 = section.statuses.iter().map(|&s| counts.of(s)).sum();
        assert_eq!(
            known,
            counts.sum(),
            "{name}: a status that it cannot answer"
        );
        for &status in section.statuses {
            let found = counts.of(status);
            assert!(
                found >= LEAST_OF_EACH,
                "{name}: {found} with status {status}"
            );
        }
    }
}

/// What a decoding tells apart, but registers and the immediate's value.
type Combination = [u32; 8];

fn combination(code: &[u8], features: u32) -> Option<Combination> {
    let d = reference::decode(code, features);
    let combination = [
        d.mnemonic,
        d.has_immediate,
        d.evex,
        d.bits,
        u32::from(d.mask != 0),
        d.zeroing,
        d.broadcast,
        u32::from(d.memory != 0),
    ];
    (d.status == 0).then_some(combination)
}

fn expect_every_form<'a>(what: &str, codes: impl Iterator<Item = (&'a [u8], u32)>) {
    let found: BTreeSet<_> = codes.filter_map(|(code, f)| combination(code, f)).collect();
    let forms: BTreeSet<_> = Form::all().into_iter().map(Form::combination).collect();
    assert_eq!(found.len(), forms.len(), "accepted forms of {what}");
}

#[test]
fn every_form_is_decoded_carried_out_and_addressed() {
    let samples = decode_inputs();
    let inputs = samples.iter().flat_map(|(_, inputs)| inputs);
    expect_every_form("decoding", inputs.map(|i| (&i.code[..], i.features)));
    let samples = step_inputs();
    let accepted = samples.iter().filter(|(kind, _)| *kind == "accepted");
    let inputs = accepted.flat_map(|(_, inputs)| inputs);
    expect_every_form("the step", inputs.map(|i| (&i.code[..], i.features)));
    let samples = address_inputs();
    let inputs = samples.iter().flat_map(|(_, inputs)| inputs);
    expect_every_form("the address", inputs.map(|i| (&i.code[..], i.features)));
}

/// Kinds without every row. Of the damaged ones no input, or hardly one, is an instruction as the
/// table has it, and only a few instructions have 4 bytes.
const WITHOUT_EVERY_ROW: [&str; 12] = [
    "cut",
    "no row",
    "another opcode map",
    "fixed bits, any opcode map",
    "opcode map or fixed bits, cut",
    "reserved field",
    "several reserved fields",
    "reserved fields, cut",
    "one bit flipped, cut",
    "15 bytes from a prefix",
    "any bytes",
    "16,384 bytes, 4,096 steps",
];

/// The rows of the instructions at the start of `code`, told apart by mnemonic and immediate.
fn rows_of(code: &[u8], most: usize) -> BTreeSet<(u32, u32)> {
    let mut rows = BTreeSet::new();
    let mut rest = code;
    for _ in 0..most {
        let decoded = reference::decode(rest, ALL);
        if decoded.status != 0 {
            break;
        }
        rows.insert((decoded.mnemonic, decoded.has_immediate));
        rest = &rest[decoded.length as usize..];
    }
    rows
}

/// Every kind has at least so many rows; one with fewer inputs has another row in each.
fn expect_rows<I>(samples: &Samples<I>, code: fn(&I) -> &[u8], most: usize, least: usize) {
    let has_every_row = |kind: &str| !WITHOUT_EVERY_ROW.contains(&kind);
    for (kind, inputs) in samples.iter().filter(|(kind, _)| has_every_row(kind)) {
        let least = least.min(most.saturating_mul(inputs.len()));
        let rows = inputs.iter().flat_map(|input| rows_of(code(input), most));
        let found = rows.collect::<BTreeSet<_>>().len();
        assert!(found >= least, "{kind}: {found} rows");
    }
}

#[test]
fn every_kind_has_every_row() {
    expect_rows(&decode_inputs(), |input| &input.code, 1, ROWS.len());
    expect_rows(&step_inputs(), |input| &input.code, 1, ROWS.len());
    expect_rows(&address_inputs(), |input| &input.code, 1, ROWS.len());
    // Most lists are made of steps that a byte map can describe.
    let mappable = ROWS.iter().filter(|row| row.control.is_none()).count();
    let lists = list_inputs();
    expect_rows(&lists, |input| &input.code, CODE_ROOM, mappable);
    let controls = lists
        .into_iter()
        .filter(|(kind, _)| kind.contains("control"));
    let controls: Vec<_> = controls.collect();
    assert_eq!(controls.len(), 1);
    expect_rows(&controls, |input| &input.code, CODE_ROOM, ROWS.len());
}

#[test]
fn lists_are_of_every_length() {
    let samples = list_inputs();
    let lengths: BTreeSet<_> = all(&samples).map(|input| input.code.len()).collect();
    for length in [0, 4, 5, 6, 7, 4_096, 4_097, 16_384, 16_385] {
        assert!(lengths.contains(&length), "no list of {length} bytes");
    }
    let between = lengths.range(4_098..16_384).count();
    assert!(between >= 12, "{between} lengths between old and new limit");
    assert!(lengths.iter().all(|&length| length <= CODE_ROOM));
}

/// Status and steps of a run, from its line.
fn status_and_steps(line: &str) -> Option<(u64, u64)> {
    let mut words = line.split(' ');
    let mut number = || u64::from_str_radix(words.next()?, 16).ok();
    Some((number()?, number()?))
}

/// A kind of run: its name, how many there are at least, and whether status and steps are of it.
type RunKind = (&'static str, usize, fn(u64, u64) -> bool);

/// With more steps than a list could have before request 5, up to the most that it can have now.
const LONG_RUNS: [RunKind; 4] = [
    ("over 1,024 steps", 12, |_, steps| steps > 1_024),
    ("over 1,024, then refused", 4, |status, steps| {
        steps > 1_024 && status != 0
    }),
    ("4,095 steps", 2, |_, steps| steps == 4_095),
    ("4,096 steps", 2, |_, steps| steps == 4_096),
];

#[test]
fn long_lists_are_run() {
    let mut sections = vectors().sections.iter();
    let run = sections.find(|section| section.name == "run");
    let lines = run.expect("a section").results.lines();
    let ran: Vec<_> = lines.filter_map(status_and_steps).collect();
    assert_eq!(ran.len(), INPUTS);
    for (name, least, is_of) in LONG_RUNS {
        let found = ran.iter().filter(|ran| is_of(ran.0, ran.1)).count();
        println!("{name:28}{found:>6}");
        assert!(found >= least, "{name}: {found} runs");
    }
    assert!(ran.iter().all(|ran| ran.1 <= 4_096));
}

/// A run has no memory, and a map no control in a register besides.
#[test]
fn long_lists_are_refused_with_every_status() {
    let expected = [("run", &[0, 2, 3, 4, 6][..]), ("build", &[2, 3, 4, 7])];
    for (name, statuses) in expected {
        let mut sections = vectors().sections.iter();
        let section = sections.find(|section| section.name == name);
        let mut kinds = section.expect("a section").kinds.iter();
        let late = kinds.find(|(kind, _)| *kind == "over 4,096 bytes, refused");
        let (_, counts) = late.expect("a kind");
        for &status in statuses {
            assert!(counts.of(status) >= 2, "{name}: {counts:?}");
        }
    }
}

fn all(samples: &Samples<ListInput>) -> impl Iterator<Item = &ListInput> {
    samples.iter().flat_map(|(_, inputs)| inputs)
}

/// How many inputs differ from all others, by record and list.
fn distinct<'a, I: Input>(
    samples: &'a Samples<ListInput>,
    entry_point: fn(&'a ListInput) -> I,
) -> usize {
    let whole = |input: &'a ListInput| (entry_point(input).record().0, &input.code[..]);
    all(samples).map(whole).collect::<BTreeSet<_>>().len()
}

/// Inputs of the other entry points are told apart while they are made.
#[test]
fn lists_with_their_records_differ() {
    let samples = list_inputs();
    assert_eq!(distinct(&samples, Run), INPUTS);
    assert_eq!(distinct(&samples, Build), INPUTS);
    assert_eq!(distinct(&samples, Listing), INPUTS);
}
