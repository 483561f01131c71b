//! Answer 4 with its reason (request 3): every set of reserved fields that can be wrong together,
//! compared with the reference by decoding, address, step, run, build and listing. What is expected
//! comes from the fields that were made wrong.

use compare::decoding;
use compare::encoding::{Prefix, Shape};
use compare::feature_sets;
use compare::limits::features::{ALL, SETS};
use compare::random::Random;
use compare::refusing::{Comparison, Input};
use compare::reserved::{possible_pairs, Field, Pair, Wrong};
use compare::tally::{Counts, Reasons, Table};
use std::collections::{BTreeMap, BTreeSet};

const LEAST: u64 = 200_000;

/// A kind of input: its name, and what compares all inputs of that kind.
type Kind = (&'static str, fn(&mut Comparisons, &mut Random));

const KINDS: [Kind; 5] = [
    ("all features", all_features),
    ("cut at each byte", cuts),
    ("every set that passes", sets_that_pass),
    ("features that answer 1", refused_features),
    ("fixed bits, no row", fixed_bits_without_row),
];

/// A comparison for each entry point, and the fields that were wrong in it.
#[derive(Default)]
struct Comparisons {
    refusing: Comparison,
    /// Inputs with exactly these two fields wrong, and with further ones behind them.
    pairs: BTreeMap<Pair, [u64; 2]>,
}

impl Comparisons {
    /// Compares an instruction with these wrong fields by all entry points.
    fn check(&mut self, wrong: &Wrong, input: &Input, random: &mut Random) {
        self.refusing.check(input, random);
        if let [first, second, ..] = wrong.fields[..] {
            let further = usize::from(wrong.fields.len() > 2);
            self.pairs.entry([first, second]).or_default()[further] += 1;
        }
    }
}

#[test]
fn library_agrees_with_reference() {
    let mut table = Table::new("wrong reserved fields", &[0, 1, 2, 4]);
    let mut random = Random::new(1);
    let mut comparisons = Comparisons::default();
    for (name, compare_all) in KINDS {
        comparisons.refusing.counts = Counts::default();
        compare_all(&mut comparisons, &mut random);
        table.line(name, comparisons.refusing.counts);
    }
    table.finish(LEAST);
    println!();
    Reasons::print_head("by entry point");
    for (name, reasons) in comparisons.refusing.reasons() {
        reasons.print(name);
        assert_eq!(reasons.found(), [1, 2, 3, 4, 5, 6], "reasons of {name}");
    }
    check_pairs(&comparisons.pairs);
}

/// Prints how often each pair was compared.
///
/// # Panics
///
/// If one that can be was not, or never by itself.
fn check_pairs(pairs: &BTreeMap<Pair, [u64; 2]>) {
    println!("\n{:26}{:>9} {:>9}", "pairs", "alone", "with more");
    for (pair, [alone, more]) in pairs {
        println!("{:26}{alone:>9} {more:>9}", names(pair));
        assert!(*alone > 0, "{} alone", names(pair));
    }
    for (pair, why) in IMPOSSIBLE {
        println!("{:26}{:>9} {:>9}  {why}", names(&pair), "none", "none");
    }
    assert!(pairs.keys().copied().eq(possible_pairs()), "{pairs:?}");
}

fn names(pair: &Pair) -> String {
    pair.map(Field::name).join(", ")
}

/// Calls `each` with `count` encodings of every set of wrong fields.
fn for_wrong(count: usize, random: &mut Random, mut each: impl FnMut(&Wrong, &[u8], &mut Random)) {
    for wrong in Wrong::all() {
        for _ in 0..count {
            let code = wrong.encode(random);
            each(wrong, &code, random);
        }
    }
}

fn whole<'a>(wrong: &Wrong, code: &'a [u8], features: u32) -> Input<'a> {
    Input {
        code,
        behind: &[],
        features,
        answer: (4, wrong.reason()),
    }
}

fn all_features(comparisons: &mut Comparisons, random: &mut Random) {
    for_wrong(40, random, |wrong, code, random| {
        comparisons.check(wrong, &whole(wrong, code, ALL), random);
    });
}

/// The rest of the instruction follows in memory, where it must not count.
fn cuts(comparisons: &mut Comparisons, random: &mut Random) {
    for_wrong(6, random, |wrong, code, random| {
        for length in 0..code.len() {
            let (passed, behind) = code.split_at(length);
            let input = Input {
                code: passed,
                behind,
                features: feature_sets::any(random),
                answer: wrong.answer(length, code.len()),
            };
            comparisons.check(wrong, &input, random);
        }
    });
}

/// A missing feature is not looked at.
fn sets_that_pass(comparisons: &mut Comparisons, random: &mut Random) {
    for_wrong(3, random, |wrong, code, random| {
        for features in SETS {
            comparisons.check(wrong, &whole(wrong, code, features), random);
        }
    });
}

fn refused_features(comparisons: &mut Comparisons, random: &mut Random) {
    for_wrong(1, random, |wrong, code, random| {
        for features in feature_sets::REFUSED {
            comparisons.check(wrong, &whole(wrong, code, features), random);
        }
    });
}

/// Wrong fixed bits come before a row is looked for, and before the bytes behind the opcode.
fn fixed_bits_without_row(comparisons: &mut Comparisons, random: &mut Random) {
    for_wrong(6, random, |wrong, code, random| {
        if wrong.fields[0] != Field::FixedBits {
            return;
        }
        let opcode_at = wrong.shape.opcode_at();
        let mut code = code.to_vec();
        code[opcode_at] = random.pick(&[0x0B, 0x58, 0xA2, 0xFE, 0xFF]);
        let features = feature_sets::possible(random);
        comparisons.check(wrong, &whole(wrong, &code, features), random);
        let (passed, behind) = code.split_at(opcode_at + 1);
        let input = Input {
            behind,
            ..whole(wrong, passed, features)
        };
        comparisons.check(wrong, &input, random);
        wrong.shape.set_fixed_bits(&mut code, 0, 1);
        let decoding = &mut comparisons.refusing.decoding;
        assert_eq!(decoding.check(&code, ALL), 3, "{code:02X?}");
    });
}

/// The pairs that no encoding has, and why. The test below sees that it is so.
const IMPOSSIBLE: [(Pair, &str); 3] = [
    (
        [Field::FixedBits, Field::W],
        "W is wrong under VEX alone, which has no fixed bits",
    ),
    (
        [Field::W, Field::Broadcast],
        "W is wrong under VEX alone, which has no b",
    ),
    (
        [Field::W, Field::Zeroing],
        "W is wrong under VEX alone, which has no z",
    ),
];

/// Every value of the prefix's fields but the registers' high bits, over each shape's opcode and
/// operands: the reasons that occur with each kind of prefix, and by that the pairs that can be.
#[test]
fn prefixes_have_their_own_reasons() {
    let mut random = Random::new(2);
    let mut comparison = decoding::Comparison::default();
    for shape in Shape::all() {
        let mut code = shape.encode(&mut random);
        code.extend(random.bytes(8));
        check_prefixes(&mut comparison, shape, code);
    }
    Reasons::print_head("every prefix");
    let mut found = Vec::new();
    for (first, reasons) in &comparison.reasons {
        reasons.print(&format!("{first:02X}"));
        found.push((*first, reasons.found()));
    }
    let expected = [
        (0x62, vec![1, 3, 4, 5, 6]),
        (0xC4, vec![2, 3, 4]),
        (0xC5, vec![4]),
    ];
    assert_eq!(found, expected);

    let has_both = |pair: &Pair| {
        let [one, other] = pair.map(Field::number);
        let mut reasons = expected.iter().map(|(_, reasons)| reasons);
        reasons.any(|reasons| reasons.contains(&one) && reasons.contains(&other))
    };
    let (possible, impossible): (Vec<_>, Vec<_>) = Field::pairs().into_iter().partition(has_both);
    assert_eq!(possible, possible_pairs());
    assert_eq!(impossible, IMPOSSIBLE.map(|(pair, _)| pair));
    println!(
        "{} pairs can be wrong at once, {} cannot",
        possible.len(),
        impossible.len()
    );
}

fn check_prefixes(comparison: &mut decoding::Comparison, shape: Shape, mut code: Vec<u8>) {
    // The bits of each byte behind the first that are not a register's.
    let fields: &[u8] = match shape.prefix {
        Prefix::Vex2 => &[0x7F],
        Prefix::Vex3 => &[0x1F, 0xFF],
        Prefix::Evex => &[0x0F, 0xFF, 0xFF],
    };
    let places: Vec<_> = (1..)
        .zip(fields)
        .flat_map(|(at, bits)| (0..8).map(move |i| (at, bits & (1 << i))))
        .filter(|&(_, bit)| bit != 0)
        .collect();
    // A Gray code: one bit changes at a time, and every value comes up.
    for number in 1..=1u64 << places.len() {
        comparison.check(&code, ALL);
        let changed = number.trailing_zeros() as usize;
        if let Some(&(at, bit)) = places.get(changed) {
            code[at] ^= bit;
        }
    }
}

/// The generator makes what it says: no two sets of one shape are the same, and all fields occur.
#[test]
fn sets_of_wrong_fields_differ() {
    let shown = Wrong::all()
        .iter()
        .map(|wrong| format!("{:?}, {:?}", wrong.shape, wrong.fields));
    let distinct: BTreeSet<_> = shown.collect();
    assert_eq!(distinct.len(), Wrong::all().len());
    for field in Field::ALL {
        assert!(!Wrong::single(field).is_empty(), "{field:?}");
    }
    let is_ordered = |wrong: &Wrong| wrong.fields.is_sorted() && !wrong.fields.is_empty();
    assert!(Wrong::all().iter().all(is_ordered));
    println!("{} sets of wrong fields", Wrong::all().len());
}
