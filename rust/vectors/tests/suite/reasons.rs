//! Every reason of status 4 has inputs, and so has every pair of fields that can be wrong at once.

use crate::{from_refused, vectors};
use inputs::limits::features::ALL;
use inputs::reserved::possible_pairs;
use std::collections::BTreeMap;
use vectors::section::Samples;
use vectors::{address_inputs, decode_inputs, list_inputs, step_inputs};

/// Of each reason, and of each pair.
const LEAST_OF_EACH: u64 = 24;

#[test]
fn every_reason_has_dozens_of_inputs() {
    for section in &vectors().sections {
        let (name, reasons) = (section.name, section.reasons);
        let gives_one = ["decode", "step", "run", "build", "address"].contains(&name);
        if !gives_one {
            assert_eq!(reasons.sum(), 0, "{name}");
            continue;
        }
        let with_4 = section.counts().of(4);
        assert_eq!(reasons.sum(), with_4, "{name}: status 4 and reasons");
        for reason in 1..=6 {
            let found = reasons.of(reason);
            assert!(
                found >= LEAST_OF_EACH,
                "{name}: {found} with reason {reason}"
            );
        }
    }
}

/// The first two wrong fields of an instruction that answers 4, by their reasons. The second shows
/// once the first has a right value.
fn wrong_pair(code: &[u8]) -> Option<[u32; 2]> {
    let first = reference::decode(code, ALL).reason;
    let mut code = code.to_vec();
    match (first, code.first()?) {
        (1, _) => (code[1], code[2]) = (code[1] & !0x08, code[2] | 0x04),
        (2, _) => code[2] &= 0x7F,
        (3, 0x62) => code[3] &= 0x9F,
        (3, _) => code[2] |= 0x04,
        (4, 0x62) => (code[2], code[3]) = (code[2] | 0x78, code[3] | 0x08),
        (4, 0xC4) => code[2] |= 0x78,
        (4, _) => code[1] |= 0x78,
        (5, _) => code[3] &= 0xEF,
        _ => return None,
    }
    let second = reference::decode(&code, ALL).reason;
    (second != 0).then_some([first, second])
}

fn expect_pairs<'a>(what: &str, codes: impl Iterator<Item = &'a [u8]>) {
    let mut found = BTreeMap::new();
    for pair in codes.filter_map(wrong_pair) {
        *found.entry(pair).or_insert(0) += 1;
    }
    let wanted = possible_pairs();
    let wanted: Vec<_> = wanted.iter().map(|pair| pair.map(|f| f.number())).collect();
    assert!(found.keys().eq(&wanted), "{what}: {found:?}");
    let least = found.values().min().map_or(0, |&count| count);
    assert!(least >= LEAST_OF_EACH, "{what}: {found:?}");
    println!("{what}, by the first two wrong fields: {found:?}");
}

fn all<I>(samples: &Samples<I>) -> impl Iterator<Item = &I> {
    samples.iter().flat_map(|(_, inputs)| inputs)
}

#[test]
fn every_pair_of_wrong_fields_has_dozens_of_inputs() {
    let samples = decode_inputs();
    expect_pairs("decode", all(&samples).map(|input| &input.code[..]));
    let samples = step_inputs();
    expect_pairs("step", all(&samples).map(|input| &input.code[..]));
    let samples = address_inputs();
    expect_pairs("address", all(&samples).map(|input| &input.code[..]));
    let samples = list_inputs();
    expect_pairs(
        "lists",
        all(&samples).map(|input| from_refused(&input.code)),
    );
}
