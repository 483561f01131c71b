//! Every feature number up to 63 has inputs, and most inputs have a set that passes.

use inputs::feature_sets::passes;
use inputs::limits::features::ALL;
use std::collections::BTreeSet;
use vectors::section::Samples;
use vectors::{address_inputs, decode_inputs, list_inputs, step_inputs};

/// Of the numbers up to 63 that do not pass, and of those over 63.
const LEAST_OF_EACH: usize = 200;

fn expect_numbers<I>(what: &str, samples: &Samples<I>, features: fn(&I) -> u32) {
    let inputs = samples.iter().flat_map(|(_, inputs)| inputs);
    let found: Vec<u32> = inputs.map(features).collect();
    let distinct: BTreeSet<_> = found.iter().copied().collect();
    let missing: Vec<_> = (0..=ALL).filter(|n| !distinct.contains(n)).collect();
    assert!(missing.is_empty(), "{what}: no input with {missing:?}");
    let count = |is_of: fn(u32) -> bool| found.iter().filter(|&&n| is_of(n)).count();
    let passing = count(passes);
    let impossible = count(|number| number <= ALL && !passes(number));
    let unknown = count(|number| number > ALL);
    println!(
        "{what}: {passing} with features that pass, {impossible} with others up to 63, \
         {unknown} over 63"
    );
    assert!(impossible.min(unknown) >= LEAST_OF_EACH && passing > 10 * (impossible + unknown));
}

#[test]
fn every_number_up_to_63_has_inputs() {
    expect_numbers("decode", &decode_inputs(), |input| input.features);
    expect_numbers("step", &step_inputs(), |input| input.features);
    expect_numbers("run and build", &list_inputs(), |input| input.features);
    expect_numbers("address", &address_inputs(), |input| input.features);
}
