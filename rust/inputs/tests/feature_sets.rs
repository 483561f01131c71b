//! The list of sets that pass is what request 6 says, feature by feature.

use inputs::feature_sets::{any, impossible, numbers, passes, possible, refused, unknown, REFUSED};
use inputs::limits::features::{ALL, AVX, AVX2, AVX512BW, AVX512F, AVX512VL, AVX512_VBMI, SETS};
use inputs::random::Random;
use std::collections::BTreeSet;

/// Each feature that needs another, and that other. What extends AVX512F needs AVX by way of it.
const NEEDS: [(u32, u32); 5] = [
    (AVX2, AVX),
    (AVX512F, AVX),
    (AVX512VL, AVX512F),
    (AVX512_VBMI, AVX512F),
    (AVX512BW, AVX512F),
];

/// Whether every feature is known and has what it needs.
fn is_whole(features: u32) -> bool {
    let has = |feature: u32| features & feature == feature;
    features <= ALL && NEEDS.iter().all(|&(one, needed)| !has(one) || has(needed))
}

#[test]
fn the_list_is_the_rule() {
    for features in (0..1 << 20).chain(numbers()) {
        assert_eq!(passes(features), is_whole(features), "{features:#x}");
    }
    assert!(SETS.is_sorted());
}

#[test]
fn the_numbers_have_both_kinds() {
    let numbers = numbers();
    let distinct: BTreeSet<_> = numbers.iter().copied().collect();
    assert_eq!(distinct.len(), numbers.len());
    assert!((0..=255).all(|number| distinct.contains(&number)));
    let passing = distinct.iter().filter(|&&number| passes(number));
    assert_eq!(passing.count(), SETS.len());
    assert!(REFUSED.iter().all(|&number| !is_whole(number)));
}

/// What makes a random number, and what is said of every number that it makes.
type Maker = (fn(&mut Random) -> u32, fn(u32) -> bool);

#[test]
fn random_numbers_are_of_their_kind() {
    let makers: [Maker; 4] = [
        (possible, is_whole),
        (impossible, |number| number <= ALL && !is_whole(number)),
        (unknown, |number| number > ALL),
        (refused, |number| !is_whole(number)),
    ];
    let mut random = Random::new(1);
    for (make, is_of_kind) in makers {
        assert!((0..10_000).all(|_| is_of_kind(make(&mut random))));
    }
    let made: BTreeSet<_> = (0..10_000).map(|_| impossible(&mut random)).collect();
    assert_eq!(made.len(), 64 - SETS.len());
    let refused = (0..10_000).filter(|_| !is_whole(any(&mut random))).count();
    assert!((1_000..1_500).contains(&refused), "{refused} of 10,000");
}
