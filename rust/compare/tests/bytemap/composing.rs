//! Pairs of maps that are composed.

use crate::maps::{border_entries, entry_status, old_map, plain_maps, valid_map, SIZES};
use crate::Kind;
use compare::mapping::{valid_entries, Comparison};
use compare::random::Random;
use tarhuspo::limits::{MAP_SIZE, MAP_ZERO};

pub const KINDS: [Kind<Comparison>; 4] = [
    ("any maps", any),
    ("a map with itself", with_itself),
    ("one entry at each place", entries),
    ("wrong sizes", wrong_sizes),
];

fn any(comparison: &mut Comparison) {
    let mut random = Random::new(12);
    for first in plain_maps() {
        for second in plain_maps() {
            let out = old_map(MAP_SIZE, &mut random);
            assert_eq!(comparison.compose(&first, &second, &out), 0);
        }
    }
    for _ in 0..4_000 {
        let [first, second] = [valid_map(&mut random), valid_map(&mut random)];
        let [old, other] = [(); 2].map(|()| old_map(MAP_SIZE, &mut random));
        assert_eq!(comparison.compose(&first, &second, &old), 0);
        comparison.compose(&first, &other, &old);
        comparison.compose(&other, &second, &old);
    }
}

fn with_itself(comparison: &mut Comparison) {
    let mut random = Random::new(13);
    for _ in 0..500 {
        let map = valid_map(&mut random);
        let old = old_map(MAP_SIZE, &mut random);
        assert_eq!(comparison.compose_with_itself(&map, &old), 0);
        comparison.compose_with_itself(&old, &map);
    }
}

/// An entry above 2,048 answers 9 in either map, also where the other map never names its place.
fn entries(comparison: &mut Comparison) {
    let mut random = Random::new(14);
    let out = old_map(MAP_SIZE, &mut random);
    let other = vec![MAP_ZERO; MAP_SIZE];
    let mut map = valid_map(&mut random);
    for (place, entry) in border_entries(&mut random) {
        let kept = std::mem::replace(&mut map[place], entry);
        let expected = entry_status(entry);
        assert_eq!(comparison.compose(&map, &other, &out), expected);
        assert_eq!(comparison.compose(&other, &map, &out), expected);
        map[place] = kept;
    }
}

/// A wrong size of any of the three answers 1, also for maps that would answer 9.
fn wrong_sizes(comparison: &mut Comparison) {
    let mut random = Random::new(15);
    let pairs = SIZES.iter().flat_map(|&a| SIZES.map(|b| (a, b)));
    for (first_size, second_size) in pairs {
        for out_size in SIZES {
            if [first_size, second_size, out_size] == [MAP_SIZE; 3] {
                continue;
            }
            let out = old_map(out_size, &mut random);
            let mut first = old_map(first_size, &mut random);
            let mut second = old_map(second_size, &mut random);
            assert_eq!(comparison.compose(&first, &second, &out), 1);
            valid_entries(&mut first, &mut random);
            valid_entries(&mut second, &mut random);
            assert_eq!(comparison.compose(&first, &second, &out), 1);
        }
    }
}
