//! Maps and register files that they are applied to.

use crate::maps::{border_entries, entry_status, old_map, plain_maps, valid_map, SIZES};
use crate::Kind;
use compare::mapping::{valid_entries, Comparison};
use compare::random::Random;
use tarhuspo::limits::{FILE_SIZE, MAP_SIZE};

pub const KINDS: [Kind<Comparison>; 3] = [
    ("any map", any),
    ("one entry at each place", entries),
    ("wrong sizes", wrong_sizes),
];

fn any(comparison: &mut Comparison) {
    let mut random = Random::new(9);
    let mut file = vec![0; FILE_SIZE];
    for i in 0..5_000 {
        let map = match plain_maps().get(i) {
            Some(map) => map.clone(),
            None => valid_map(&mut random),
        };
        random.fill(&mut file);
        assert_eq!(comparison.apply(&map, &file), 0);
        comparison.apply(&old_map(MAP_SIZE, &mut random), &file);
    }
}

fn entries(comparison: &mut Comparison) {
    let mut random = Random::new(10);
    let mut map = valid_map(&mut random);
    let mut file = vec![0; FILE_SIZE];
    for (place, entry) in border_entries(&mut random) {
        random.fill(&mut file);
        let kept = std::mem::replace(&mut map[place], entry);
        assert_eq!(comparison.apply(&map, &file), entry_status(entry));
        map[place] = kept;
    }
}

/// Wrong sizes answer 1, also for maps that would answer 9.
fn wrong_sizes(comparison: &mut Comparison) {
    let mut random = Random::new(11);
    for _ in 0..20 {
        for (map_size, file_size) in SIZES.iter().flat_map(|&a| SIZES.map(|b| (a, b))) {
            if (map_size, file_size) == (MAP_SIZE, FILE_SIZE) {
                continue;
            }
            let file = random.bytes(file_size);
            let mut map = old_map(map_size, &mut random);
            assert_eq!(comparison.apply(&map, &file), 1);
            valid_entries(&mut map, &mut random);
            assert_eq!(comparison.apply(&map, &file), 1);
        }
    }
}
