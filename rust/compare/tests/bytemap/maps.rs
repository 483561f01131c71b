//! Maps to apply and compose.

use compare::mapping::{any_entries, valid_entries};
use compare::random::Random;
use tarhuspo::limits::{MAP_SIZE, MAP_ZERO};

/// Sizes of a map or of a register file, one of them right.
pub const SIZES: [usize; 6] = [0, 1, MAP_SIZE - 1, MAP_SIZE, MAP_SIZE + 1, 5_000];

/// A map that may be read.
pub fn valid_map(random: &mut Random) -> Vec<u16> {
    let mut map = vec![0; MAP_SIZE];
    valid_entries(&mut map, random);
    map
}

/// What an output may hold before.
pub fn old_map(size: usize, random: &mut Random) -> Vec<u16> {
    let mut map = vec![0; size];
    any_entries(&mut map, random);
    map
}

/// Maps that are not random: nothing moved, all the same place, all zero, in reverse.
pub fn plain_maps() -> [Vec<u16>; 5] {
    [
        (0..MAP_ZERO).collect(),
        vec![0; MAP_SIZE],
        vec![MAP_ZERO - 1; MAP_SIZE],
        vec![MAP_ZERO; MAP_SIZE],
        (0..MAP_ZERO).rev().collect(),
    ]
}

/// Every place once with each of the entries at the border, and with random entries above it.
pub fn border_entries(random: &mut Random) -> Vec<(usize, u16)> {
    let mut entries = Vec::new();
    for place in 0..MAP_SIZE {
        let above = MAP_ZERO + 1 + random.below(usize::from(u16::MAX - MAP_ZERO)) as u16;
        let border = [0, MAP_ZERO - 1, MAP_ZERO, MAP_ZERO + 1, u16::MAX, above];
        entries.extend(border.map(|entry| (place, entry)));
    }
    entries
}

/// The status that one entry gives a map that is valid otherwise.
pub fn entry_status(entry: u16) -> u32 {
    if entry > MAP_ZERO {
        9
    } else {
        0
    }
}
