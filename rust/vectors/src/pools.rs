//! Pools of bytes, opmasks and byte maps. An input names parts of them.

use crate::layout::{Map, Span, GUARD, ROOM};
use inputs::limits::features::ALL;
use inputs::limits::{MAP_SIZE, MAP_ZERO};
use inputs::lists::Mix;
use inputs::random::Random;
use inputs::state::refill_masks;

const BYTES: usize = 65_536;
const MASKS: usize = 256;
/// Built maps come first, then other ones.
pub const BUILT_MAPS: usize = 16;
pub const MAPS: usize = 32;

pub struct Pools {
    bytes: Vec<u8>,
    masks: Vec<u64>,
    entries: Vec<u16>,
}

impl Pools {
    pub fn new(seed: u64) -> Pools {
        let mut random = Random::new(seed);
        let bytes = random.bytes(BYTES);
        let masks = opmasks(&mut random);
        let mut maps: Vec<_> = (0..BUILT_MAPS).map(|i| built(i, &mut random)).collect();
        maps.extend(plain());
        while maps.len() < MAPS {
            maps.push(any_map(&mut random));
        }
        Pools {
            bytes,
            masks,
            entries: maps.concat(),
        }
    }

    /// What is stored: one pool behind the other, their elements in little-endian order.
    pub fn stored(&self) -> Vec<u8> {
        let masks = self.masks.iter().flat_map(|mask| mask.to_le_bytes());
        let entries = self.entries.iter().flat_map(|entry| entry.to_le_bytes());
        let bytes = self.bytes.iter().copied();
        bytes.chain(masks).chain(entries).collect()
    }

    pub fn bytes(&self, start: u16, count: usize) -> Vec<u8> {
        part(&self.bytes, start, count)
    }

    pub fn masks(&self, span: Span) -> Vec<u64> {
        part(&self.masks, span.start, span.length.into())
    }

    /// The map that is passed. A place behind it is set too, and is not passed.
    pub fn map(&self, map: Map) -> Vec<u16> {
        let mut entries = part(&self.entries, map.span.start, ROOM);
        if let Some(entry) = entries.get_mut(usize::from(map.place)) {
            *entry = map.entry;
        }
        entries.truncate(map.span.length.into());
        entries
    }
}

/// What a map holds before it is written, with its guards.
pub fn old_map(start: u16) -> Vec<u16> {
    let numbers = (0..ROOM).map(|i| usize::from(start) + 40_503 * i);
    numbers.map(|number| number as u16).collect()
}

/// The part of a buffer with guards that is passed.
pub fn passed<T>(buffer: &mut [T], span: Span) -> &mut [T] {
    &mut buffer[GUARD..][..span.length.into()]
}

/// Elements from `start` on, and where the pool ends, from its front.
fn part<T: Copy>(pool: &[T], start: u16, count: usize) -> Vec<T> {
    let places = usize::from(start)..usize::from(start) + count;
    places.map(|place| pool[place % pool.len()]).collect()
}

fn opmasks(random: &mut Random) -> Vec<u64> {
    let mut all = Vec::new();
    let mut masks = Vec::new();
    while all.len() < MASKS {
        refill_masks(&mut masks, random);
        all.extend_from_slice(&masks);
    }
    all
}

/// The map of a list, longer ones later.
fn built(i: usize, random: &mut Random) -> Vec<u16> {
    let list = Mix::mappable(ALL).list(1 + i * i, random);
    let mut masks = Vec::new();
    refill_masks(&mut masks, random);
    let mut map = vec![0; MAP_SIZE];
    reference::build(&list.code, &masks, ALL, &mut map);
    map
}

/// Nothing moved, all the same place, all zero, in reverse.
fn plain() -> [Vec<u16>; 5] {
    [
        (0..MAP_ZERO).collect(),
        vec![0; MAP_SIZE],
        vec![MAP_ZERO - 1; MAP_SIZE],
        vec![MAP_ZERO; MAP_SIZE],
        (0..MAP_ZERO).rev().collect(),
    ]
}

/// Random entries. One of eight stands for a zero byte.
fn any_map(random: &mut Random) -> Vec<u16> {
    let mut entry = || match random.below(8) {
        0 => MAP_ZERO,
        _ => random.below(MAP_SIZE) as u16,
    };
    (0..MAP_SIZE).map(|_| entry()).collect()
}
