//! Byte maps (document 01: route sheets).

use crate::decode::{parse, Third};
use crate::limits::{check_code, check_masks, FILE_SIZE, MAP_SIZE, MAP_ZERO};
use crate::refusal::{status, Refusal, DONE};
use crate::run::run;

/// The refused step's place, or the list's length, and the answer with its reason.
#[derive(Debug, Clone, Copy, PartialEq, Eq, Default)]
pub struct Built {
    pub place: u64,
    pub status: u32,
    /// As in [`Decoded`](crate::Decoded).
    pub reason: u32,
}

/// Writes the byte map of the list `code` into `map`.
pub fn build(code: &[u8], masks: &[u64], features: u32, map: &mut [u16]) -> Built {
    match accept(code, masks, features, map) {
        Ok(()) => {
            trace(code, masks, features, map);
            Built {
                place: code.len() as u64,
                status: DONE,
                reason: 0,
            }
        }
        Err((place, refusal)) => Built {
            place: place as u64,
            status: refusal.number(),
            reason: refusal.reason(),
        },
    }
}

/// Replaces each byte of `file` by the one that `map` names.
pub fn apply(map: &[u16], file: &mut [u8]) -> u32 {
    let outcome = accept_apply(map, file);
    if outcome.is_ok() {
        let start = file.to_vec();
        for (byte, &entry) in file.iter_mut().zip(map) {
            *byte = start.get(usize::from(entry)).copied().unwrap_or(0);
        }
    }
    status(outcome)
}

/// Writes the map of `first`, then `second`.
pub fn compose(first: &[u16], second: &[u16], out: &mut [u16]) -> u32 {
    let outcome = accept_compose(first, second, out);
    if outcome.is_ok() {
        for (composed, &entry) in out.iter_mut().zip(second) {
            *composed = first.get(usize::from(entry)).copied().unwrap_or(MAP_ZERO);
        }
    }
    status(outcome)
}

/// All refusals of building: 1, then 8, then step by step 2 to 5 and 7.
fn accept(code: &[u8], masks: &[u64], features: u32, map: &[u16]) -> Result<(), (usize, Refusal)> {
    let at_start = |refusal| (0, refusal);
    check_map_size(map).map_err(at_start)?;
    check_masks(masks, features).map_err(at_start)?;
    check_code(code).map_err(at_start)?;
    let mut place = 0;
    while place < code.len() {
        let length = accept_step(&code[place..], features).map_err(|refusal| (place, refusal))?;
        place += length;
    }
    Ok(())
}

/// The length of a step that a map can describe.
fn accept_step(code: &[u8], features: u32) -> Result<usize, Refusal> {
    let instruction = parse(code, features)?;
    let has_memory = matches!(instruction.third, Third::Memory { .. });
    if has_memory || instruction.row.has_register_control() {
        return Err(Refusal::Unmappable);
    }
    Ok(instruction.length)
}

fn accept_apply(map: &[u16], file: &[u8]) -> Result<(), Refusal> {
    check_map_size(map)?;
    if file.len() != FILE_SIZE {
        return Err(Refusal::Size);
    }
    check_entries(map)
}

fn accept_compose(first: &[u16], second: &[u16], out: &[u16]) -> Result<(), Refusal> {
    check_map_size(first)?;
    check_map_size(second)?;
    check_map_size(out)?;
    check_entries(first)?;
    check_entries(second)
}

fn check_map_size(map: &[u16]) -> Result<(), Refusal> {
    if map.len() != MAP_SIZE {
        return Err(Refusal::Size);
    }
    Ok(())
}

fn check_entries(map: &[u16]) -> Result<(), Refusal> {
    if map.iter().any(|&entry| entry > MAP_ZERO) {
        return Err(Refusal::MapEntry);
    }
    Ok(())
}

/// Finds where each final byte comes from by running the accepted list on two marked files.
fn trace(code: &[u8], masks: &[u64], features: u32, map: &mut [u16]) {
    let low = run_marked(code, masks, features, low_mark);
    let high = run_marked(code, masks, features, high_mark);
    for (entry, (low, high)) in map.iter_mut().zip(low.into_iter().zip(high)) {
        *entry = origin(low, high);
    }
}

fn run_marked(code: &[u8], masks: &[u64], features: u32, mark: fn(usize) -> u8) -> [u8; FILE_SIZE] {
    let mut file = std::array::from_fn(mark);
    run(code, &mut file, masks, features, u64::MAX);
    file
}

/// The low 8 bits of a place in the file.
fn low_mark(place: usize) -> u8 {
    (place & 0xFF) as u8
}

/// The high 3 bits of a place in the file, and a top bit that tells a copied byte from a cleared one.
fn high_mark(place: usize) -> u8 {
    0x80 | (place >> 8) as u8
}

/// The entry for a byte with these two marks.
fn origin(low: u8, high: u8) -> u16 {
    if high == 0 {
        return MAP_ZERO;
    }
    (u16::from(high & 0x7F) << 8) | u16::from(low)
}
