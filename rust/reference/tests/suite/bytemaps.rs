//! Building, applying and composing byte maps.

use crate::sample::Sample;
use crate::support::{varied_file, Random, ALL, OPEN};
use reference::{apply, build, compose, run, Built};

const ZERO: u16 = 2_048;
const VUNPCKLPS: [u8; 4] = [0xC5, 0xE8, 0x14, 0xCB];

fn built(place: u64, status: u32) -> Built {
    Built {
        place,
        status,
        reason: 0,
    }
}

/// Answer 4 at a place.
fn reserved(place: u64, reason: u32) -> Built {
    Built {
        place,
        status: 4,
        reason,
    }
}

fn identity() -> Vec<u16> {
    (0..2_048).collect()
}

/// Builds a map over old content, which must not matter, and returns it.
fn map_of(code: &[u8], masks: &[u64]) -> Vec<u16> {
    let mut map = vec![0xFFFF; 2_048];
    assert_eq!(
        build(code, masks, ALL, &mut map),
        built(code.len() as u64, 0)
    );
    map
}

fn composed(first: &[u16], second: &[u16]) -> Vec<u16> {
    let mut out = vec![0xFFFF; 2_048];
    assert_eq!(compose(first, second, &mut out), 0);
    out
}

fn random_list(random: &mut Random, most: usize) -> Vec<u8> {
    let count = random.below(most + 1);
    let samples = (0..count).map(|_| Sample::mappable(random).encode());
    samples.flatten().collect()
}

fn random_map(random: &mut Random) -> Vec<u16> {
    (0..2_048).map(|_| random.below(2_049) as u16).collect()
}

/// Builds on marked entries and checks that a refusal changes none.
fn refused(code: &[u8], masks: &[u64], features: u32, expected: Built) {
    let mut map = vec![0xABCD; 2_048];
    assert_eq!(build(code, masks, features, &mut map), expected);
    assert!(map.iter().all(|&entry| entry == 0xABCD));
}

#[test]
fn the_empty_list_is_the_identity() {
    assert_eq!(map_of(&[], &OPEN), identity());
    let mut random = Random(6);
    let map = random_map(&mut random);
    assert_eq!(composed(&identity(), &map), map);
    assert_eq!(composed(&map, &identity()), map);
    let mut file = varied_file();
    assert_eq!(apply(&identity(), &mut file), 0);
    assert_eq!(file, varied_file());
}

#[test]
fn the_map_of_one_step() {
    let mut expected = identity();
    expected[64..128].fill(ZERO);
    for byte in 0..4 {
        expected[64 + usize::from(byte)] = 128 + byte;
        expected[68 + usize::from(byte)] = 192 + byte;
        expected[72 + usize::from(byte)] = 132 + byte;
        expected[76 + usize::from(byte)] = 196 + byte;
    }
    assert_eq!(map_of(&VUNPCKLPS, &OPEN), expected);
}

#[test]
fn the_maps_of_the_other_unpacking_steps() {
    // pp and opcode, bytes of an element, where the half of a lane starts.
    let cases = [(0xE8, 0x15, 4, 8), (0xE9, 0x14, 8, 0), (0xE9, 0x15, 8, 8)];
    for (p, opcode, size, half) in cases {
        let mut expected = identity();
        expected[64..128].fill(ZERO);
        for byte in 0..16 {
            let source = [128, 192][byte / size % 2];
            let from = half + byte / (2 * size) * size + byte % size;
            expected[64 + byte] = (source + from) as u16;
        }
        assert_eq!(map_of(&[0xC5, p, opcode, 0xCB], &OPEN), expected);
    }
}

#[test]
fn vpermilps_with_an_immediate_has_the_map_of_vpshufd() {
    for immediate in 0..=255 {
        let vpermilps = map_of(&[0xC4, 0xE3, 0x7D, 0x04, 0xCA, immediate], &OPEN);
        assert!(vpermilps == map_of(&[0xC5, 0xFD, 0x70, 0xCA, immediate], &OPEN));
    }
}

#[test]
fn the_map_of_a_merging_step() {
    // VPSHUFD xmm31{k2}, xmm30, 0 with the second doubleword masked off.
    let code = [0x62, 0x01, 0x7D, 0x0A, 0x70, 0xFE, 0x00];
    let mut masks = [0; 8];
    masks[2] = 0b1101;
    let mut expected = identity();
    expected[31 * 64..].fill(ZERO);
    for byte in 0..4 {
        for element in [0, 2, 3] {
            expected[31 * 64 + 4 * element + byte] = (30 * 64 + byte) as u16;
        }
        expected[31 * 64 + 4 + byte] = (31 * 64 + 4 + byte) as u16;
    }
    assert_eq!(map_of(&code, &masks), expected);
}

#[test]
fn applying_is_running() {
    let mut random = Random(7);
    for _ in 0..300 {
        let code = random_list(&mut random, 40);
        let masks = random.masks();
        let map = map_of(&code, &masks);
        assert!(map.iter().all(|&entry| entry <= ZERO));
        let mut ran = random.file();
        let mut applied = ran.clone();
        assert_eq!(run(&code, &mut ran, &masks, ALL, 4_096).status, 0);
        assert_eq!(apply(&map, &mut applied), 0);
        assert!(applied == ran);
    }
}

#[test]
fn composing_is_joining() {
    let mut random = Random(8);
    for _ in 0..200 {
        let masks = random.masks();
        let first = random_list(&mut random, 20);
        let second = random_list(&mut random, 20);
        let join = [&first[..], &second].concat();
        let maps = composed(&map_of(&first, &masks), &map_of(&second, &masks));
        assert!(maps == map_of(&join, &masks));
    }
}

#[test]
fn composing_is_associative() {
    let mut random = Random(9);
    for _ in 0..20 {
        let [a, b, c] = [0; 3].map(|_| random_map(&mut random));
        let left = composed(&composed(&a, &b), &c);
        let right = composed(&a, &composed(&b, &c));
        assert!(left == right);
    }
}

#[test]
fn composing_keeps_zero_entries_of_the_second_map() {
    let mut second = identity();
    second[5] = ZERO;
    second[6] = 9;
    let mut first = identity();
    first[9] = 77;
    let out = composed(&first, &second);
    assert_eq!([out[5], out[6], out[7]], [ZERO, 77, 7]);
    let mut file = varied_file();
    apply(&out, &mut file);
    let start = varied_file();
    assert_eq!(file[5..8], [0, start[77], start[7]]);
}

#[test]
fn steps_that_a_map_cannot_describe() {
    let cases: [&[u8]; 13] = [
        &[0xC5, 0xF9, 0x70, 0x08, 0x1B],
        &[0x62, 0xF1, 0x7D, 0x58, 0x70, 0x08, 0x00],
        &[0xC4, 0xE2, 0x69, 0x0D, 0xCB],
        &[0x62, 0xF2, 0xED, 0x4A, 0x0D, 0xCB],
        &[0x62, 0xF2, 0x6D, 0x4A, 0x8D, 0xCB],
        &[0x62, 0xF2, 0x6D, 0x4A, 0x8D, 0x0B],
        // VPSHUFB, VPERMILPS with its control in a register, and unpacking from memory.
        &[0xC4, 0xE2, 0x69, 0x00, 0xCB],
        &[0x62, 0xF2, 0x6D, 0x4A, 0x00, 0xCB],
        &[0x62, 0xF2, 0xED, 0x4A, 0x00, 0x0B],
        &[0xC4, 0xE2, 0x69, 0x0C, 0xCB],
        &[0x62, 0xF2, 0x6D, 0x4A, 0x0C, 0xCB],
        &[0xC4, 0xE3, 0x79, 0x04, 0x08, 0x1B],
        &[0xC5, 0xE8, 0x15, 0x08],
    ];
    for bad in cases {
        refused(bad, &[0; 8], ALL, built(0, 7));
        let code = [&VUNPCKLPS[..], bad, &[0x90]].concat();
        refused(&code, &[0; 8], ALL, built(4, 7));
    }
}

#[test]
fn building_refuses_in_order() {
    let long = VUNPCKLPS.repeat(4_097);
    for code in [&[][..], &VUNPCKLPS, &long, &[0x90]] {
        refused(code, &[0; 7], ALL, built(0, 1));
        refused(code, &[0; 9], ALL, built(0, 1));
        for features in [2, 4, 9, 62, 64] {
            refused(code, &OPEN, features, built(0, 1));
        }
        for size in [0, 2_047, 2_049] {
            let mut map = vec![3; size];
            assert_eq!(build(code, &OPEN, ALL, &mut map), built(0, 1));
            assert_eq!(map, vec![3; size]);
        }
    }
    refused(&long, &OPEN, ALL, built(0, 8));
    refused(&long[..16_385], &OPEN, ALL, built(0, 8));
    map_of(&long[..16_384], &OPEN);
    map_of(&long[..4_100], &OPEN);
    let code = [&VUNPCKLPS[..], &VUNPCKLPS[..3]].concat();
    refused(&code, &OPEN, ALL, built(4, 2));
    let code = [&VUNPCKLPS[..], &[0x90]].concat();
    refused(&code, &OPEN, ALL, built(4, 3));
    let code = [&VUNPCKLPS[..], &[0xC5, 0xE9, 0x70, 0xCA, 0x1B]].concat();
    refused(&code, &OPEN, ALL, reserved(4, 4));
}

/// VPERMB m512 and VPSHUFB, cut short, with b, and without features.
#[test]
fn a_steps_own_refusals_come_before_7() {
    let vpermb = [0x62, 0xF2, 0x6D, 0x48, 0x8D, 0x08];
    refused(&vpermb[..5], &OPEN, ALL, built(0, 2));
    refused(
        &[0x62, 0xF2, 0x6D, 0x58, 0x8D, 0x08],
        &OPEN,
        0,
        reserved(0, 5),
    );
    refused(&vpermb, &OPEN, 15, built(0, 5));
    refused(&vpermb, &OPEN, 21, built(0, 7));
    let vpshufb = [0x62, 0xF2, 0x6D, 0x48, 0x00, 0xCB];
    refused(&vpshufb[..5], &OPEN, ALL, built(0, 2));
    refused(
        &[0x62, 0xF2, 0x6D, 0x58, 0x00, 0xCB],
        &OPEN,
        0,
        reserved(0, 5),
    );
    refused(&vpshufb, &OPEN, 31, built(0, 5));
    refused(&vpshufb, &OPEN, 37, built(0, 7));
}

#[test]
fn applying_refuses_in_order() {
    let mut bad = identity();
    bad[2_047] = 2_049;
    for size in [0, 2_047, 2_049] {
        let mut file = vec![8; size];
        assert_eq!(apply(&bad, &mut file), 1);
        assert_eq!(apply(&identity(), &mut file), 1);
        assert_eq!(file, vec![8; size]);
        let mut file = varied_file();
        assert_eq!(apply(&vec![0xFFFF; size], &mut file), 1);
        assert_eq!(file, varied_file());
    }
    let mut file = varied_file();
    assert_eq!(apply(&bad, &mut file), 9);
    assert_eq!(file, varied_file());
    bad[2_047] = 2_048;
    assert_eq!(apply(&bad, &mut file), 0);
    assert_eq!(file[2_047], 0);
    assert_eq!(file[..2_047], varied_file()[..2_047]);
}

#[test]
fn composing_refuses_in_order() {
    let good = identity();
    let mut bad = identity();
    bad[0] = 0xFFFF;
    let zeros = vec![ZERO; 2_048];
    let mut out = vec![7; 2_048];
    for size in [0, 2_047, 2_049] {
        let wrong = vec![0xFFFF; size];
        assert_eq!(compose(&wrong, &good, &mut out), 1);
        assert_eq!(compose(&good, &wrong, &mut out), 1);
        let mut other = vec![7; size];
        assert_eq!(compose(&bad, &bad, &mut other), 1);
        assert_eq!(other, vec![7; size]);
    }
    // An entry over 2,048 counts even where the other map never names it.
    assert_eq!(compose(&bad, &zeros, &mut out), 9);
    assert_eq!(compose(&good, &bad, &mut out), 9);
    assert_eq!(out, vec![7; 2_048]);
    out.fill(0xFFFF);
    assert_eq!(compose(&good, &zeros, &mut out), 0);
    assert_eq!(out, zeros);
}
