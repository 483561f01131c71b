//! The opcode maps that no row has, the fixed bits, and what the generator expects of both (request
//! 7).

use inputs::encoding::{Prefix, ROWS};
use inputs::faults::Fault;
use inputs::limits::features::ALL;
use inputs::opcode_maps::{evex_shapes, Outcome, OTHER_OPCODE_MAPS};
use inputs::random::Random;
use inputs::reserved::{Field, Wrong};
use std::collections::BTreeMap;

#[test]
fn every_opcode_map_is_a_rows_or_another() {
    let evex = ROWS.iter().filter(|row| row.evex_w.is_some());
    let mut maps: Vec<_> = evex.map(|row| row.map).chain(OTHER_OPCODE_MAPS).collect();
    maps.sort_unstable();
    maps.dedup();
    assert_eq!(maps, [0, 1, 2, 3, 4, 5, 6, 7]);
    assert!(ROWS.iter().all(|row| !OTHER_OPCODE_MAPS.contains(&row.map)));
}

/// `Shape::outcome` counts on it.
#[test]
fn no_opcode_is_in_two_opcode_maps() {
    for row in &ROWS {
        let same = ROWS.iter().filter(|other| other.opcode == row.opcode);
        assert!(same.clone().all(|other| other.map == row.map), "{row:?}");
    }
}

/// The request's codes, all of VPSHUFD: the second byte, the third, and what they answer.
#[test]
fn outcomes_of_written_out_code() {
    let shapes = evex_shapes();
    let mut shapes = shapes.iter().filter(|shape| shape.row.name == "VPSHUFD");
    let shape = shapes.next().expect("VPSHUFD has an EVEX form");
    let cases = [
        (0xF1, 0x7D, (0, 0)),
        (0xF5, 0x7D, (3, 0)),
        (0xF9, 0x7D, (4, 1)),
        (0xF1, 0x79, (4, 1)),
        (0xF4, 0x7D, (3, 0)),
        (0xF0, 0x7D, (3, 0)),
        (0xFD, 0x7D, (4, 1)),
        (0xF5, 0x79, (4, 1)),
    ];
    for (p, q, answer) in cases {
        let outcome = shape.outcome(p, q);
        assert_eq!(outcome.answer(7, 7), answer, "{p:02X} {q:02X}");
        assert_eq!(outcome.answer(4, 7), (2, 0), "{p:02X} {q:02X}");
        let is_row = outcome == Outcome::Row;
        let short = if is_row { (2, 0) } else { answer };
        assert_eq!(outcome.answer(5, 7), short, "{p:02X} {q:02X}");
        assert_eq!(outcome.answer(6, 7), short, "{p:02X} {q:02X}");
    }
}

/// The opcode map, bit 3 of the second byte, and bit 2 of the third.
type Bits = (u8, u8, u8);

/// How many of 5,000 instructions with this fault had which bits. All have the reason.
fn made(fault: Fault, reason: u32) -> BTreeMap<Bits, u32> {
    let mut random = Random::new(1);
    let mut found = BTreeMap::new();
    for _ in 0..5_000 {
        let bad = fault.encode(ALL, &mut random).expect("a fault");
        let [0x62, p, q, ..] = bad.code[..] else {
            panic!("no EVEX prefix: {:02X?}", bad.code);
        };
        assert_eq!(bad.reason, reason, "{:02X?}", bad.code);
        let bits = (p & 7, p >> 3 & 1, q >> 2 & 1);
        *found.entry(bits).or_insert(0) += 1;
    }
    println!("{fault:?}, by opcode map and fixed bits: {found:?}");
    found
}

/// Each opcode map that no row has, with right fixed bits.
#[test]
fn other_opcode_maps_are_of_their_kind() {
    let found = made(Fault::OtherOpcodeMap, 0);
    let expected = OTHER_OPCODE_MAPS.map(|map| (map, 0, 1));
    assert!(found.into_keys().eq(expected));
}

/// Each opcode map, with each of the three ways in which fixed bits are wrong.
#[test]
fn fixed_bits_are_wrong_under_every_opcode_map() {
    let found = made(Fault::FixedBits, 1);
    let expected = (0..8).flat_map(|map| [(map, 0, 0), (map, 1, 0), (map, 1, 1)]);
    assert!(found.into_keys().eq(expected));
}

/// Bit 3 of the second byte, bit 2 of the third, or both, and the opcode map is the row's.
#[test]
fn wrong_fixed_bits_are_of_their_kind() {
    let mut random = Random::new(2);
    let mut ways = BTreeMap::new();
    for wrong in Wrong::single(Field::FixedBits).repeat(100) {
        let code = wrong.encode(&mut random);
        assert_eq!(wrong.shape.prefix, Prefix::Evex);
        assert_eq!(code[1] & 7, wrong.shape.row.map, "{code:02X?}");
        *ways.entry((code[1] & 8, code[2] & 4)).or_insert(0) += 1;
    }
    assert!(ways.keys().eq(&[(0, 0), (8, 0), (8, 4)]), "{ways:?}");
    println!("by bit 3 of the second byte and bit 2 of the third: {ways:?}");
}
