//! Every EVEX opcode map has inputs, and so has each wrong fixed bit under every one (request 7).

use crate::from_refused;
use inputs::limits::features::ALL;
use std::collections::BTreeMap;
use vectors::section::Samples;
use vectors::{address_inputs, decode_inputs, list_inputs, step_inputs};

/// Of each opcode map with right fixed bits, and of each way to have wrong ones under it.
const LEAST_OF_EACH: u32 = 16;
/// Of codes that end before the opcode, in which opcode map or fixed bit do not count yet.
const LEAST_SHORT: u32 = 24;

/// The opcode map, bit 3 of P, and bit 2 of Q.
type Bits = (u8, u8, u8);

/// How many inputs there were with which bits, and how many that end before the opcode.
#[derive(Default)]
struct Found {
    bits: BTreeMap<Bits, u32>,
    short: u32,
}

impl Found {
    /// Counts an input that has an EVEX prefix, and holds its answer to the request's words.
    fn add(&mut self, code: &[u8]) {
        let decoded = reference::decode(code, ALL);
        let answer = (decoded.status, decoded.reason);
        match *code {
            [0x62, p, q, _, _, ..] => {
                let bits = (p & 7, p >> 3 & 1, q >> 2 & 1);
                match bits {
                    (1..=3, 0, 1) => assert_ne!(answer, (4, 1), "{code:02X?}"),
                    (_, 0, 1) => assert_eq!(answer, (3, 0), "{code:02X?}"),
                    _ => assert_eq!(answer, (4, 1), "{code:02X?}"),
                }
                *self.bits.entry(bits).or_default() += 1;
            }
            [0x62, p, ..] if p & 0x0C != 0 => {
                assert_eq!(answer, (2, 0), "{code:02X?}");
                self.short += 1;
            }
            _ => {}
        }
    }

    fn finish(&self, what: &str) {
        println!(
            "{what}: {} short, by opcode map and fixed bits:",
            self.short
        );
        for fixed in [(0, 1), (1, 1), (0, 0), (1, 0)] {
            let counts = (0..8).map(|map| self.bits.get(&(map, fixed.0, fixed.1)));
            let counts: Vec<_> = counts.map(|count| count.copied().unwrap_or(0)).collect();
            println!(
                "  P bit 3 is {}, Q bit 2 is {}: {counts:?}",
                fixed.0, fixed.1
            );
            let least = counts.iter().min().map_or(0, |&count| count);
            assert!(least >= LEAST_OF_EACH, "{what}: {counts:?}");
        }
        assert!(self.short >= LEAST_SHORT, "{what}: {} short", self.short);
    }
}

fn expect_opcode_maps<I>(what: &str, samples: &Samples<I>, code: fn(&I) -> &[u8]) {
    let mut found = Found::default();
    let inputs = samples.iter().flat_map(|(_, inputs)| inputs);
    inputs.for_each(|input| found.add(code(input)));
    found.finish(what);
}

#[test]
fn every_opcode_map_and_fixed_bit_has_inputs() {
    expect_opcode_maps("decode", &decode_inputs(), |input| &input.code);
    expect_opcode_maps("step", &step_inputs(), |input| &input.code);
    expect_opcode_maps("address", &address_inputs(), |input| &input.code);
    expect_opcode_maps("lists", &list_inputs(), |input| from_refused(&input.code));
}
