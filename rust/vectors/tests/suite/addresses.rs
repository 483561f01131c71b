//! Every kind of address has inputs, and so has every number of general registers.

use crate::vectors;
use inputs::addresses::Counted;
use inputs::limits::GPR_COUNT;
use std::collections::BTreeMap;
use vectors::address::Address;
use vectors::address_inputs;
use vectors::layout::{INPUTS, MASKS_ROOM};
use vectors::pools::Pools;
use vectors::section::Input;

/// Of each kind.
const LEAST_OF_EACH: u64 = 100;

fn for_inputs(mut each: impl FnMut(&Address, &[u64])) {
    let pools = Pools::new(1);
    for (_, inputs) in address_inputs() {
        for input in inputs {
            each(&input, &input.registers(&pools));
        }
    }
}

/// The kind of an input's address, if it has one.
fn kind_of(input: &Address, registers: &[u64]) -> Option<inputs::addresses::Address> {
    let decoded = reference::decode(&input.code, input.features);
    if decoded.status != 0 || registers.len() != GPR_COUNT {
        return None;
    }
    inputs::addresses::Address::new(
        &input.code[..decoded.length as usize],
        decoded.memory,
        decoded.has_immediate != 0,
        registers,
        input.own,
    )
}

/// Counted by what the generator reads in an instruction, which the stored address has to fit.
#[test]
fn every_kind_of_address_has_inputs() {
    let mut counted = Counted::default();
    let (mut with, mut without) = (0, 0);
    for_inputs(|input, registers| {
        let found = reference::address(&input.code, input.features, registers, input.own);
        match kind_of(input, registers) {
            Some(kind) => {
                assert_eq!((found.has_address, found.address), (true, kind.wrapped()));
                counted.add(&kind);
                with += 1;
            }
            None => {
                assert_eq!((found.has_address, found.address), (false, 0));
                without += u64::from(found.status == 0);
            }
        }
    });
    println!("{with} with an address, {without} register forms");
    assert!(with >= 13_000 && without >= LEAST_OF_EACH);
    counted.finish("addresses", LEAST_OF_EACH);
}

#[test]
fn every_number_of_registers_has_inputs() {
    let mut counts = BTreeMap::new();
    for_inputs(|_, registers| *counts.entry(registers.len()).or_insert(0) += 1);
    assert!(counts.keys().copied().eq(0..=MASKS_ROOM), "{counts:?}");
    let others: usize = counts.values().sum::<usize>() - counts[&GPR_COUNT];
    assert!(others >= 700, "{counts:?}");
    println!("by number of registers: {counts:?}");
}

/// A record is 14 bytes and the code behind its length. A line is four numbers, in hexadecimal.
#[test]
fn records_and_lines_are_as_they_should() {
    let section = vectors().sections.last().expect("a section");
    assert_eq!(section.name, "address");
    let mut size = 0;
    let mut lines = section.results.lines();
    for_inputs(|input, registers| {
        let record = input.record().0;
        assert_eq!(record.len(), 14 + 2 + input.code.len());
        size += record.len();
        let found = reference::address(&input.code, input.features, registers, input.own);
        let (has, address) = (u32::from(found.has_address), found.address);
        let line = format!("{:x} {:x} {has:x} {address:x}", found.status, found.reason);
        assert_eq!(lines.next(), Some(&line[..]));
    });
    assert_eq!(lines.next(), None);
    assert_eq!(size, section.data.len());
    assert_eq!(section.results.lines().count(), INPUTS);
}
