//! Which accepted instructions have been carried out.

use crate::controls::Controls;
use crate::encoding::ROWS;
use crate::instructions::{name, Instructions};
use crate::stepping::Case;
use std::collections::BTreeSet;
use tarhuspo::Decoded;

/// Which of destination, first source and third operand are the same register.
type Shared = (bool, bool, bool);

/// What occurred among accepted instructions.
#[derive(Default)]
pub struct Coverage {
    instructions: Instructions,
    controls: Controls,
    /// Opmask numbers, with zeroing.
    masks: BTreeSet<(u32, bool)>,
    immediates: BTreeSet<(&'static str, u32)>,
    destinations: BTreeSet<u32>,
    firsts: BTreeSet<u32>,
    thirds: BTreeSet<u32>,
    shared: BTreeSet<(&'static str, Shared)>,
}

impl Coverage {
    /// Notes the instruction of a case that was carried out.
    ///
    /// # Panics
    ///
    /// If the instruction has a number that is no mnemonic.
    pub fn record(&mut self, decoded: &Decoded, case: &Case) {
        let name = name(decoded.mnemonic);
        self.instructions.record(decoded);
        self.controls
            .record(decoded, &case.file, &case.masks, &case.memory);
        self.masks.insert((decoded.mask, decoded.zeroing != 0));
        self.destinations.insert(decoded.destination);
        if decoded.has_immediate != 0 {
            self.immediates.insert((name, decoded.immediate));
        }
        if decoded.has_first() {
            self.firsts.insert(decoded.first);
        }
        if decoded.memory == 0 {
            self.thirds.insert(decoded.third);
        }
        if decoded.has_first() && decoded.memory == 0 {
            self.shared.insert((name, shared(decoded)));
        }
    }

    /// Adds what `other` noted.
    pub fn merge(&mut self, other: &Coverage) {
        self.instructions.merge(&other.instructions);
        self.controls.merge(&other.controls);
        self.masks.extend(&other.masks);
        self.immediates.extend(&other.immediates);
        self.destinations.extend(&other.destinations);
        self.firsts.extend(&other.firsts);
        self.thirds.extend(&other.thirds);
        self.shared.extend(&other.shared);
    }

    /// Prints how much occurred.
    ///
    /// # Panics
    ///
    /// If something that exists did not occur.
    pub fn check_complete(&self) {
        self.instructions.print("steps by instruction", |_| true);
        self.controls.print();
        // Opmasks 1 to 7 with and without zeroing, and none.
        assert_eq!(self.masks.len(), 15, "opmasks: {:?}", self.masks);
        for row in ROWS.iter().filter(|row| row.immediate) {
            let occurred = |number| self.immediates.contains(&(row.name, number));
            assert!((0..256).all(occurred), "an immediate of {}", row.name);
        }
        for (what, registers) in [
            ("destinations", &self.destinations),
            ("first sources", &self.firsts),
            ("third operands", &self.thirds),
        ] {
            assert!(registers.iter().copied().eq(0..32), "{what}: {registers:?}");
        }
        self.check_shared();
    }

    /// The five ways in which three registers can be the same occurred for every two-source form.
    fn check_shared(&self) {
        for row in ROWS.iter().filter(|row| row.first) {
            let ways = self.shared.iter().filter(|(name, _)| *name == row.name);
            let found = ways.count();
            assert_eq!(found, 5, "shared registers of {}", row.name);
        }
    }
}

fn shared(decoded: &Decoded) -> Shared {
    let (destination, first, third) = (decoded.destination, decoded.first, decoded.third);
    (destination == first, destination == third, first == third)
}
