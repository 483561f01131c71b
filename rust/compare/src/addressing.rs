//! Comparison of addresses: the result, and every element of both buffers.

use crate::addresses::{Address, Counted};
use crate::display;
use crate::guard::Guarded;
use crate::instructions::Instructions;
use crate::limits::features;
use crate::random::Random;
use crate::state::{gpr, refill_gprs};
use crate::tally::{Counts, Reasons};
use std::fmt;
use tarhuspo::limits::GPR_COUNT;
use tarhuspo::{Addressed, Decoded};

/// The inputs of an address.
#[derive(Clone)]
pub struct Case {
    pub code: Vec<u8>,
    /// Bytes that follow the code in memory and are not passed.
    pub behind: Vec<u8>,
    pub features: u32,
    /// The general registers.
    pub registers: Vec<u64>,
    pub instruction_address: u64,
}

impl Case {
    /// Random general registers, any place for the instruction, every feature, and no code.
    pub fn new(random: &mut Random) -> Case {
        let mut case = Case {
            code: Vec::new(),
            behind: Vec::new(),
            features: features::ALL,
            registers: Vec::new(),
            instruction_address: 0,
        };
        case.refill(random);
        case
    }

    /// New general registers, in the right number, and a new place for the instruction.
    pub fn refill(&mut self, random: &mut Random) {
        refill_gprs(&mut self.registers, random);
        self.instruction_address = gpr(random);
    }

    /// The library's answer, without a comparison.
    pub fn address(&self) -> Addressed {
        let Case {
            code,
            features,
            registers,
            instruction_address,
            ..
        } = self;
        tarhuspo::address(code, *features, registers, *instruction_address)
    }

    /// What the address of an accepted memory form is made of.
    pub fn parts(&self, decoded: &Decoded) -> Option<Address> {
        Address::new(
            &self.code[..decoded.length as usize],
            decoded.memory,
            decoded.has_immediate != 0,
            &self.registers,
            self.instruction_address,
        )
    }
}

impl fmt::Display for Case {
    fn fmt(&self, f: &mut fmt::Formatter) -> fmt::Result {
        writeln!(f, "{}", display::bytes("code", &self.code))?;
        writeln!(f, "{}", display::bytes("behind it", &self.behind))?;
        writeln!(f, "features: {:#x}", self.features)?;
        writeln!(f, "{}", display::gprs(&self.registers))?;
        write!(f, "instruction at {:016X}", self.instruction_address)
    }
}

/// Works out addresses with the library and with the reference, and stops at the first difference.
#[derive(Default)]
pub struct Comparison {
    code: Guarded,
    registers: Guarded<u64>,
    pub counts: Counts,
    /// The reasons of status 4.
    pub reasons: Reasons,
    /// The accepted ones.
    pub instructions: Instructions,
    /// Those of them that have an address, by kind, and how many have none.
    pub addresses: Counted,
    pub register_forms: u64,
}

impl Comparison {
    /// Compares on `case`, and gives the result.
    ///
    /// # Panics
    ///
    /// If the results differ, if the answer is not what the library's decoding says of it, if an
    /// address is not the sum of its parts, if a reason comes with another status than 4, or if the
    /// library changed a buffer or elements around one.
    pub fn check(&mut self, case: &Case) -> Addressed {
        let library = tarhuspo::address(
            self.code.fill_joined(&case.code, &case.behind),
            case.features,
            self.registers.fill(&case.registers),
            case.instruction_address,
        );
        let reference = address_reference(case);
        let decoded = tarhuspo::decode(&case.code, case.features);
        let difference = self
            .difference(case, library, reference)
            .or_else(|| decoding_difference(case, library, &decoded));
        if let Some(difference) = difference {
            panic!("{difference}\n{case}");
        }
        self.counts.add(library.status);
        self.reasons.add(library.status, library.reason);
        if library.status == 0 {
            self.record(case, library, &decoded);
        }
        library
    }

    /// Counts an accepted case.
    fn record(&mut self, case: &Case, library: Addressed, decoded: &Decoded) {
        self.instructions.record(decoded);
        let Some(address) = case.parts(decoded) else {
            self.register_forms += 1;
            return;
        };
        let (found, sum) = (library.address, address.wrapped());
        assert_eq!(found, sum, "{found:016X} is not {address:X?}\n{case}");
        self.addresses.add(&address);
    }

    /// Adds what `other` counted.
    pub fn merge(&mut self, other: &Comparison) {
        self.counts.merge(&other.counts);
        self.reasons.merge(&other.reasons);
        self.instructions.merge(&other.instructions);
        self.addresses.merge(&other.addresses);
        self.register_forms += other.register_forms;
    }

    fn difference(&self, case: &Case, library: Addressed, reference: Addressed) -> Option<String> {
        if library != reference {
            return Some(format!("library: {library:X?}\nreference: {reference:X?}"));
        }
        if let Some(found) = self.code.joined_difference(&case.code, &case.behind) {
            return Some(format!("code: {found}"));
        }
        let found = self.registers.difference(&case.registers)?;
        Some(format!("general registers: {found}"))
    }
}

fn address_reference(case: &Case) -> Addressed {
    let reference::Addressed {
        status,
        reason,
        has_address,
        address,
    } = reference::address(
        &case.code,
        case.features,
        &case.registers,
        case.instruction_address,
    );
    Addressed {
        address,
        status,
        reason,
        has_address,
    }
}

/// What is wrong in an answer beside the decoding of the same code: with sixteen registers the two
/// refuse alike, and what has memory has an address.
fn decoding_difference(case: &Case, library: Addressed, decoded: &Decoded) -> Option<String> {
    let (status, reason) = match case.registers.len() {
        GPR_COUNT => (decoded.status, decoded.reason),
        _ => (1, 0),
    };
    let has_address = status == 0 && decoded.memory > 0;
    let is_right = (library.status, library.reason) == (status, reason)
        && library.has_address == has_address
        && (has_address || library.address == 0);
    (!is_right).then(|| format!("library: {library:X?}\nits decoding: {decoded:?}"))
}
