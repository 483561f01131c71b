//! Addresses of memory operands per second.

use crate::inputs::Inputs;
use crate::timing::{medians, rate, ROUNDS};
use compare::random::Random;
use std::hint::black_box;
use tarhuspo::features;
use tarhuspo::limits::GPR_COUNT;

const INPUTS: usize = 8_192;
/// How often a round works out each address.
const PASSES: usize = 50;

/// General registers, and where the instructions are.
struct Place {
    registers: [u64; GPR_COUNT],
    address: u64,
}

/// Prints the table. An error says where results differ.
pub fn print() -> Result<(), String> {
    println!(
        "addresses per second (more is faster), decoding included, median of {ROUNDS} rounds of {}",
        INPUTS * PASSES
    );
    println!(
        "{:10}{:>14}{:>14}{:>20}",
        "input", "library", "reference", "library/reference"
    );
    let place = Place::random();
    for inputs in [Inputs::memory(INPUTS), Inputs::mixed(INPUTS)] {
        let name = inputs.name;
        if !inputs.iter().all(|code| place.agree(code)) {
            return Err(format!("addresses, {name} inputs"));
        }
        let library = || place.time(&inputs, tarhuspo::address);
        let reference = || place.time(&inputs, reference::address);
        let rates = medians(&[&library, &reference]);
        let ratio = rates[0] / rates[1];
        println!("{name:10}{:>14.0}{:>14.0}{ratio:>20.2}", rates[0], rates[1]);
    }
    Ok(())
}

impl Place {
    fn random() -> Place {
        let mut random = Random::new(6);
        Place {
            registers: [(); GPR_COUNT].map(|()| random.number()),
            address: random.number(),
        }
    }

    fn agree(&self, code: &[u8]) -> bool {
        let library = tarhuspo::address(code, features::ALL, &self.registers, self.address);
        let reference = reference::address(code, features::ALL, &self.registers, self.address);
        let by_library = (library.status, library.reason, library.has_address);
        let by_reference = (reference.status, reference.reason, reference.has_address);
        by_library == by_reference && library.address == reference.address
    }

    fn time<T>(&self, inputs: &Inputs, address: fn(&[u8], u32, &[u64], u64) -> T) -> f64 {
        rate(inputs.len() * PASSES, || {
            for _ in 0..PASSES {
                for code in inputs.iter() {
                    let place = black_box(self);
                    let code = black_box(code);
                    black_box(address(
                        code,
                        features::ALL,
                        &place.registers,
                        place.address,
                    ));
                }
            }
        })
    }
}
