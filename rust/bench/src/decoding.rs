//! Decodings per second.

use crate::inputs::Inputs;
use crate::timing::{medians, rate, ROUNDS};
use compare::decoding::{library_fields, reference_fields};
use std::hint::black_box;
use tarhuspo::features;

const INPUTS: usize = 8_192;
/// How often a round decodes each input.
const PASSES: usize = 50;

/// Prints the table. An error says where results differ.
pub fn print() -> Result<(), String> {
    println!(
        "decodings per second (more is faster), median of {ROUNDS} rounds of {}",
        INPUTS * PASSES
    );
    println!("one form: VPSHUFD of 512-bit registers, so that branches are predicted");
    println!(
        "{:10}{:>14}{:>14}{:>20}",
        "input", "library", "reference", "library/reference"
    );
    let inputs = [Inputs::accepted, Inputs::mixed, Inputs::one_form];
    for inputs in inputs.map(|make| make(INPUTS)) {
        let name = inputs.name;
        if !inputs.iter().all(agree) {
            return Err(format!("decoding, {name} inputs"));
        }
        let library = || time(&inputs, |code| tarhuspo::decode(code, features::ALL));
        let reference = || time(&inputs, |code| reference::decode(code, features::ALL));
        let rates = medians(&[&library, &reference]);
        let ratio = rates[0] / rates[1];
        println!("{name:10}{:>14.0}{:>14.0}{ratio:>20.2}", rates[0], rates[1]);
    }
    Ok(())
}

fn agree(code: &[u8]) -> bool {
    let library = tarhuspo::decode(code, features::ALL);
    let reference = reference::decode(code, features::ALL);
    library_fields(library) == reference_fields(reference)
}

fn time<T>(inputs: &Inputs, decode: impl Fn(&[u8]) -> T) -> f64 {
    rate(inputs.len() * PASSES, || {
        for _ in 0..PASSES {
            for code in inputs.iter() {
                black_box(decode(black_box(code)));
            }
        }
    })
}
