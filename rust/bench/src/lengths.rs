//! Lists by their bytes, up to the longest: what a step or a line costs, as they grow.

use crate::calls::{unpacks, Input, Operation, APPLY, BUILD, LIST, RUN};
use crate::timing::ROUNDS;
use compare::lists::Mix;
use compare::random::Random;
use tarhuspo::features;
use tarhuspo::limits::CODE_LIMIT;

const LENGTHS: [usize; 3] = [CODE_LIMIT / 16, CODE_LIMIT / 4, CODE_LIMIT];

/// Prints the table. An error says where results differ.
pub fn print() -> Result<(), String> {
    println!(
        "microseconds per call by the bytes of a list (less is faster), median of {ROUNDS} rounds"
    );
    println!("call list: the whole listing in one piece, which has a line for each step");
    println!(
        "{:12}{:8}{:>7}{:>7}{:>11}{:>12}{:>20}{:>18}{:>20}",
        "list",
        "call",
        "bytes",
        "steps",
        "library",
        "reference",
        "library/reference",
        "library ns/step",
        "reference ns/step"
    );
    let mut random = Random::new(7);
    let unpacks = LENGTHS.map(|length| Input::new("vunpcklps", unpacks(length / 4, &mut random)));
    let mix = Mix::mappable(features::ALL);
    let mixed = LENGTHS.map(|length| Input::new("mixed", mix.list_of_length(length, &mut random)));
    for inputs in [unpacks, mixed] {
        for operation in [RUN, BUILD, LIST, APPLY] {
            inputs
                .iter()
                .try_for_each(|input| print_line(input, operation))?;
        }
    }
    Ok(())
}

fn print_line(input: &Input, operation: Operation) -> Result<(), String> {
    let (bytes, steps) = (input.list.code.len(), input.list.count());
    let times = input.times(operation)?;
    let [library, reference] = times;
    let per_step = times.map(|time| match operation.goes_by_steps {
        true => format!("{:.1}", 1e3 * time / steps as f64),
        false => "-".to_string(),
    });
    println!(
        "{:12}{:8}{bytes:>7}{steps:>7}{library:>11.2}{reference:>12.2}{:>20.2}{:>18}{:>20}",
        input.name,
        operation.name,
        library / reference,
        per_step[0],
        per_step[1]
    );
    Ok(())
}
