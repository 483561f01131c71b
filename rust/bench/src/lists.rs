//! Lists of instructions by their steps: running one, building its byte map, applying that map, and
//! composing it with itself.

use crate::calls::{unpacks, Input, APPLY, BUILD, COMPOSE, RUN};
use crate::timing::ROUNDS;
use compare::lists::Mix;
use compare::random::Random;
use tarhuspo::features;

/// Prints the tables. An error says where results differ.
pub fn print() -> Result<(), String> {
    println!("microseconds per call (less is faster), median of {ROUNDS} rounds");
    println!(
        "{:12}{:>6}  {:8}{:>10}{:>12}{:>20}{:>18}",
        "list", "steps", "call", "library", "reference", "library/reference", "library ns/step"
    );
    let mut saved = Vec::new();
    for input in inputs() {
        let times = print_times(&input)?;
        saved.push((input.name, input.list.count(), times));
    }
    print_saved(&saved);
    Ok(())
}

/// Prints how the library's times for running, building and applying compare.
fn print_saved(saved: &[(&str, usize, [f64; 4])]) {
    println!("\nwhat a map that is kept saves, with the library");
    println!(
        "{:12}{:>6}{:>12}{:>24}",
        "list", "steps", "run/apply", "runs that pay a build"
    );
    for (name, steps, [run, build, apply, _]) in saved {
        let ratio = run / apply;
        // A build is paid for when the runs that it spares take longer than it and its applications.
        let paid = if run > apply {
            format!("{:.1}", build / (run - apply))
        } else {
            "never".to_string()
        };
        println!("{name:12}{steps:>6}{ratio:>12.2}{paid:>24}");
    }
}

/// Prints the lines of one list, and gives the library's times for the operations.
fn print_times(input: &Input) -> Result<[f64; 4], String> {
    let steps = input.list.count();
    let name = input.name;
    let mut times = [0.0; 4];
    for (time, operation) in times.iter_mut().zip([RUN, BUILD, APPLY, COMPOSE]) {
        let [library, reference] = input.times(operation)?;
        let ratio = library / reference;
        let per_step = 1e3 * library / steps as f64;
        println!(
            "{name:12}{steps:>6}  {:8}{library:>10.2}{reference:>12.2}{ratio:>20.2}\
             {per_step:>18.1}",
            operation.name
        );
        *time = library;
    }
    Ok(times)
}

/// Lists of growing length. The longest come last, and leave the others as they always were.
fn inputs() -> Vec<Input> {
    let mut random = Random::new(4);
    let mut inputs = Vec::new();
    for steps in [64, 128, 256, 512, 1_024] {
        inputs.push(Input::new("vunpcklps", unpacks(steps, &mut random)));
    }
    let mix = Mix::mappable(features::ALL);
    for steps in [64, 128, 256, 512] {
        inputs.push(Input::new("mixed", mix.list(steps, &mut random)));
    }
    inputs.push(Input::new("vunpcklps", unpacks(4_096, &mut random)));
    inputs.push(Input::new("mixed", mix.list(2_048, &mut random)));
    inputs
}
