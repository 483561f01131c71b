//! Time per step, for each instruction at each width, with and without an opmask, with each kind of
//! third operand.

use crate::operand::Operand;
use crate::steps::{Steps, INPUTS, PASSES, PROCESSOR_PASSES, SPECIALISED_PASSES};
use crate::summary::{print_summary, Line};
use crate::timing::ROUNDS;
use audit::{Capabilities, Processor};
use compare::encoding::Prefix;
use compare::form::Form;

/// Prints the table. An error says where results differ.
pub fn print() -> Result<(), String> {
    print_head();
    let capabilities = Capabilities::detect().ok();
    let mut processor = capabilities.and_then(|capabilities| Processor::new(capabilities).ok());
    let mut lines = Vec::new();
    for form in measured_forms() {
        let steps = Steps::new(form);
        if !steps.agree(processor.as_mut()) {
            return Err(format!("steps of {form:?}"));
        }
        let rates = steps.rates(processor.as_mut());
        print_line(form, &rates);
        lines.push(Line {
            bits: 8 * form.bytes(),
            operand: Operand::of(form),
            ratio: rates[1] / rates[0],
        });
    }
    print_summary(&lines);
    Ok(())
}

fn print_head() {
    println!(
        "ns per step (less is faster), median of {ROUNDS} rounds of {}; C {}, processor {}",
        INPUTS * PASSES,
        INPUTS * SPECIALISED_PASSES,
        INPUTS * PROCESSOR_PASSES
    );
    println!("library, reference: a call with the instruction's bytes, decoding included");
    println!("C: the same of a C function that knows no other form");
    println!(
        "processor: its own instructions, the same {INPUTS} back to back as machine code \
         (throughput);\n           - for memory forms, and where it lacks the instruction or \
         AVX-512"
    );
    println!(
        "{:24}{:>5}{:>8}  {:10}{:>9}{:>11}{:>9}{:>11}{:>19}",
        "instruction",
        "bits",
        "opmask",
        "operand",
        "library",
        "reference",
        "C",
        "processor",
        "library/reference"
    );
}

/// `rates` are those of library, reference, C and perhaps processor.
fn print_line(form: Form, rates: &[f64]) {
    let row = form.shape.row;
    let control = if row.immediate { "immediate" } else { "" };
    let name = format!("{} {control}", row.name);
    let opmask = if form.masked { "yes" } else { "no" };
    let column = |at: usize, digits: usize| match rates.get(at) {
        Some(rate) => format!("{:.digits$}", 1e9 / rate),
        None => "-".to_string(),
    };
    println!(
        "{name:24}{:>5}{opmask:>8}  {:10}{:>9}{:>11}{:>9}{:>11}{:>19.2}",
        8 * form.bytes(),
        Operand::of(form).name(),
        column(0, 1),
        column(1, 1),
        column(2, 1),
        column(3, 2),
        rates[1] / rates[0]
    );
}

/// The EVEX encoding where there is one, so that the opmask is the only difference of two
/// neighbouring lines. Masked-off elements are merged.
pub fn measured_forms() -> impl Iterator<Item = Form> {
    Form::all().into_iter().filter(|form| {
        let prefix = match form.shape.row.evex_w {
            Some(_) => Prefix::Evex,
            None => Prefix::Vex3,
        };
        form.shape.prefix == prefix && !form.zeroing
    })
}
