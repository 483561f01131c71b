//! Speed of the proved library beside the reference, specialised C and the processor, on the same
//! inputs.
//!
//! Run with `cargo run --release --bin bench`. It reports, and judges nothing.

mod addressing;
mod calls;
mod decoding;
mod inputs;
mod lengths;
mod lists;
mod operand;
mod pieces;
mod specialised;
mod stepping;
mod steps;
mod summary;
mod timing;

use audit::detect::processor_name;
use std::process::ExitCode;

fn main() -> ExitCode {
    println!("processor: {}", processor_name());
    let tables = [
        decoding::print,
        addressing::print,
        stepping::print,
        lists::print,
        lengths::print,
        pieces::print,
    ];
    for print_table in tables {
        println!();
        if let Err(place) = print_table() {
            println!("results differ: {place}");
            return ExitCode::FAILURE;
        }
    }
    ExitCode::SUCCESS
}
