//! The command `vectors`: writes the stored vectors again, or compares them.

use inputs::tally::{Reasons, Table};
use std::env;
use std::process::ExitCode;
use vectors::layout::INPUTS;
use vectors::stored;
use vectors::Vectors;

const HELP: &str = "\
usage: vectors [--check]

Makes the inputs of every entry point and the reference's results, prints how many
there are of each kind and status, and writes them to crates/vectors. With --check
it writes nothing, and fails if what is stored there is something else.";

fn main() -> ExitCode {
    let arguments: Vec<_> = env::args().skip(1).collect();
    let arguments: Vec<_> = arguments.iter().map(String::as_str).collect();
    match arguments[..] {
        [] => write(),
        ["--check"] => check(),
        ["--help"] => {
            println!("{HELP}");
            ExitCode::SUCCESS
        }
        _ => {
            eprintln!("{HELP}");
            ExitCode::from(2)
        }
    }
}

fn write() -> ExitCode {
    let vectors = generate();
    match stored::write(&vectors.files, &stored::folder()) {
        Ok(()) => {
            let size: usize = vectors.files.iter().map(stored::File::size).sum();
            println!("{} files written, {size} bytes", vectors.files.len());
            ExitCode::SUCCESS
        }
        Err(e) => {
            eprintln!("the vectors cannot be written: {e}");
            ExitCode::FAILURE
        }
    }
}

fn check() -> ExitCode {
    let vectors = generate();
    let differences = stored::differences(&vectors.files, &stored::folder());
    for difference in &differences {
        eprintln!("{difference}");
    }
    if !differences.is_empty() {
        return ExitCode::FAILURE;
    }
    println!("{} files compared, no difference", vectors.files.len());
    ExitCode::SUCCESS
}

fn generate() -> Vectors {
    let vectors = Vectors::generate();
    for section in &vectors.sections {
        let mut table = Table::new(section.name, section.statuses);
        for &(kind, counts) in &section.kinds {
            table.line(kind, counts);
        }
        table.finish(INPUTS as u64);
        println!();
    }
    Reasons::print_head("reasons");
    let with_reasons = vectors.sections.iter().filter(|s| s.reasons.sum() > 0);
    for section in with_reasons {
        section.reasons.print(section.name);
    }
    println!();
    vectors
}
