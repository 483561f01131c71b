//! The command `tarhuspo`. All decoding and moving, and every address, is the proved library's.

mod address;
mod answer;
mod assembler;
mod audit;
mod compare;
mod decode;
mod features;
mod general;
mod help;
mod hex;
mod input;
mod list;
mod map;
mod operand;
mod options;
mod output;
mod places;
mod run;

use answer::{Answer, Failure};
use help::Command;
use std::ffi::OsString;
use std::process::ExitCode;

/// Refused by the library, or different.
const REFUSED: u8 = 1;
/// Bad usage, or a file that cannot be read or written.
const USAGE: u8 = 2;
/// The command found itself wrong.
const INTERNAL: u8 = 3;

fn main() -> ExitCode {
    let words: Vec<_> = std::env::args_os().skip(1).collect();
    if words.is_empty() {
        output::complain(help::OVERVIEW);
        return ExitCode::from(USAGE);
    }
    match answer(&words).and_then(finish) {
        Ok(status) => status,
        Err(Failure::Usage(expected)) => {
            output::complain(&format!("tarhuspo: {expected}\n"));
            ExitCode::from(USAGE)
        }
        Err(Failure::Refused(refusal)) => {
            output::complain(&format!("tarhuspo: {refusal}\n"));
            ExitCode::from(REFUSED)
        }
        Err(Failure::Internal(slip)) => {
            output::complain(&format!("tarhuspo: {slip}\n"));
            ExitCode::from(INTERNAL)
        }
    }
}

fn answer(words: &[OsString]) -> Result<Answer, Failure> {
    let (first, rest) = words.split_first().ok_or_else(|| help::unknown(""))?;
    let first = first.to_str().ok_or("expected a command in UTF-8")?;
    if matches!(first, "--help" | "-h" | "help") {
        return help::asked(rest);
    }
    if first == "--version" {
        return help::version(rest);
    }
    let command = Command::named(first).ok_or_else(|| help::unknown(first))?;
    if options::asks_for_help(rest) {
        return Ok(Answer::text(command.help()));
    }
    (command.run)(rest)
}

/// Prints the text, and only then puts the file in its place: if anything fails, a file that was
/// there before is still there.
fn finish(answer: Answer) -> Result<ExitCode, Failure> {
    let file = match &answer.file {
        Some((path, bytes)) => Some(output::prepare(path, bytes)?),
        None => None,
    };
    output::print(&answer.text)?;
    if let Some(file) = file {
        file.put_in_place()?;
    }
    if answer.is_refused {
        return Ok(ExitCode::from(REFUSED));
    }
    Ok(ExitCode::SUCCESS)
}
