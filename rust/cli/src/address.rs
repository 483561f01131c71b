//! `tarhuspo address`: where an instruction's memory operand is.

use crate::answer::{refusal_of, Answer, Failure};
use crate::general::{General, GPR, NAMES};
use crate::operand::Operand;
use crate::options::{expected, Known, Options, FEATURES};
use crate::{assembler, features, hex, input};
use std::ffi::OsString;

const AT: Known = Known::with("--at", "the instruction's address");

pub fn run(words: &[OsString]) -> Result<Answer, Failure> {
    let options = Options::parse(words, &[AT, GPR, FEATURES])?;
    let code = input::instruction("address", "C5 F9 70 08 1B", &options)?;
    let features = features::given(&options)?;
    let general = General::given(&options)?;
    let at = at(&options)?;

    let registers = general.values();
    let addressed = tarhuspo::address(&code, features, &registers, at.unwrap_or(0));
    if addressed.status != 0 {
        let refusal = refusal_of(addressed.status, addressed.reason);
        return Ok(Answer::text(refusal + "\n").refused_if(true));
    }
    let decoded = tarhuspo::decode(&code, features);
    let Some(operand) = Operand::of(&code, &decoded)? else {
        let third = assembler::register(&decoded, decoded.third);
        let text = format!("no memory operand: the third operand is the register {third}\n");
        return Ok(Answer::text(text));
    };
    let next = at.unwrap_or(0).wrapping_add(u64::from(decoded.length));
    operand.hold(&registers, next, addressed.address)?;
    let mut text = line("address", &format!("{:#x}", addressed.address));
    text += &line("operand", &assembler::memory(&decoded, &operand));
    if operand.is_relative() {
        text += &line("rip", &rip(next, at));
    }
    for number in operand.registers() {
        text += &line(NAMES[number], &value(&general, number));
    }
    Ok(Answer::text(text))
}

fn at(options: &Options) -> Result<Option<u64>, String> {
    let Some(word) = options.value(&AT) else {
        return Ok(None);
    };
    let text = word.to_string_lossy();
    let what = "a number below 2^64 after --at, decimal or hex with 0x";
    let number = hex::number(&text).ok_or_else(|| expected(what, &text))?;
    Ok(Some(number))
}

fn line(name: &str, value: &str) -> String {
    format!("{:9}{value}\n", format!("{name}:"))
}

/// Says so if a number is one that nobody gave.
fn rip(next: u64, at: Option<u64>) -> String {
    match at {
        Some(_) => format!("{next:#x} (the next instruction)"),
        None => format!("{next:#x} (the next instruction; --at is not given)"),
    }
}

/// The same of a general register.
fn value(general: &General, number: usize) -> String {
    match general.is_given(number) {
        true => format!("{:#x}", general.values()[number]),
        false => "0x0 (not given)".to_string(),
    }
}
