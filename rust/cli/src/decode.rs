//! `tarhuspo decode`: one instruction in words.

use crate::answer::{refusal_of, Answer, Failure};
use crate::operand::Operand;
use crate::options::{Options, FEATURES};
use crate::{assembler, features, input};
use std::ffi::OsString;

pub fn run(words: &[OsString]) -> Result<Answer, Failure> {
    let options = Options::parse(words, &[FEATURES])?;
    let code = input::instruction("decode", "C5 F9 70 CA 1B", &options)?;
    let decoded = tarhuspo::decode(&code, features::given(&options)?);
    if decoded.status != 0 {
        let refusal = refusal_of(decoded.status, decoded.reason);
        return Ok(Answer::text(refusal + "\n").refused_if(true));
    }
    let operand = Operand::of(&code, &decoded)?;
    Ok(Answer::text(assembler::described(
        &decoded,
        operand.as_ref(),
    )))
}
