//! `tarhuspo run`: a list of instructions on a register file.

use crate::answer::{in_words, Answer, Failure};
use crate::features;
use crate::input::{note_masks, Inputs};
use crate::options::{Known, Options, FEATURES, HEX, MASKS, OUT, REGISTERS};
use crate::places::{range, REGISTER_SIZE};
use std::ffi::{OsStr, OsString};
use std::path::PathBuf;
use tarhuspo::limits::{FILE_SIZE, MOST_STEPS};
use tarhuspo::Ran;

const BUDGET: Known = Known::with("--budget", "a number of steps");
const KEEP_STEPS: Known = Known::flag("--keep-steps");
const OPTIONS: [Known; 7] = [HEX, REGISTERS, MASKS, FEATURES, BUDGET, OUT, KEEP_STEPS];

pub fn run(words: &[OsString]) -> Result<Answer, Failure> {
    let options = Options::parse(words, &OPTIONS)?;
    let out = Out::given(&options)?;
    let mut inputs = Inputs::new(&options);
    let code = inputs.code(options.only("one list of instructions")?)?;
    let before = match options.value(&REGISTERS) {
        Some(word) => inputs.registers(word)?,
        None => vec![0; FILE_SIZE],
    };
    let masks = inputs.masks(&options)?;
    let features = features::given(&options)?;
    note_masks(&options, [&code].into_iter(), features);
    let budget = options.number(&BUDGET)?.unwrap_or(MOST_STEPS);

    let mut file = before.clone();
    let ran = tarhuspo::run(&code, &mut file, &masks, features, budget);
    let text = report(&ran, code.len(), &before, &file);
    let (line, file) = match out {
        Some(out) => (out.line(&ran), out.file(&ran, file)),
        None => (String::new(), None),
    };
    Ok(Answer {
        file,
        ..Answer::text(text + &line).refused_if(ran.status != 0)
    })
}

/// Where the registers go afterwards.
struct Out<'a> {
    path: &'a OsStr,
    /// Also if a step is refused.
    keeps_steps: bool,
}

impl<'a> Out<'a> {
    fn given(options: &Options<'a>) -> Result<Option<Out<'a>>, String> {
        let keeps_steps = options.has(&KEEP_STEPS);
        match options.value(&OUT) {
            Some(path) if path == "-" => {
                Err("expected a file name after --out: standard output has the report".to_string())
            }
            // Otherwise the steps that are to be kept would be lost.
            None if keeps_steps => {
                Err("expected --out FILE with --keep-steps, to keep them in".to_string())
            }
            path => Ok(path.map(|path| Out { path, keeps_steps })),
        }
    }

    /// What a refused run says about the file.
    fn line(&self, ran: &Ran) -> String {
        let plural = if ran.steps == 1 { "" } else { "s" };
        let registers = format!("the registers after {} step{plural}", ran.steps);
        match (ran.status, self.keeps_steps) {
            (0, _) => String::new(),
            (_, true) => format!("out:     holds {registers}\n"),
            (_, false) => format!("out:     not written; --keep-steps would write {registers}\n"),
        }
    }

    fn file(&self, ran: &Ran, registers: Vec<u8>) -> Option<(PathBuf, Vec<u8>)> {
        let is_written = ran.status == 0 || self.keeps_steps;
        is_written.then(|| (self.path.into(), registers))
    }
}

fn report(ran: &Ran, length: usize, before: &[u8], after: &[u8]) -> String {
    let (steps, place) = (ran.steps, ran.place);
    let answer = match ran.status {
        0 if place == length as u64 => "0: The end of the code was reached.".to_string(),
        0 => "0: The budget was spent.".to_string(),
        status => in_words(status, ran.reason),
    };
    let changed = changed(steps, before, after);
    format!(
        "steps:   {steps}\n\
         place:   {place} of {length}\n\
         answer:  {answer}\n\
         changed: {changed}\n"
    )
}

/// The registers that are not as before, each with the bytes that are not.
fn changed(steps: u64, before: &[u8], after: &[u8]) -> String {
    let pairs = before
        .chunks(REGISTER_SIZE)
        .zip(after.chunks(REGISTER_SIZE));
    let registers = pairs.enumerate().filter_map(|(number, (before, after))| {
        let bytes = changed_bytes(before, after)?;
        Some(format!("zmm{number} ({bytes})"))
    });
    let registers: Vec<_> = registers.collect();
    match registers[..] {
        [] if steps > 0 && before.iter().all(|byte| *byte == 0) => {
            "none, as all registers were zero (see --registers)".to_string()
        }
        [] => "none".to_string(),
        _ => registers.join(", "),
    }
}

/// The bytes of one register that differ, as in `bytes 0..3, 8`, or nothing.
fn changed_bytes(before: &[u8], after: &[u8]) -> Option<String> {
    let mut runs: Vec<(usize, usize)> = Vec::new();
    let differing = (0..before.len()).filter(|byte| before[*byte] != after[*byte]);
    for byte in differing {
        match runs.last_mut() {
            Some((first, length)) if *first + *length == byte => *length += 1,
            _ => runs.push((byte, 1)),
        }
    }
    let ranges: Vec<_> = runs.iter().map(|(first, n)| range(*first, *n)).collect();
    match runs[..] {
        [] => None,
        [(byte, 1)] => Some(format!("byte {byte}")),
        _ => Some(format!("bytes {}", ranges.join(", "))),
    }
}
