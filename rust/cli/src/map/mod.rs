//! `tarhuspo map`: byte maps, built, applied, composed and shown.

mod colours;
mod drawing;

use crate::answer::{refusal, refusal_at, Answer, Failure};
use crate::features;
use crate::input::{self, note_masks, Inputs};
use crate::options::{expected, Known, Options, FEATURES, HEX, MASKS, OUT, REGISTERS};
use crate::output;
use crate::places::{runs, span, Run, Source};
use std::ffi::{OsStr, OsString};
use tarhuspo::limits::{FILE_SIZE, MAP_SIZE, MASK_COUNT};
use tarhuspo::Built;

const SVG: Known = Known::with("--svg", "a file name");

pub fn run(words: &[OsString]) -> Result<Answer, Failure> {
    let what = "build, apply, compose or show after 'map'";
    let (first, rest) = words
        .split_first()
        .ok_or_else(|| format!("expected {what}"))?;
    match first.to_str() {
        Some("build") => build(rest),
        Some("apply") => apply(rest),
        Some("compose") => compose(rest),
        Some("show") => show(rest),
        _ => Err(expected(what, &first.to_string_lossy()).into()),
    }
}

/// What besides the code decides its map.
pub struct Setting {
    masks: [u64; MASK_COUNT],
    pub features: u32,
}

impl Setting {
    pub fn given(options: &Options, inputs: &mut Inputs) -> Result<Setting, String> {
        Ok(Setting {
            masks: inputs.masks(options)?,
            features: features::given(options)?,
        })
    }
}

/// The map of a list, or the refusal.
pub fn built(code: &[u8], setting: &Setting) -> Result<Vec<u16>, Built> {
    let mut map = vec![0; MAP_SIZE];
    let built = tarhuspo::bytemap_build(code, &setting.masks, setting.features, &mut map);
    match built.status {
        0 => Ok(map),
        _ => Err(built),
    }
}

fn build(words: &[OsString]) -> Result<Answer, Failure> {
    let options = Options::parse(words, &[HEX, MASKS, FEATURES, OUT])?;
    let mut inputs = Inputs::new(&options);
    let code = inputs.code(options.only("one list of instructions")?)?;
    let setting = Setting::given(&options, &mut inputs)?;
    note_masks(&options, [&code].into_iter(), setting.features);
    let map = built(&code, &setting)
        .map_err(|built| Failure::Refused(refusal_at(built.place, built.status, built.reason)))?;
    Ok(output::bytes(&options, "maps", as_bytes(&map))?)
}

fn apply(words: &[OsString]) -> Result<Answer, Failure> {
    let options = Options::parse(words, &[REGISTERS, OUT])?;
    let word = options.only("one map")?;
    let registers = options.value(&REGISTERS);
    let registers = registers.ok_or("expected --registers FILE, to apply the map to")?;
    let mut inputs = Inputs::new(&options);
    let map = accepted_map(&mut inputs, word)?;
    let mut file = inputs.registers(registers)?;
    accepted(tarhuspo::bytemap_apply(&map, &mut file))?;
    Ok(output::bytes(&options, "registers", file)?)
}

fn compose(words: &[OsString]) -> Result<Answer, Failure> {
    let options = Options::parse(words, &[OUT])?;
    let (first, others) = match &options.operands[..] {
        [first, others @ ..] if !others.is_empty() => (first, others),
        _ => return Err("expected two or more maps, in the order of applying".into()),
    };
    let mut inputs = Inputs::new(&options);
    let mut map = accepted_map(&mut inputs, first)?;
    for word in others {
        let (next, mut both) = (accepted_map(&mut inputs, word)?, vec![0; MAP_SIZE]);
        accepted(tarhuspo::bytemap_compose(&map, &next, &mut both))?;
        map = both;
    }
    Ok(output::bytes(&options, "maps", as_bytes(&map))?)
}

fn show(words: &[OsString]) -> Result<Answer, Failure> {
    let options = Options::parse(words, &[SVG])?;
    let mut inputs = Inputs::new(&options);
    let runs = runs(&accepted_map(&mut inputs, options.only("one map")?)?);
    match options.value(&SVG) {
        Some(path) if path == "-" => Ok(Answer::text(drawing::svg(&runs))),
        Some(path) => Ok(Answer {
            file: Some((path.into(), drawing::svg(&runs).into_bytes())),
            ..Answer::text(moves(&runs))
        }),
        None => Ok(Answer::text(moves(&runs))),
    }
}

/// Reads a map, and lets the library look at its entries, by applying it to some registers.
fn accepted_map(inputs: &mut Inputs, word: &OsStr) -> Result<Vec<u16>, Failure> {
    let map = inputs.map(word)?;
    match tarhuspo::bytemap_apply(&map, &mut [0; FILE_SIZE]) {
        0 => Ok(map),
        status => {
            let (name, refusal) = (input::name(word), refusal(status));
            Err(Failure::Refused(format!("{name}: {refusal}")))
        }
    }
}

/// A line for each run of bytes that do not stay as they are.
fn moves(runs: &[Run]) -> String {
    let lines: String = runs.iter().filter_map(line).collect();
    if lines.is_empty() {
        return "nothing moves: every byte stays as it is\n".to_string();
    }
    lines
}

fn line(run: &Run) -> Option<String> {
    let bytes = span(run.start, run.length);
    match run.source {
        Source::Kept => None,
        Source::Zero => Some(format!("{bytes} zero\n")),
        Source::From(from) => Some(format!("{bytes} from {}\n", span(from, run.length))),
    }
}

fn accepted(status: u32) -> Result<(), Failure> {
    match status {
        0 => Ok(()),
        _ => Err(Failure::Refused(refusal(status))),
    }
}

fn as_bytes(map: &[u16]) -> Vec<u8> {
    map.iter().copied().flat_map(u16::to_le_bytes).collect()
}
