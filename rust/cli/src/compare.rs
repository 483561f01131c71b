//! `tarhuspo compare`: whether lists do the same, by their byte maps.

use crate::answer::{refusal_at, Answer, Failure};
use crate::input::{self, note_masks, Inputs};
use crate::map::{self, Setting};
use crate::options::{Known, Options, FEATURES, HEX, MASKS};
use crate::places::{span, Source};
use std::ffi::OsString;
use tarhuspo::limits::MAP_SIZE;

const OPTIONS: [Known; 3] = [HEX, MASKS, FEATURES];

/// A list, named by its number and where it came from, and its map or the refusal.
struct List {
    name: String,
    number: usize,
    map: Result<Vec<u16>, String>,
}

pub fn run(words: &[OsString]) -> Result<Answer, Failure> {
    let options = Options::parse(words, &OPTIONS)?;
    if options.operands.len() < 2 {
        return Err("expected two or more lists of instructions after 'compare'".into());
    }
    let mut inputs = Inputs::new(&options);
    let mut codes = Vec::new();
    for word in &options.operands {
        codes.push((input::name(word), inputs.code(word)?));
    }
    let setting = Setting::given(&options, &mut inputs)?;
    note_masks(
        &options,
        codes.iter().map(|(_, code)| code),
        setting.features,
    );
    let mut lists = Vec::new();
    for (number, (name, code)) in (1..).zip(codes) {
        lists.push(List::new(number, &name, &code, &setting));
    }
    Ok(compared(&lists))
}

impl List {
    fn new(number: usize, name: &str, code: &[u8], setting: &Setting) -> List {
        let map = map::built(code, setting);
        List {
            name: format!("list {number} ({name})"),
            number,
            map: map.map_err(|built| refusal_at(built.place, built.status, built.reason)),
        }
    }
}

/// Compares each list with the first. If that has no map, there is nothing to compare with.
fn compared(lists: &[List]) -> Answer {
    let (first, others) = (&lists[0], &lists[1..]);
    let map = match &first.map {
        Ok(map) => map,
        Err(refusal) => {
            return Answer::text(format!("{}: {refusal}\n", first.name)).refused_if(true)
        }
    };
    let (mut text, mut is_same) = (String::new(), true);
    for other in others {
        text += &match &other.map {
            Err(refusal) => format!("{}: {refusal}\n", other.name),
            Ok(second) => {
                let found = verdict(map, second, other.number);
                format!("{} and {}: {found}\n", first.name, other.name)
            }
        };
        is_same &= other.map.as_ref() == Ok(map);
    }
    Answer::text(text).refused_if(!is_same)
}

/// That two maps are equal, or where they first differ.
fn verdict(first: &[u16], second: &[u16], number: usize) -> String {
    let Some(place) = (0..MAP_SIZE).find(|place| first[*place] != second[*place]) else {
        return "same".to_string();
    };
    format!(
        "differ first in {}, which {} in list 1 and {} in list {number}",
        span(place, 1),
        origin(place, first[place]),
        origin(place, second[place])
    )
}

fn origin(place: usize, entry: u16) -> String {
    match Source::of(place, entry) {
        Source::Kept => "is kept".to_string(),
        Source::Zero => "is zero".to_string(),
        Source::From(from) => format!("comes from {}", span(from, 1)),
    }
}
