//! What is done with a list of instructions, by the library and by the reference.

use crate::timing::{medians, rate};
use compare::encoding::{Prefix, Shape};
use compare::lists::List;
use compare::random::Random;
use std::hint::black_box;
use tarhuspo::features;
use tarhuspo::limits::{CODE_LIMIT, FILE_SIZE, MAP_SIZE, MASK_COUNT, MOST_STEPS, TEXT_WHOLE};

/// Does something with a list, and gives the status.
type Call = fn(&Input, &mut Output) -> u32;

/// What is measured.
#[derive(Clone, Copy)]
pub struct Operation {
    pub name: &'static str,
    /// Whether it does something for each step of a list.
    pub goes_by_steps: bool,
    /// Those of the library and of the reference.
    calls: [Call; 2],
}

pub const RUN: Operation = Operation {
    name: "run",
    goes_by_steps: true,
    calls: [run_library, run_reference],
};
pub const BUILD: Operation = Operation {
    name: "build",
    goes_by_steps: true,
    calls: [build_library, build_reference],
};
pub const APPLY: Operation = Operation {
    name: "apply",
    goes_by_steps: false,
    calls: [apply_library, apply_reference],
};
/// The list's map with itself.
pub const COMPOSE: Operation = Operation {
    name: "compose",
    goes_by_steps: false,
    calls: [compose_library, compose_reference],
};
/// The whole listing, in one piece.
pub const LIST: Operation = Operation {
    name: "list",
    goes_by_steps: true,
    calls: [list_library, list_reference],
};

/// How many steps a round runs, builds or lists, and how often it applies or composes a map.
const STEPS: usize = 10 * MOST_STEPS as usize;
const APPLICATIONS: usize = 2_000;

/// A list with its map, and the masks.
pub struct Input {
    pub name: &'static str,
    pub list: List,
    map: [u16; MAP_SIZE],
    masks: [u64; MASK_COUNT],
    start: Output,
}

/// What the calls write to.
#[derive(Clone, PartialEq)]
struct Output {
    file: [u8; FILE_SIZE],
    map: [u16; MAP_SIZE],
    text: Vec<u8>,
    /// What a listing gives besides its status: written, next and more.
    listed: (u64, u64, bool),
}

/// VUNPCKLPS in its 4 bytes, with random registers. Few others are as short.
pub fn unpacks(steps: usize, random: &mut Random) -> List {
    let is_short = |shape: &Shape| shape.prefix == Prefix::Vex2 && shape.row.name == "VUNPCKLPS";
    let shapes = Shape::all().into_iter().filter(|shape| !shape.memory);
    let shapes: Vec<_> = shapes.filter(is_short).collect();
    let mut list = List::default();
    for _ in 0..steps {
        list.push(&random.pick(&shapes).encode(random));
    }
    list
}

impl Input {
    pub fn new(name: &'static str, list: List) -> Input {
        assert!(list.code.len() <= CODE_LIMIT, "{name} is too long");
        let mut random = Random::new(5);
        let mut file = [0; FILE_SIZE];
        random.fill(&mut file);
        let masks = [(); MASK_COUNT].map(|()| random.number());
        let mut map = [0; MAP_SIZE];
        reference::build(&list.code, &masks, features::ALL, &mut map);
        let start = Output {
            file,
            map: [0; MAP_SIZE],
            text: vec![0; TEXT_WHOLE],
            listed: (0, 0, false),
        };
        Input {
            name,
            list,
            map,
            masks,
            start,
        }
    }

    /// Microseconds for a call of the library and one of the reference. An error says that their
    /// results differ.
    pub fn times(&self, operation: Operation) -> Result<[f64; 2], String> {
        let (name, steps) = (self.name, self.list.count());
        let [by_library, by_reference] = operation.calls.map(|call| self.result(call));
        if by_library.0 != 0 || by_library != by_reference {
            return Err(format!("{} of {steps} steps of {name}", operation.name));
        }
        let repeats = match operation.goes_by_steps {
            true => STEPS / steps,
            false => APPLICATIONS,
        };
        let [library, reference] = operation.calls.map(|call| move || self.time(call, repeats));
        let rates = medians(&[&library, &reference]);
        Ok([1e6 / rates[0], 1e6 / rates[1]])
    }

    /// The status of one call, and what it leaves.
    fn result(&self, call: Call) -> (u32, Output) {
        let mut output = self.start.clone();
        let status = call(self, &mut output);
        (status, output)
    }

    /// Calls per second, each on what the one before it left.
    fn time(&self, call: Call, repeats: usize) -> f64 {
        let mut output = self.start.clone();
        rate(repeats, || {
            for _ in 0..repeats {
                black_box(call(black_box(self), black_box(&mut output)));
            }
        })
    }
}

fn run_library(input: &Input, output: &mut Output) -> u32 {
    let file = &mut output.file;
    tarhuspo::run(
        &input.list.code,
        file,
        &input.masks,
        features::ALL,
        MOST_STEPS,
    )
    .status
}

fn run_reference(input: &Input, output: &mut Output) -> u32 {
    let file = &mut output.file;
    reference::run(
        &input.list.code,
        file,
        &input.masks,
        features::ALL,
        MOST_STEPS,
    )
    .status
}

fn build_library(input: &Input, output: &mut Output) -> u32 {
    let map = &mut output.map;
    tarhuspo::bytemap_build(&input.list.code, &input.masks, features::ALL, map).status
}

fn build_reference(input: &Input, output: &mut Output) -> u32 {
    let map = &mut output.map;
    reference::build(&input.list.code, &input.masks, features::ALL, map).status
}

fn apply_library(input: &Input, output: &mut Output) -> u32 {
    tarhuspo::bytemap_apply(&input.map, &mut output.file)
}

fn apply_reference(input: &Input, output: &mut Output) -> u32 {
    reference::apply(&input.map, &mut output.file)
}

fn compose_library(input: &Input, output: &mut Output) -> u32 {
    tarhuspo::bytemap_compose(&input.map, &input.map, &mut output.map)
}

fn compose_reference(input: &Input, output: &mut Output) -> u32 {
    reference::compose(&input.map, &input.map, &mut output.map)
}

fn list_library(input: &Input, output: &mut Output) -> u32 {
    let listed = tarhuspo::listing(&input.list.code, 0, &mut output.text);
    output.listed = (listed.written, listed.next, listed.more);
    listed.status
}

fn list_reference(input: &Input, output: &mut Output) -> u32 {
    let listed = reference::listing(&input.list.code, 0, &mut output.text);
    output.listed = (listed.written, listed.next, listed.more);
    listed.status
}
