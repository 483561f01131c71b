//! Inputs of every entry point, valid and damaged, with the results of the reference.
//!
//! The Rattle program `vectors` reads the inputs, calls the proved library, and has to write these
//! results. All seeds are fixed, so that every run makes the same files.

#![forbid(unsafe_code)]

pub mod address;
pub mod decode;
pub mod digest;
pub mod layout;
pub mod lists;
pub mod maker;
pub mod maps;
pub mod piece;
pub mod pools;
pub mod section;
pub mod step;
pub mod stored;

use layout::Record;
use lists::{Build, ListInput, Listing, Run};
use maps::{Apply, Compose};
use pools::Pools;
use section::{samples, Input, Samples, Section};
use stored::File;

/// Everything that is generated.
pub struct Vectors {
    pub files: Vec<File>,
    pub sections: Vec<Section>,
}

impl Vectors {
    pub fn generate() -> Vectors {
        let pools = Pools::new(1);
        let lists = list_inputs();
        let sections = sections(&pools, &lists);
        let mut files = vec![
            File::data("pools", pools.stored()),
            File::data("lists", list_data(&lists)),
        ];
        for section in &sections {
            files.push(File::data(section.name, section.data.clone()));
        }
        let text = expected_text(&pools, &sections);
        files.push(File::new("stdout", text.into_bytes()));
        Vectors { files, sections }
    }
}

pub fn decode_inputs() -> Samples<decode::Decode> {
    samples(2, &decode::KINDS, own_record)
}

pub fn step_inputs() -> Samples<step::Step> {
    samples(3, &step::KINDS, own_record)
}

pub fn list_inputs() -> Samples<ListInput> {
    samples(4, &lists::KINDS, lists::keys)
}

pub fn apply_inputs() -> Samples<Apply> {
    samples(5, &maps::APPLY_KINDS, own_record)
}

pub fn compose_inputs() -> Samples<Compose> {
    samples(6, &maps::COMPOSE_KINDS, own_record)
}

pub fn address_inputs() -> Samples<address::Address> {
    samples(7, &address::KINDS, own_record)
}

fn own_record<I: Input>(input: &I) -> Vec<Vec<u8>> {
    vec![input.record().0]
}

fn sections(pools: &Pools, lists: &Samples<ListInput>) -> Vec<Section> {
    let mut decode = Section::new("decode", &decode::STATUSES);
    decode.add_all(decode_inputs(), pools);
    let mut step = Section::new("step", &step::STATUSES);
    step.add_all(step_inputs(), pools);
    let mut run = Section::new("run", &lists::RUN_STATUSES);
    let mut build = Section::new("build", &lists::BUILD_STATUSES);
    let mut listing = Section::new("listing", &lists::LISTING_STATUSES);
    for (kind, inputs) in lists {
        run.add(kind, inputs.iter().map(Run), pools);
        build.add(kind, inputs.iter().map(Build), pools);
        listing.add(kind, inputs.iter().map(Listing), pools);
    }
    let mut apply = Section::new("apply", &maps::STATUSES);
    apply.add_all(apply_inputs(), pools);
    let mut compose = Section::new("compose", &maps::STATUSES);
    compose.add_all(compose_inputs(), pools);
    let mut address = Section::new("address", &address::STATUSES);
    address.add_all(address_inputs(), pools);
    vec![decode, step, run, build, apply, compose, listing, address]
}

fn list_data(lists: &Samples<ListInput>) -> Vec<u8> {
    let inputs = lists.iter().flat_map(|(_, inputs)| inputs);
    let mut data = Record::default();
    for input in inputs {
        data = data.code(&input.code);
    }
    data.0
}

/// What the program has to write.
fn expected_text(pools: &Pools, sections: &[Section]) -> String {
    let mut text = format!("pools {}\n", pools.stored().len());
    for section in sections {
        text += &section.results;
        text += &format!("{} {}\n", section.name, section.counts().sum());
    }
    text
}
