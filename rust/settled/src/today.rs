//! Today's library on an input of the base: one function for each entry point.
//!
//! Where a request changes a function's parameters, its result or its limits, these functions
//! follow it, and nothing else here does: each gives the library the base's input and turns what
//! comes back into the base's form of an answer, with the same numbers and a digest of the same
//! elements. What the base's form has no place for is given by functions of its own.

use crate::answer::Answer;
use crate::decoded::Decoded;
use crate::digest::Digest;
use crate::input::{Apply, Build, Compose, Decode, Input, Listing, Run, Step};

/// Calls the input's entry point.
pub fn answer(input: &Input) -> Answer {
    match input {
        Input::Decode(input) => decode(input),
        Input::Step(input) => step(input),
        Input::Run(input) => run(input),
        Input::Build(input) => build(input),
        Input::Apply(input) => apply(input),
        Input::Compose(input) => compose(input),
        Input::Listing(input) => listing(input),
    }
}

/// What request 3 gives beside the base's form: where an input was refused, and why.
#[derive(Debug, Clone, Copy, PartialEq, Eq)]
pub struct Refused {
    pub status: u32,
    /// Of the refused instruction in its list; 0 for one that stands alone.
    pub place: u64,
    pub reason: u32,
}

/// Calls the input's entry point; nothing for one that gives no reason.
pub fn refused(input: &Input) -> Option<Refused> {
    let (status, place, reason) = match input {
        Input::Decode(i) => {
            let decoded = tarhuspo::decode(&i.code, i.features);
            (decoded.status, 0, decoded.reason)
        }
        Input::Step(i) => {
            let step =
                |file: &mut [u8]| tarhuspo::step(&i.code, file, &i.masks, i.features, &i.memory);
            let (stepped, _) = i.file.call(step);
            (stepped.status, 0, stepped.reason)
        }
        Input::Run(i) => {
            let run =
                |file: &mut [u8]| tarhuspo::run(&i.code, file, &i.masks, i.features, i.budget);
            let (ran, _) = i.file.call(run);
            (ran.status, ran.place, ran.reason)
        }
        Input::Build(i) => {
            let build =
                |map: &mut [u16]| tarhuspo::bytemap_build(&i.code, &i.masks, i.features, map);
            let (built, _) = i.map.call(build);
            (built.status, built.place, built.reason)
        }
        Input::Apply(_) | Input::Compose(_) | Input::Listing(_) => return None,
    };
    Some(Refused {
        status,
        place,
        reason,
    })
}

/// What request 5 makes of a listing: a piece, with the place where the next one starts.
#[derive(Debug, Clone, Copy, PartialEq, Eq)]
pub struct Listed {
    pub status: u32,
    pub written: u64,
    pub next: u64,
    /// Whether lines remain.
    pub more: bool,
}

/// Lists into `text`, from a place of the code on.
pub fn listed(code: &[u8], place: usize, text: &mut [u8]) -> Listed {
    let listed = tarhuspo::listing(code, place, text);
    Listed {
        status: listed.status,
        written: listed.written,
        next: listed.next,
        more: listed.more,
    }
}

/// Decodes one instruction.
pub fn decoded(code: &[u8], features: u32) -> Decoded {
    let d = tarhuspo::decode(code, features);
    Decoded {
        status: d.status,
        length: d.length,
        memory: d.memory,
        mnemonic: d.mnemonic,
        bits: d.bits,
        evex: d.evex,
        destination: d.destination,
        first: d.first,
        third: d.third,
        mask: d.mask,
        zeroing: d.zeroing,
        broadcast: d.broadcast,
        has_immediate: d.has_immediate,
        immediate: d.immediate,
    }
}

/// Carries out one instruction, and gives status and length.
pub fn stepped(
    code: &[u8],
    file: &mut [u8],
    masks: &[u64],
    features: u32,
    memory: &[u8],
) -> (u32, u32) {
    let stepped = tarhuspo::step(code, file, masks, features, memory);
    (stepped.status, stepped.length)
}

/// Builds a map, and gives status and place.
pub fn built(code: &[u8], masks: &[u64], features: u32, map: &mut [u16]) -> (u32, u64) {
    let built = tarhuspo::bytemap_build(code, masks, features, map);
    (built.status, built.place)
}

fn decode(input: &Decode) -> Answer {
    let decoded = decoded(&input.code, input.features);
    Answer {
        status: decoded.status,
        numbers: vec![decoded.length.into()],
        digest: Digest::of(&decoded.fields()),
    }
}

fn step(input: &Step) -> Answer {
    let (code, masks, memory) = (&input.code, &input.masks, &input.memory);
    let ((status, length), digest) = input
        .file
        .call(|file| stepped(code, file, masks, input.features, memory));
    Answer {
        status,
        numbers: vec![length.into()],
        digest,
    }
}

fn run(input: &Run) -> Answer {
    let (code, masks, budget) = (&input.code, &input.masks, input.budget);
    let (ran, digest) = input
        .file
        .call(|file| tarhuspo::run(code, file, masks, input.features, budget));
    Answer {
        status: ran.status,
        numbers: vec![ran.steps, ran.place],
        digest,
    }
}

fn build(input: &Build) -> Answer {
    let (code, masks) = (&input.code, &input.masks);
    let ((status, place), digest) = input
        .map
        .call(|map| built(code, masks, input.features, map));
    Answer {
        status,
        numbers: vec![place],
        digest,
    }
}

fn apply(input: &Apply) -> Answer {
    let apply = |file: &mut [u8]| tarhuspo::bytemap_apply(&input.map, file);
    let (status, digest) = input.file.call(apply);
    Answer {
        status,
        numbers: vec![],
        digest,
    }
}

fn compose(input: &Compose) -> Answer {
    let (first, second) = (&input.first, &input.second);
    let (status, digest) = input
        .out
        .call(|out| tarhuspo::bytemap_compose(first, second, out));
    Answer {
        status,
        numbers: vec![],
        digest,
    }
}

/// From place 0, since the base's listings have no place.
fn listing(input: &Listing) -> Answer {
    let (listed, digest) = input.text.call(|text| listed(&input.code, 0, text));
    Answer {
        status: listed.status,
        numbers: vec![listed.written],
        digest,
    }
}
