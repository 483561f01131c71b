//! Comparison of a refused instruction by every entry point that takes code: decoding, address, step,
//! run, build and listing. What is expected comes from whoever made the instruction.

use crate::feature_sets;
use crate::limits::features::{ALL, SETS};
use crate::lists::{List, Mix};
use crate::random::Random;
use crate::tally::{Counts, Reasons};
use crate::{addressing, building, decoding, listings, running, stepping};
use std::collections::BTreeMap;
use tarhuspo::limits::TEXT_LEAST;
use tarhuspo::{Addressed, Built, Ran, Stepped};

/// Status and reason.
pub type Answer = (u32, u32);

/// An instruction, and what it answers.
pub struct Input<'a> {
    /// The bytes that are passed, and those that follow them in memory.
    pub code: &'a [u8],
    pub behind: &'a [u8],
    pub features: u32,
    /// A refusal with all features, as a listing decodes it: 2, 3 or 4.
    pub answer: Answer,
}

impl Input<'_> {
    /// The answer of the entry points that take features.
    fn answer(&self) -> Answer {
        match feature_sets::passes(self.features) {
            true => self.answer,
            false => (1, 0),
        }
    }
}

/// A comparison for each entry point.
pub struct Comparison {
    pub decoding: decoding::Comparison,
    addressing: addressing::Comparison,
    stepping: stepping::Comparison,
    running: running::Comparison,
    building: building::Comparison,
    listings: listings::Comparison,
    /// Steps that run and map accept, for every set of features that passes.
    mixes: BTreeMap<u32, Mix>,
    /// By status, all entry points together. A listing counts with its last line.
    pub counts: Counts,
}

impl Default for Comparison {
    fn default() -> Comparison {
        Comparison {
            decoding: decoding::Comparison::default(),
            addressing: addressing::Comparison::default(),
            stepping: stepping::Comparison::default(),
            running: running::Comparison::default(),
            building: building::Comparison::default(),
            listings: listings::Comparison::default(),
            mixes: SETS.map(|set| (set, Mix::mappable(set))).into(),
            counts: Counts::default(),
        }
    }
}

impl Comparison {
    /// Compares by all entry points.
    ///
    /// # Panics
    ///
    /// If library and reference differ in any part of a result or a buffer, or if one of the answers
    /// is not what the input says.
    pub fn check(&mut self, input: &Input, random: &mut Random) {
        self.check_decoding(input);
        self.check_address(input, random);
        self.check_step(input, random);
        let list = self.list_before(input.features, random);
        self.check_run(&list, input, random);
        self.check_build(&list, input, random);
        self.check_listing(&list, input, random);
    }

    fn check_decoding(&mut self, input: &Input) {
        let whole = [input.code, input.behind].concat();
        let decoded = self
            .decoding
            .check_part(&whole, input.code.len(), input.features);
        let answer = (decoded.status, decoded.reason);
        assert_eq!(answer, input.answer(), "{:02X?}", input.code);
        self.counts.add(answer.0);
    }

    fn check_address(&mut self, input: &Input, random: &mut Random) {
        let mut case = addressing::Case::new(random);
        case.code = input.code.to_vec();
        case.behind = input.behind.to_vec();
        case.features = input.features;
        let (status, reason) = input.answer();
        let expected = Addressed {
            address: 0,
            status,
            reason,
            has_address: false,
        };
        assert_eq!(self.addressing.check(&case), expected, "{case}");
        self.counts.add(status);
    }

    /// Under a memory operand of any length: the code's faults come first.
    fn check_step(&mut self, input: &Input, random: &mut Random) {
        let mut case = stepping::Case::new(random);
        let memory = random.pick(&[0, 4, 64]);
        case.set_code(input.code.to_vec(), memory, random);
        case.behind = input.behind.to_vec();
        case.features = input.features;
        let (status, reason) = input.answer();
        let expected = Stepped {
            status,
            length: 0,
            reason,
        };
        assert_eq!(self.stepping.check_whole(&case), expected, "{case}");
        self.counts.add(status);
    }

    /// Up to three accepted steps, none if these features have none. With features that answer 1,
    /// steps that all features together accept.
    fn list_before(&self, features: u32, random: &mut Random) -> List {
        let mix = self.mixes.get(&features);
        match mix.unwrap_or(&self.mixes[&ALL]) {
            mix if mix.is_empty() => List::default(),
            mix => mix.list(random.below(4), random),
        }
    }

    fn check_run(&mut self, list: &List, input: &Input, random: &mut Random) {
        let mut case = running::Case::new(random);
        case.code = [&list.code, input.code].concat();
        case.behind = input.behind.to_vec();
        case.features = input.features;
        let (status, reason) = end_of_list(input, input.answer());
        let at_once = status == 1;
        let expected = Ran {
            steps: if at_once { 0 } else { list.count() as u64 },
            place: if at_once { 0 } else { list.code.len() as u64 },
            status,
            reason,
        };
        assert_eq!(self.running.check(&case), expected, "{case}");
        self.counts.add(status);
    }

    fn check_build(&mut self, list: &List, input: &Input, random: &mut Random) {
        let mut case = building::Case::new(random);
        case.code = [&list.code, input.code].concat();
        case.behind = input.behind.to_vec();
        case.features = input.features;
        let (status, reason) = end_of_list(input, input.answer());
        let place = if status == 1 { 0 } else { list.code.len() };
        let expected = Built {
            place: place as u64,
            status,
            reason,
        };
        assert_eq!(self.building.check(&case), expected, "{case}");
        self.counts.add(status);
    }

    /// Features do not count here.
    fn check_listing(&mut self, list: &List, input: &Input, random: &mut Random) {
        let mut case = listings::Case::new(&[&list.code, input.code].concat());
        case.behind = input.behind.to_vec();
        case.old = random.byte();
        let place = list.code.len();
        let (status, reason) = end_of_list(input, input.answer);
        let line = match status {
            0 => String::new(),
            4 => format!("{place}\t0\t-\t0\t4:{reason}\n"),
            _ => format!("{place}\t0\t-\t0\t{status}\n"),
        };
        let lines = 1 + list.count() + usize::from(status != 0);
        self.check_piece(&case, lines, &line);
        // From its place on, with the headings if that is 0.
        case.place = place;
        case.text_size = TEXT_LEAST;
        let lines = usize::from(place == 0) + usize::from(status != 0);
        self.check_piece(&case, lines, &line);
        self.counts.add(status);
    }

    /// A piece up to the refused instruction's line, or without one up to the end.
    fn check_piece(&mut self, case: &listings::Case, lines: usize, last: &str) {
        let listed = self.listings.check(case);
        let text = self.listings.written(listed);
        assert_eq!(text.lines().count(), lines, "{case}\n{text}");
        assert!(text.ends_with(last), "{case}\n{text}");
        let place = last.split('\t').next().and_then(|at| at.parse().ok());
        let next = place.unwrap_or(case.code.len() as u64);
        assert_eq!((listed.next, listed.more), (next, false), "{case}");
    }

    /// The reasons that each entry point gave.
    pub fn reasons(&self) -> [(&'static str, Reasons); 6] {
        let mut decoding = Reasons::default();
        for reasons in self.decoding.reasons.values() {
            decoding.merge(reasons);
        }
        [
            ("decode", decoding),
            ("address", self.addressing.reasons),
            ("step", self.stepping.reasons),
            ("run", self.running.reasons),
            ("build", self.building.reasons),
            ("listing", self.listings.reasons),
        ]
    }
}

/// The answer of a list with the input at its end: 0 if no byte of the input is there.
fn end_of_list(input: &Input, answer: Answer) -> Answer {
    match (input.code, answer) {
        ([], (2, _)) => (0, 0),
        _ => answer,
    }
}
