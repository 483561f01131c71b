//! Comparison of building byte maps: the result, and every element of every buffer.

use crate::display;
use crate::guard::Guarded;
use crate::instructions::Instructions;
use crate::limits::features;
use crate::mapping::any_entries;
use crate::random::Random;
use crate::state::refill_masks;
use crate::tally::{Counts, Reasons};
use std::fmt;
use tarhuspo::limits::MAP_SIZE;
use tarhuspo::Built;

/// The inputs of building.
#[derive(Clone)]
pub struct Case {
    pub code: Vec<u8>,
    /// Bytes that follow the code in memory and are not passed.
    pub behind: Vec<u8>,
    pub masks: Vec<u64>,
    pub features: u32,
    /// What the map holds before.
    pub map: Vec<u16>,
}

impl Case {
    /// Random opmasks, every feature, any entries, and no code.
    pub fn new(random: &mut Random) -> Case {
        let mut case = Case {
            code: Vec::new(),
            behind: Vec::new(),
            masks: Vec::new(),
            features: features::ALL,
            map: Vec::new(),
        };
        case.refill(random);
        case
    }

    /// New opmasks and old entries, in the right number.
    pub fn refill(&mut self, random: &mut Random) {
        refill_masks(&mut self.masks, random);
        self.map.resize(MAP_SIZE, 0);
        any_entries(&mut self.map, random);
    }
}

impl fmt::Display for Case {
    fn fmt(&self, f: &mut fmt::Formatter) -> fmt::Result {
        writeln!(f, "{}", display::bytes("code", &self.code))?;
        writeln!(f, "{}", display::bytes("behind it", &self.behind))?;
        writeln!(f, "features: {:#x}", self.features)?;
        writeln!(f, "{}", display::masks(&self.masks))?;
        write!(f, "{}", display::entries("map", &self.map))
    }
}

/// Builds with the library and with the reference, and stops at the first difference.
#[derive(Default)]
pub struct Comparison {
    code: Guarded,
    masks: Guarded<u64>,
    map: Guarded<u16>,
    /// The map that the reference leaves.
    expected: Vec<u16>,
    /// The code of the case before, to count lists and not calls.
    last: Option<Vec<u8>>,
    pub lists: u64,
    pub counts: Counts,
    /// The reasons of status 4.
    pub reasons: Reasons,
    /// The steps of accepted lists.
    pub instructions: Instructions,
}

impl Comparison {
    /// Compares on `case`, and gives the result.
    ///
    /// # Panics
    ///
    /// If the results or the maps differ, if a refusal changed the map, if the place of an accepted
    /// list is not its length, if a reason comes with another status than 4, or if the library
    /// changed another buffer or elements around one.
    pub fn check(&mut self, case: &Case) -> Built {
        let library = self.build(case);
        self.expected.clone_from(&case.map);
        let reference = self.build_reference(case);
        if let Some(difference) = self.difference(case, library, reference) {
            panic!("{difference}\n{case}");
        }
        if self.last.as_ref() != Some(&case.code) {
            self.last = Some(case.code.clone());
            self.lists += 1;
        }
        self.counts.add(library.status);
        self.reasons.add(library.status, library.reason);
        if library.status == 0 {
            self.instructions.record_list(&case.code, case.features);
        }
        library
    }

    /// The map that the last call left.
    pub fn map(&self) -> &[u16] {
        &self.expected
    }

    fn build(&mut self, case: &Case) -> Built {
        tarhuspo::bytemap_build(
            self.code.fill_joined(&case.code, &case.behind),
            self.masks.fill(&case.masks),
            case.features,
            self.map.fill(&case.map),
        )
    }

    fn build_reference(&mut self, case: &Case) -> Built {
        let reference::Built {
            place,
            status,
            reason,
        } = reference::build(&case.code, &case.masks, case.features, &mut self.expected);
        Built {
            place,
            status,
            reason,
        }
    }

    fn difference(&self, case: &Case, library: Built, reference: Built) -> Option<String> {
        if library != reference {
            return Some(format!("library: {library:?}\nreference: {reference:?}"));
        }
        if library.status != 0 && !self.map.is_unchanged(&case.map) {
            return Some(format!("{library:?} changed the map"));
        }
        if library.status == 0 && library.place != case.code.len() as u64 {
            return Some(format!("{library:?} of an accepted list"));
        }
        if let Some(found) = self.map.difference(&self.expected) {
            return Some(format!("map after {library:?}: {found}"));
        }
        if let Some(found) = self.code.joined_difference(&case.code, &case.behind) {
            return Some(format!("code: {found}"));
        }
        let found = self.masks.difference(&case.masks)?;
        Some(format!("opmasks: {found}"))
    }
}
