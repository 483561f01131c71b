//! Comparison of runs: the result, and every byte of every buffer.

use crate::display;
use crate::guard::Guarded;
use crate::instructions::Instructions;
use crate::limits::features;
use crate::random::Random;
use crate::state::{refill_file, refill_masks};
use crate::tally::{Counts, Reasons};
use std::fmt;
use tarhuspo::limits::MOST_STEPS;
use tarhuspo::Ran;

/// The inputs of a run.
#[derive(Clone)]
pub struct Case {
    pub code: Vec<u8>,
    /// Bytes that follow the code in memory and are not passed.
    pub behind: Vec<u8>,
    pub file: Vec<u8>,
    pub masks: Vec<u64>,
    pub features: u32,
    pub budget: u64,
}

impl Case {
    /// Random registers and opmasks, every feature, a budget that reaches the end, and no code.
    pub fn new(random: &mut Random) -> Case {
        let mut case = Case {
            code: Vec::new(),
            behind: Vec::new(),
            file: Vec::new(),
            masks: Vec::new(),
            features: features::ALL,
            budget: MOST_STEPS,
        };
        case.refill(random);
        case
    }

    /// New registers and opmasks, in the right number.
    pub fn refill(&mut self, random: &mut Random) {
        refill_file(&mut self.file, random);
        refill_masks(&mut self.masks, random);
    }
}

impl fmt::Display for Case {
    fn fmt(&self, f: &mut fmt::Formatter) -> fmt::Result {
        writeln!(f, "{}", display::bytes("code", &self.code))?;
        writeln!(f, "{}", display::bytes("behind it", &self.behind))?;
        writeln!(f, "features: {:#x}, budget: {}", self.features, self.budget)?;
        writeln!(f, "{}", display::masks(&self.masks))?;
        write!(f, "{}", display::bytes("register file", &self.file))
    }
}

/// Runs with the library and with the reference, and stops at the first difference.
#[derive(Default)]
pub struct Comparison {
    code: Guarded,
    file: Guarded,
    masks: Guarded<u64>,
    /// The register file that the reference leaves.
    expected: Vec<u8>,
    /// The code of the case before, to count lists and not runs.
    last: Option<Vec<u8>>,
    pub lists: u64,
    pub counts: Counts,
    /// The reasons of status 4.
    pub reasons: Reasons,
    /// The steps that were carried out.
    pub instructions: Instructions,
}

impl Comparison {
    /// Compares on `case`, and gives the result.
    ///
    /// # Panics
    ///
    /// If the results or the register files differ, if a refusal of the whole run counts steps or
    /// changed the register file, if a reason comes with another status than 4, or if the library
    /// changed another buffer or elements around one.
    pub fn check(&mut self, case: &Case) -> Ran {
        let library = self.run(case);
        self.expected.clone_from(&case.file);
        let reference = self.run_reference(case);
        if let Some(difference) = self.difference(case, library, reference) {
            panic!("{difference}\n{case}");
        }
        if self.last.as_ref() != Some(&case.code) {
            self.last = Some(case.code.clone());
            self.lists += 1;
        }
        self.counts.add(library.status);
        self.reasons.add(library.status, library.reason);
        let done = &case.code[..library.place as usize];
        self.instructions.record_list(done, case.features);
        library
    }

    /// The register file that the last run left.
    pub fn file(&self) -> &[u8] {
        &self.expected
    }

    fn run(&mut self, case: &Case) -> Ran {
        tarhuspo::run(
            self.code.fill_joined(&case.code, &case.behind),
            self.file.fill(&case.file),
            self.masks.fill(&case.masks),
            case.features,
            case.budget,
        )
    }

    fn run_reference(&mut self, case: &Case) -> Ran {
        let reference::Ran {
            steps,
            place,
            status,
            reason,
        } = reference::run(
            &case.code,
            &mut self.expected,
            &case.masks,
            case.features,
            case.budget,
        );
        Ran {
            steps,
            place,
            status,
            reason,
        }
    }

    fn difference(&self, case: &Case, library: Ran, reference: Ran) -> Option<String> {
        if library != reference {
            return Some(format!("library: {library:?}\nreference: {reference:?}"));
        }
        let refused = matches!(library.status, 1 | 8);
        let counted = library.steps != 0 || library.place != 0;
        if refused && (counted || !self.file.is_unchanged(&case.file)) {
            return Some(format!("{library:?}, or the file is not as before"));
        }
        if let Some(found) = self.file.difference(&self.expected) {
            return Some(format!("register file after {library:?}: {found}"));
        }
        if let Some(found) = self.code.joined_difference(&case.code, &case.behind) {
            return Some(format!("code: {found}"));
        }
        let found = self.masks.difference(&case.masks)?;
        Some(format!("opmasks: {found}"))
    }
}
