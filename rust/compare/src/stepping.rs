//! Comparison of single steps: the result, and every byte of every buffer.

use crate::coverage::Coverage;
use crate::display;
use crate::guard::Guarded;
use crate::limits::features;
use crate::random::Random;
use crate::state::{refill_file, refill_masks};
use crate::tally::{Counts, Reasons};
use std::fmt;
use tarhuspo::Stepped;

/// The inputs of a step.
#[derive(Clone)]
pub struct Case {
    pub code: Vec<u8>,
    /// Bytes that follow the code in memory and are not passed. A step that reads past its code
    /// finds them.
    pub behind: Vec<u8>,
    pub file: Vec<u8>,
    pub masks: Vec<u64>,
    pub features: u32,
    pub memory: Vec<u8>,
}

impl Case {
    /// Random registers and opmasks, every feature, no code and no memory.
    pub fn new(random: &mut Random) -> Case {
        let mut case = Case {
            code: Vec::new(),
            behind: Vec::new(),
            file: Vec::new(),
            masks: Vec::new(),
            features: features::ALL,
            memory: Vec::new(),
        };
        case.refill(random);
        case
    }

    /// New registers and opmasks, in the right number.
    pub fn refill(&mut self, random: &mut Random) {
        refill_file(&mut self.file, random);
        refill_masks(&mut self.masks, random);
    }

    /// New code, with nothing behind it and a random memory operand.
    pub fn set_code(&mut self, code: Vec<u8>, memory: usize, random: &mut Random) {
        self.code = code;
        self.behind.clear();
        self.set_memory(memory, random);
    }

    /// A random memory operand of the given length.
    pub fn set_memory(&mut self, length: usize, random: &mut Random) {
        self.memory.resize(length, 0);
        random.fill(&mut self.memory);
    }

    /// Passes the first `length` bytes of the code alone.
    pub fn cut(&mut self, length: usize) {
        self.behind = self.code.split_off(length);
    }
}

impl fmt::Display for Case {
    fn fmt(&self, f: &mut fmt::Formatter) -> fmt::Result {
        writeln!(f, "{}", display::bytes("code", &self.code))?;
        writeln!(f, "{}", display::bytes("behind it", &self.behind))?;
        writeln!(f, "features: {:#x}", self.features)?;
        writeln!(f, "{}", display::masks(&self.masks))?;
        writeln!(f, "{}", display::bytes("memory", &self.memory))?;
        write!(f, "{}", display::bytes("register file", &self.file))
    }
}

/// Steps with the library and with the reference, and stops at the first difference.
#[derive(Default)]
pub struct Comparison {
    code: Guarded,
    file: Guarded,
    masks: Guarded<u64>,
    memory: Guarded,
    /// The register file that the reference leaves.
    expected: Vec<u8>,
    pub counts: Counts,
    /// The reasons of status 4.
    pub reasons: Reasons,
    pub coverage: Coverage,
}

impl Comparison {
    /// Compares on `case`, and gives the status.
    ///
    /// # Panics
    ///
    /// If the results or the register files differ, if a refusal has a length or changed the
    /// register file, if a reason comes with another status than 4, or if the library changed
    /// another buffer or elements around one.
    pub fn check(&mut self, case: &Case) -> u32 {
        self.check_whole(case).status
    }

    /// Compares on `case`, and gives the whole result.
    ///
    /// # Panics
    ///
    /// As [`check`](Comparison::check).
    pub fn check_whole(&mut self, case: &Case) -> Stepped {
        let library = self.step(case);
        self.expected.clone_from(&case.file);
        let reference = self.step_reference(case);
        if let Some(difference) = self.difference(case, library, reference) {
            panic!("{difference}\n{case}");
        }
        if library.status == 0 {
            let decoded = tarhuspo::decode(&case.code, case.features);
            self.coverage.record(&decoded, case);
        }
        self.counts.add(library.status);
        self.reasons.add(library.status, library.reason);
        library
    }

    /// The register file that the last step left.
    pub fn file(&self) -> &[u8] {
        &self.expected
    }

    fn step(&mut self, case: &Case) -> Stepped {
        tarhuspo::step(
            self.code.fill_joined(&case.code, &case.behind),
            self.file.fill(&case.file),
            self.masks.fill(&case.masks),
            case.features,
            self.memory.fill(&case.memory),
        )
    }

    fn step_reference(&mut self, case: &Case) -> Stepped {
        let reference::Stepped {
            status,
            length,
            reason,
        } = reference::step(
            &case.code,
            &mut self.expected,
            &case.masks,
            case.features,
            &case.memory,
        );
        Stepped {
            status,
            length,
            reason,
        }
    }

    fn difference(&self, case: &Case, library: Stepped, reference: Stepped) -> Option<String> {
        if library != reference {
            return Some(format!("library: {library:?}\nreference: {reference:?}"));
        }
        let refused = library.status != 0;
        if refused && (library.length != 0 || !self.file.is_unchanged(&case.file)) {
            return Some(format!("{library:?}, or the file is not as before"));
        }
        if let Some(found) = self.file.difference(&self.expected) {
            let (register, byte) = (found.at.div_euclid(64), found.at.rem_euclid(64));
            return Some(format!("register {register}, byte {byte}: {found}"));
        }
        self.changed_input(case)
    }

    /// A buffer that is an input alone and was changed.
    fn changed_input(&self, case: &Case) -> Option<String> {
        if let Some(found) = self.code.joined_difference(&case.code, &case.behind) {
            return Some(format!("code: {found}"));
        }
        if let Some(found) = self.masks.difference(&case.masks) {
            return Some(format!("opmasks: {found}"));
        }
        let found = self.memory.difference(&case.memory)?;
        Some(format!("memory: {found}"))
    }
}
