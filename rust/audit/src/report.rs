//! Counts of what an audit without a difference has compared.

use crate::case::Case;
use crate::damage::FIELDS;
use crate::detect::Capabilities;
use crate::encoding::Third;
use crate::lead::Lead;
use crate::operand::WAYS;
use crate::shape::{Form, Operand};
use crate::state::FILE_SIZE;
use reference::Field;
use std::collections::{BTreeMap, BTreeSet};
use std::time::Duration;

/// Cases of one form.
#[derive(Debug, Clone, Copy, PartialEq, Eq, Default)]
pub struct FormCount {
    /// Accepted instructions.
    pub steps: u64,
    /// Of these, with a register as the third operand.
    pub registers: u64,
    /// Of these, with a whole vector in memory.
    pub memory: u64,
    /// Of these, with one element in memory, repeated.
    pub broadcast: u64,
    /// Of these, with an opmask that is not 0.
    pub masked: u64,
    /// Of these, with the destination as a source too.
    pub overlapping: u64,
    /// Refused instructions.
    pub refused: u64,
}

impl FormCount {
    fn add(&mut self, case: &Case) {
        if case.damage.is_some() {
            self.refused += 1;
            return;
        }
        self.steps += 1;
        match case.shape.operand {
            Operand::Register => self.registers += 1,
            Operand::Memory => self.memory += 1,
            Operand::Broadcast => self.broadcast += 1,
        }
        self.masked += u64::from(case.fields.mask != 0);
        self.overlapping += u64::from(case.overlaps());
    }
}

/// Which numbers occurred in accepted instructions.
#[derive(Debug, Clone, PartialEq, Eq, Default)]
pub struct Coverage {
    /// Destination registers, out of 32.
    pub destinations: BTreeSet<u8>,
    /// First source registers, out of 32.
    pub first_sources: BTreeSet<u8>,
    /// Third operand registers, out of 32.
    pub third_operands: BTreeSet<u8>,
    /// Opmask numbers with z 0, out of 8.
    pub merging: BTreeSet<u8>,
    /// Opmask numbers with z 1, out of 7.
    pub zeroing: BTreeSet<u8>,
    /// Immediate bytes, out of 256.
    pub immediates: BTreeSet<u8>,
}

impl Coverage {
    fn add(&mut self, case: &Case) {
        let fields = &case.fields;
        self.destinations.insert(fields.destination);
        if case.shape.row.first {
            self.first_sources.insert(fields.first);
        }
        if let Third::Register { number, .. } = fields.third {
            self.third_operands.insert(number);
        }
        if case.shape.is_evex() {
            let masks = match fields.zeroing {
                0 => &mut self.merging,
                _ => &mut self.zeroing,
            };
            masks.insert(fields.mask);
        }
        self.immediates.extend(fields.immediate);
    }
}

/// A form that this machine cannot run, and the features that it lacks.
#[derive(Debug, Clone, PartialEq, Eq)]
pub struct Skipped {
    pub form: Form,
    pub lacks: String,
}

/// Counts of an audit in which nothing differed.
#[derive(Debug, Clone)]
pub struct Report {
    pub engine: String,
    pub seed: u64,
    pub capabilities: Capabilities,
    /// Instructions by name, VEX or EVEX, and width.
    pub forms: BTreeMap<Form, FormCount>,
    /// Refused instructions by the field that is wrong.
    pub refused: BTreeMap<Field, u64>,
    /// Of these, those that the processor carries out, because it ignores b.
    pub ignored: u64,
    pub coverage: Coverage,
    /// Memory operands that were where the engine said, by the ways to name them. One operand is
    /// named in several ways.
    pub addresses: [(&'static str, u64); WAYS.len()],
    pub skipped: Vec<Skipped>,
    pub elapsed: Duration,
}

impl Report {
    pub(crate) fn new(engine: &str, seed: u64, capabilities: Capabilities) -> Report {
        Report {
            engine: engine.to_string(),
            seed,
            capabilities,
            forms: BTreeMap::new(),
            refused: FIELDS.map(|field| (field, 0)).into(),
            ignored: 0,
            coverage: Coverage::default(),
            addresses: WAYS.map(|(name, _)| (name, 0)),
            skipped: Vec::new(),
            elapsed: Duration::ZERO,
        }
    }

    pub(crate) fn count(&mut self, case: &Case, is_b_ignored: bool, lead: Option<&Lead>) {
        self.forms.entry(case.shape.form()).or_default().add(case);
        self.ignored += u64::from(is_b_ignored);
        match case.damage {
            Some(field) => *self.refused.entry(field).or_default() += 1,
            None => {
                self.coverage.add(case);
                self.count_address(lead);
            }
        }
    }

    fn count_address(&mut self, lead: Option<&Lead>) {
        let Some((operand, address)) = lead.and_then(|lead| Some((lead.operand?, lead.target)))
        else {
            return;
        };
        for ((_, count), (_, is_so)) in self.addresses.iter_mut().zip(WAYS) {
            *count += u64::from(is_so(&operand, address));
        }
    }

    /// Accepted instructions compared.
    pub fn steps(&self) -> u64 {
        self.forms.values().map(|count| count.steps).sum()
    }

    /// Refused instructions compared.
    pub fn refused_cases(&self) -> u64 {
        self.refused.values().sum()
    }

    /// Accepted instructions whose memory operand was where the engine said.
    pub fn memory_operands(&self) -> u64 {
        let counts = self.forms.values();
        counts.map(|count| count.memory + count.broadcast).sum()
    }

    /// Register bytes compared after each instruction.
    pub fn bytes_per_step(&self) -> usize {
        FILE_SIZE
    }

    /// Of these, bytes that the processor itself has.
    pub fn processor_bytes(&self) -> usize {
        let set = self.capabilities.register_set();
        set.map_or(0, |set| set.registers() * set.register_size())
    }
}
