//! Stands in for the processor where the audit cannot run.

use super::Outcome;
use crate::detect::{Capabilities, RegisterSet};
use crate::operand::Operand;
use crate::setting::Setting;
use crate::state::State;
use std::io;

/// There is none: `new` always fails, so the other functions are never called.
pub struct Processor(());

impl Processor {
    pub fn new(_: Capabilities) -> io::Result<Processor> {
        let message = "the audit runs on x86-64 Linux only";
        Err(io::Error::new(io::ErrorKind::Unsupported, message))
    }

    pub fn register_set(&self) -> RegisterSet {
        unreachable!()
    }

    pub fn run(&mut self, _: &[u8], _: &State, _: &[u8]) -> Outcome {
        unreachable!()
    }

    pub fn prepare(&self, _: &[u8], _: usize, _: &Setting) -> Result<Prepared, &'static str> {
        unreachable!()
    }

    pub fn holds(&self, _: &Prepared, _: u64, _: usize) -> bool {
        unreachable!()
    }

    pub fn execute(&mut self, _: &Prepared, _: &State, _: &[u8], _: u64) -> Outcome {
        unreachable!()
    }

    pub fn after(&self) -> &State {
        unreachable!()
    }

    pub fn is_memory_intact(&mut self) -> bool {
        unreachable!()
    }

    pub fn is_context_intact(&self) -> bool {
        unreachable!()
    }

    pub fn sequence(&mut self, _: &[&[u8]]) -> io::Result<Sequence> {
        unreachable!()
    }
}

/// There is none either.
#[derive(Debug, Clone)]
pub struct Prepared(());

impl Prepared {
    pub fn code(&self) -> &[u8] {
        unreachable!()
    }

    pub fn general(&self) -> &[u64; 16] {
        unreachable!()
    }

    pub fn operand(&self) -> Option<&Operand> {
        unreachable!()
    }

    pub fn entry(&self) -> u64 {
        unreachable!()
    }

    pub fn target(&self) -> u64 {
        unreachable!()
    }
}

/// Nor is there one of these.
pub struct Sequence(());

impl Sequence {
    pub fn run(&self, _: &mut State, _: u64) {
        unreachable!()
    }
}
