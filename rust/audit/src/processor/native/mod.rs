//! x86-64 Linux.
//!
//! The instruction is copied to a page of its own, which is then made executable and no longer
//! writable. All registers are loaded, and the processor is set to stop behind one instruction (the
//! trap flag). Whatever happens then is a signal: SIGTRAP behind the instruction, SIGILL for #UD,
//! SIGSEGV or SIGBUS for a bad address. Its handler runs on a stack of 128 KiB, because the kernel
//! puts all wide registers there and restores them from there, and continues where all registers
//! are stored.
//!
//! Where the operand is placed is told from outside, between `prepare` and `execute`: whoever
//! works out an address can be held to it.
//!
//! To time instructions, many that were run in this way before are called at once (`sequence`).

mod address;
mod context;
mod enter;
mod pages;
mod permit;
mod sequence;
mod signals;
mod sys;

use super::Outcome;
use crate::detect::{Capabilities, RegisterSet};
use crate::operand::Operand;
use crate::setting::Setting;
use crate::state::State;
use address::{is_low, solve, Solution};
use context::{Context, Stop};
use pages::Pages;
use permit::permit;
pub use sequence::Sequence;
use signals::Armed;
use std::cell::UnsafeCell;
use std::io;

/// Executes single instructions. It stays on the thread that made it.
pub struct Processor {
    register_set: RegisterSet,
    apx: bool,
    pages: Pages,
    /// Shared with assembly and the signal handler during a run, and with nobody else.
    context: Box<UnsafeCell<Context>>,
}

/// An instruction that may be executed, with general registers that lead it to its operand. Only
/// `Processor::prepare` makes one: no other bytes are to be executed.
#[derive(Debug, Clone)]
pub struct Prepared {
    code: Vec<u8>,
    general: [u64; 16],
    operand: Option<Operand>,
    is_high: bool,
    is_behind: bool,
    entry: u64,
    target: u64,
}

impl Prepared {
    /// The instruction's bytes. Without a base register they have another displacement than before.
    pub fn code(&self) -> &[u8] {
        &self.code
    }

    /// The general registers, by their numbers in an encoding.
    pub fn general(&self) -> &[u64; 16] {
        &self.general
    }

    /// How the bytes name the memory operand, if there is one.
    pub fn operand(&self) -> Option<&Operand> {
        self.operand.as_ref()
    }

    /// Where the instruction starts.
    pub fn entry(&self) -> u64 {
        self.entry
    }

    /// Where the registers lead.
    pub fn target(&self) -> u64 {
        self.target
    }

    /// Takes over registers and displacement that lead to `target`.
    fn lead(&mut self, target: u64, solution: Solution, unit: usize) {
        self.target = target;
        self.general = solution.general;
        if let (Some(operand), Some(displacement)) = (self.operand, solution.displacement) {
            let bytes = displacement.to_le_bytes();
            let at = operand.displacement_at;
            self.code[at..at + bytes.len()].copy_from_slice(&bytes);
            self.operand = Operand::of(&self.code, unit);
        }
    }
}

impl Processor {
    /// Maps pages and installs the signal handler. It fails without AVX, and where the system gives
    /// no executable memory.
    pub fn new(capabilities: Capabilities) -> io::Result<Processor> {
        let Some(register_set) = capabilities.register_set() else {
            return Err(io::Error::new(io::ErrorKind::Unsupported, "no AVX"));
        };
        signals::install();
        Ok(Processor {
            register_set,
            apx: capabilities.apx(),
            pages: Pages::new()?,
            context: Box::new(UnsafeCell::new(Context::new())),
        })
    }

    pub fn register_set(&self) -> RegisterSet {
        self.register_set
    }

    /// Loads all registers of `state`, executes `code`, and stores all registers. The memory
    /// operand ends right before a page without access (or a byte before that: see `prepare`), and
    /// the general registers are set so that the instruction reads it from its first byte. Bytes
    /// that are not permitted (see the module `permit`) are not executed.
    pub fn run(&mut self, code: &[u8], state: &State, memory: &[u8]) -> Outcome {
        match self.prepare(code, memory.len(), &Setting::PLAIN) {
            Ok(prepared) => self.execute(&prepared, state, memory, prepared.target),
            Err(reason) => Outcome::NotRun(reason),
        }
    }

    /// Finds general registers for permitted bytes, whose memory operand has `length` bytes. Where
    /// no registers lead to the operand's place, it is a byte lower. The error says why there are
    /// none at all.
    pub fn prepare(
        &self,
        code: &[u8],
        length: usize,
        setting: &Setting,
    ) -> Result<Prepared, &'static str> {
        let permit = permit(code, self.apx);
        let permit = permit.ok_or("neither accepted nor with one wrong reserved field")?;
        let operand = Operand::of(code, permit.memory);
        let is_high = setting.is_high && !operand.as_ref().is_some_and(is_low);
        let arena = self.pages.arena(is_high);
        let entry = arena.code_address(setting.is_behind);
        let target = arena.operand_address(length, setting.gap);
        let mut prepared = Prepared {
            code: code.to_vec(),
            general: setting.general,
            operand,
            is_high,
            is_behind: setting.is_behind,
            entry,
            target,
        };
        let Some(operand) = operand else {
            return Ok(prepared);
        };
        let next = entry + code.len() as u64;
        let solved = |target| Some((target, solve(&operand, &setting.general, target, next)?));
        let found = solved(target).or_else(|| solved(target - 1));
        let (target, solution) = found.ok_or("no registers lead to the operand")?;
        prepared.lead(target, solution, permit.memory);
        Ok(prepared)
    }

    /// Whether the page for the operand has `length` bytes at this address.
    pub fn holds(&self, prepared: &Prepared, address: u64, length: usize) -> bool {
        self.pages.arena(prepared.is_high).holds(address, length)
    }

    /// Loads all registers of `state` and the prepared ones, executes the instruction with `memory`
    /// at `address`, and stores all registers. Around the operand are random bytes.
    pub fn execute(
        &mut self,
        prepared: &Prepared,
        state: &State,
        memory: &[u8],
        address: u64,
    ) -> Outcome {
        let arena = self.pages.arena_mut(prepared.is_high);
        if !arena.holds(address, memory.len()) {
            return Outcome::NotRun("the page for the operand has no such address");
        }
        if arena.set_code(prepared.is_behind, &prepared.code).is_err() {
            return Outcome::NotRun("the system gives no executable memory");
        }
        arena.set_operand(memory, address);
        let entry = arena.code_address(prepared.is_behind);
        self.enter(state, &prepared.general, entry)
    }

    fn enter(&mut self, state: &State, general: &[u64; 16], entry: u64) -> Outcome {
        let (enter, resume): (unsafe extern "C" fn(*mut Context), unsafe extern "C" fn()) =
            match self.register_set {
                RegisterSet::Zmm32 => (enter::enter_zmm, enter::resume_zmm),
                RegisterSet::Ymm16 => (enter::enter_ymm, enter::resume_ymm),
            };
        let context = self.context.get_mut();
        context.load(state);
        context.general = *general;
        context.entry = entry;
        context.resume = resume as usize as u64;
        context.stop = Stop::NONE;

        let context = self.context.get();
        // SAFETY: stack and context belong to `self`, which outlives the guard and stays on this
        // thread.
        let armed = unsafe { Armed::new(context, &self.pages.signal_stack()) };
        // SAFETY: `Capabilities` has shown that the processor has these registers, the handler is
        // armed, and the code page holds one permitted instruction: a permute, which writes vector
        // registers only, or one that raises #UD.
        unsafe { enter(context) };
        drop(armed);
        outcome(self.context.get_mut().stop, entry)
    }

    /// All registers after the last run. With `RegisterSet::Ymm16`, bytes that the processor lacks
    /// are meaningless.
    pub fn after(&self) -> &State {
        // SAFETY: no run is in progress, because a run borrows `self` mutably.
        unsafe { &(*self.context.get()).after }
    }

    /// Whether the last run left the memory operand and the bytes around it alone.
    pub fn is_memory_intact(&mut self) -> bool {
        self.pages.are_operands_intact()
    }

    /// Whether the last run left the guard bytes around both states alone.
    pub fn is_context_intact(&self) -> bool {
        // SAFETY: as in `after`.
        unsafe { (*self.context.get()).is_intact() }
    }
}

/// What the signal that ended the instruction says.
fn outcome(stop: Stop, entry: u64) -> Outcome {
    match stop.signal {
        sys::SIGTRAP => Outcome::Done {
            length: (stop.place - entry) as usize,
        },
        sys::SIGILL => Outcome::Undefined,
        _ => Outcome::Fault,
    }
}
