//! General registers and their values.

use crate::hex;
use crate::options::{expected, Known, Options};
use tarhuspo::limits::GPR_COUNT;

pub const GPR: Known = Known::repeated("--gpr", "registers, as in rbx=0x1000,r12=8,");

/// In the order of their numbers in an encoding.
pub const NAMES: [&str; GPR_COUNT] = [
    "rax", "rcx", "rdx", "rbx", "rsp", "rbp", "rsi", "rdi", "r8", "r9", "r10", "r11", "r12", "r13",
    "r14", "r15",
];

/// Values of the general registers, by number.
pub struct General {
    given: [Option<u64>; GPR_COUNT],
}

impl General {
    /// The registers that the options give.
    pub fn given(options: &Options) -> Result<General, String> {
        let mut general = General {
            given: [None; GPR_COUNT],
        };
        for list in options.values(&GPR) {
            for part in list.to_string_lossy().split(',') {
                general.take(part.trim())?;
            }
        }
        Ok(general)
    }

    /// One register and its value.
    fn take(&mut self, part: &str) -> Result<(), String> {
        let split = part.split_once('=');
        let (name, value) = split.ok_or_else(|| {
            expected(
                "a register and its value after --gpr, as in rbx=0x1000",
                part,
            )
        })?;
        let number = number_of(name.trim())?;
        if self.given[number].is_some() {
            return Err(format!("expected {} only once in --gpr", NAMES[number]));
        }
        let value = value.trim();
        let what = format!(
            "a number below 2^64 for {}, decimal or hex with 0x",
            NAMES[number]
        );
        self.given[number] = Some(hex::number(value).ok_or_else(|| expected(&what, value))?);
        Ok(())
    }

    /// All of them: 0 where nothing is said.
    pub fn values(&self) -> [u64; GPR_COUNT] {
        self.given.map(|value| value.unwrap_or(0))
    }

    pub fn is_given(&self, number: usize) -> bool {
        self.given[number].is_some()
    }
}

fn number_of(name: &str) -> Result<usize, String> {
    let mut names = NAMES.iter();
    let found = names.position(|known| known.eq_ignore_ascii_case(name));
    found.ok_or_else(|| match name {
        "rip" => "expected --at for the instruction's address: rip follows from it".to_string(),
        _ => expected(
            "rax, rcx, rdx, rbx, rsp, rbp, rsi, rdi or r8 to r15 in --gpr",
            name,
        ),
    })
}
