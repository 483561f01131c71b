//! What the audit can use of this machine.

use crate::cpuid::{self, Words};
use crate::features::{self, Impossible};
use reference::limits::feature;

/// The registers that the audit can load and store.
#[derive(Debug, Clone, Copy, PartialEq, Eq)]
pub enum RegisterSet {
    /// 32 registers of 64 bytes and 8 opmasks.
    Zmm32,
    /// 16 registers of 32 bytes: a processor with AVX but without AVX-512.
    Ymm16,
}

impl RegisterSet {
    pub fn registers(self) -> usize {
        match self {
            RegisterSet::Zmm32 => 32,
            RegisterSet::Ymm16 => 16,
        }
    }

    /// Bytes of one register.
    pub fn register_size(self) -> usize {
        match self {
            RegisterSet::Zmm32 => 64,
            RegisterSet::Ymm16 => 32,
        }
    }

    pub fn has_opmasks(self) -> bool {
        self == RegisterSet::Zmm32
    }

    /// Whether the processor has this byte of this register.
    pub fn has(self, register: usize, byte: usize) -> bool {
        register < self.registers() && byte < self.register_size()
    }
}

/// Features that can be used: the processor has them, and the operating system saves the state that
/// they need. They are a set that a processor can have. There is no way to claim more than was
/// detected, because the audit would then execute instructions that the processor lacks.
#[derive(Debug, Clone, Copy, PartialEq, Eq)]
pub struct Capabilities {
    features: u32,
    /// AVX512BW, whatever features are left out: the audit's own loads and stores of opmasks, which
    /// have 64 bits then, need it.
    wide_opmasks: bool,
    /// APX is on, which gives a meaning to the EVEX bits that are otherwise fixed.
    apx: bool,
}

impl Capabilities {
    /// What this machine has, unless its CPUID reports what no processor has.
    pub fn detect() -> Result<Capabilities, Impossible> {
        let words = cpuid::words();
        let features = words.features()?;
        Ok(Capabilities {
            features,
            wide_opmasks: features & feature::AVX512BW != 0,
            apx: words.has_apx(),
        })
    }

    /// What would be detected if CPUID and XCR0 had other words, as far as this machine has it too.
    /// APX counts if either has it, since it only takes encodings away.
    pub fn detect_as(words: &Words) -> Result<Capabilities, Impossible> {
        let features = words.features()?;
        let found = Capabilities::detect()?.without(!features);
        Ok(Capabilities {
            apx: found.apx || words.has_apx(),
            ..found
        })
    }

    /// The same without the given features, and without those that need one of them.
    pub fn without(self, features: u32) -> Capabilities {
        Capabilities {
            features: features::without(self.features, features),
            ..self
        }
    }

    /// Feature bits, numbered as in the library.
    pub fn features(self) -> u32 {
        self.features
    }

    pub fn apx(self) -> bool {
        self.apx
    }

    /// The registers that can be audited, or none without AVX.
    pub fn register_set(self) -> Option<RegisterSet> {
        if self.features & feature::AVX == 0 {
            return None;
        }
        if self.features & feature::AVX512F != 0 && self.wide_opmasks {
            return Some(RegisterSet::Zmm32);
        }
        Some(RegisterSet::Ymm16)
    }
}

/// What the processor calls itself.
pub fn processor_name() -> String {
    cpuid::processor_name().unwrap_or_else(|| "unknown".to_string())
}
