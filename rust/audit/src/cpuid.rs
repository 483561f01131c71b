//! The words of CPUID and XCR0 that say what the processor has and the operating system has
//! switched on.

use crate::features::{checked, Impossible};
use reference::limits::feature;

pub use read::{processor_name, words};

/// XCR0: XMM and YMM.
const YMM_STATE: u64 = 0x06;
/// XCR0: opmask, ZMM_Hi256 and Hi16_ZMM, on top of `YMM_STATE`.
const ZMM_STATE: u64 = 0xE6;
/// XCR0: the APX registers.
const APX_STATE: u64 = 1 << 19;

/// What was read. A word that the processor does not have is 0.
#[derive(Debug, Clone, Copy, PartialEq, Eq, Default)]
pub struct Words {
    pub leaf_1_ecx: u32,
    pub leaf_7_ebx: u32,
    pub leaf_7_ecx: u32,
    /// Leaf 7, subleaf 1.
    pub leaf_7_1_edx: u32,
    pub xcr0: u64,
}

impl Words {
    /// The features that can be used: CPUID reports them, and XCR0 has the state that they need.
    ///
    /// An error is what CPUID itself reports, as a hypervisor may have it, whatever is switched on
    /// of it. XCR0 makes no set impossible: it switches off all of AVX-512, or, since the ZMM state
    /// includes the YMM state, all features, and with a feature goes everything that needs it.
    pub fn features(&self) -> Result<u32, Impossible> {
        let reported = checked(self.reported())?;
        let on = match (self.has_state(ZMM_STATE), self.has_state(YMM_STATE)) {
            (true, _) => feature::ALL,
            (false, true) => feature::AVX | feature::AVX2,
            (false, false) => 0,
        };
        Ok(reported & on)
    }

    fn reported(&self) -> u32 {
        let found = [
            (feature::AVX, bit(self.leaf_1_ecx, 28)),
            (feature::AVX2, bit(self.leaf_7_ebx, 5)),
            (feature::AVX512F, bit(self.leaf_7_ebx, 16)),
            (feature::AVX512VL, bit(self.leaf_7_ebx, 31)),
            (feature::AVX512_VBMI, bit(self.leaf_7_ecx, 1)),
            (feature::AVX512BW, bit(self.leaf_7_ebx, 30)),
        ];
        found.iter().filter(|(_, has)| *has).map(|(f, _)| f).sum()
    }

    pub fn has_apx(&self) -> bool {
        bit(self.leaf_7_1_edx, 21) && self.has_state(APX_STATE)
    }

    fn has_state(&self, state: u64) -> bool {
        self.xcr0 & state == state
    }
}

fn bit(word: u32, index: u32) -> bool {
    word >> index & 1 == 1
}

#[cfg(all(
    target_arch = "x86_64",
    target_os = "linux",
    target_pointer_width = "64"
))]
mod read {
    use super::{bit, Words};
    use std::arch::x86_64::{__cpuid, __cpuid_count, _xgetbv};

    pub fn words() -> Words {
        let basic = __cpuid(1);
        let has_osxsave = bit(basic.ecx, 27);
        if __cpuid(0).eax < 7 || !has_osxsave {
            return Words::default();
        }
        let extended = __cpuid_count(7, 0);
        let has_subleaf_1 = extended.eax >= 1;
        Words {
            leaf_1_ecx: basic.ecx,
            leaf_7_ebx: extended.ebx,
            leaf_7_ecx: extended.ecx,
            leaf_7_1_edx: match has_subleaf_1 {
                true => __cpuid_count(7, 1).edx,
                false => 0,
            },
            // SAFETY: OSXSAVE is set, so XGETBV exists and is enabled.
            xcr0: unsafe { extended_control() },
        }
    }

    /// Three leaves of CPUID with four registers each, filled up with zero bytes.
    pub fn processor_name() -> Option<String> {
        if __cpuid(0x8000_0000).eax < 0x8000_0004 {
            return None;
        }
        let leaves = (0x8000_0002..=0x8000_0004).map(__cpuid);
        let words = leaves.flat_map(|leaf| [leaf.eax, leaf.ebx, leaf.ecx, leaf.edx]);
        let bytes: Vec<u8> = words.flat_map(u32::to_le_bytes).collect();
        let name = String::from_utf8(bytes).ok()?;
        Some(name.trim_matches(['\0', ' ']).to_string())
    }

    #[target_feature(enable = "xsave")]
    fn extended_control() -> u64 {
        // SAFETY: register 0 exists wherever XGETBV does.
        unsafe { _xgetbv(0) }
    }
}

#[cfg(not(all(
    target_arch = "x86_64",
    target_os = "linux",
    target_pointer_width = "64"
)))]
mod read {
    use super::Words;

    /// The audit runs on x86-64 Linux only; elsewhere it has nothing to compare with.
    pub fn words() -> Words {
        Words::default()
    }

    pub fn processor_name() -> Option<String> {
        None
    }
}

#[cfg(test)]
mod tests {
    use super::Words;
    use crate::features::{checked, possible};
    use reference::limits::feature;

    /// CPUID's bits, by the manual: the word and the bit of each feature.
    fn reporting(set: u32, xcr0: u64) -> Words {
        let has = |feature: u32, bit: u32| u32::from(set & feature != 0) << bit;
        Words {
            leaf_1_ecx: has(feature::AVX, 28),
            leaf_7_ebx: has(feature::AVX2, 5)
                | has(feature::AVX512F, 16)
                | has(feature::AVX512BW, 30)
                | has(feature::AVX512VL, 31),
            leaf_7_ecx: has(feature::AVX512_VBMI, 1),
            leaf_7_1_edx: 0,
            xcr0,
        }
    }

    /// Every value of the bits of XCR0 that count, among others that do not.
    fn states() -> impl Iterator<Item = u64> {
        let others = [0, 0x01, 0x8_0201];
        let bits = (0..32).map(|n: u64| (n & 3) << 1 | (n >> 2) << 5);
        others.into_iter().flat_map(move |other| {
            let bits = bits.clone();
            bits.map(move |bits| bits | other)
        })
    }

    /// What the operating system has left on of AVX and AVX-512.
    fn left_on(xcr0: u64) -> u32 {
        let all_of = |bits: &[u32]| bits.iter().all(|bit| xcr0 >> bit & 1 == 1);
        if all_of(&[1, 2, 5, 6, 7]) {
            return feature::ALL;
        }
        if all_of(&[1, 2]) {
            return feature::AVX | feature::AVX2;
        }
        0
    }

    #[test]
    fn no_state_makes_a_possible_set_impossible() {
        for xcr0 in states() {
            for set in possible().into_iter().map(u32::from) {
                let found = reporting(set, xcr0).features();
                assert_eq!(found, Ok(set & left_on(xcr0)), "{set}, XCR0 {xcr0:#x}");
            }
        }
    }

    /// Also if what is wrong with it is switched off: CPUID is what is looked at.
    #[test]
    fn an_impossible_set_is_an_error() {
        let mut errors = 0;
        for xcr0 in states() {
            for set in 0..=feature::ALL {
                let found = reporting(set, xcr0).features();
                assert_eq!(found.err(), checked(set).err(), "{set}, XCR0 {xcr0:#x}");
                errors += usize::from(found.is_err());
            }
        }
        assert_eq!(errors, 45 * states().count());
    }

    #[test]
    fn apx_takes_its_bit_and_its_state() {
        let on = Words {
            leaf_7_1_edx: 1 << 21,
            xcr0: 0x8_00E7,
            ..Words::default()
        };
        assert!(on.has_apx());
        let without_bit = Words {
            leaf_7_1_edx: !(1 << 21),
            ..on
        };
        assert!(!without_bit.has_apx());
        assert!(!Words { xcr0: 0xE7, ..on }.has_apx());
    }
}
