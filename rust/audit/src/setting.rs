//! What surrounds an instruction on the processor: general registers, code and operand.

use crate::random::Random;
use crate::state::REGISTER_SIZE;

/// Bytes of a page.
pub const PAGE: usize = 4_096;
/// The largest gap with which every operand, and one a byte lower, is still in its page.
pub const LARGEST_GAP: usize = PAGE - REGISTER_SIZE - 1;

/// A value that is no address: a register that the operand does not name must not matter.
const POISON: u64 = 0x5A5A_5A5A_5A5A_5A5A;

/// Where code and operand are to be, and what the general registers hold.
#[derive(Debug, Clone, Copy, PartialEq, Eq)]
pub struct Setting {
    /// By their numbers in an encoding. One of them, or the displacement, is changed so that the
    /// instruction reads its operand.
    pub general: [u64; 16],
    /// Bytes between the operand and the end of its page, behind which is a page without access.
    pub gap: usize,
    /// Whether the instruction comes behind its operand, and not before.
    pub is_behind: bool,
    /// Whether both are above 4 GiB, if the operand can be named there.
    pub is_high: bool,
}

impl Setting {
    /// The operand ends right before the page without access.
    pub const PLAIN: Setting = Setting {
        general: [POISON; 16],
        gap: 0,
        is_behind: false,
        is_high: false,
    };

    pub fn random(random: &mut Random) -> Setting {
        Setting {
            general: [(); 16].map(|()| random_register(random)),
            gap: random_gap(random),
            is_behind: random.bit() == 1,
            is_high: random.bit() == 1,
        }
    }
}

/// Most are plain random numbers, others small, or small and negative.
fn random_register(random: &mut Random) -> u64 {
    let word = random.word();
    match random.below(8) {
        0 => word & 0xFF,
        1 => !(word & 0xFF),
        _ => word,
    }
}

/// None half of the time, so that reading a byte too many is a fault.
fn random_gap(random: &mut Random) -> usize {
    let gap = random.word() as usize % (LARGEST_GAP + 1);
    usize::from(random.bit()) * gap
}
