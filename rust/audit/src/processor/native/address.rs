//! General registers that lead an instruction to its memory operand.

use super::context::RSP;
use crate::operand::{Base, Operand};

/// Register values by number, and the displacement to write into the instruction, if any.
#[derive(Debug, PartialEq, Eq)]
pub struct Solution {
    pub general: [u64; 16],
    pub displacement: Option<i32>,
}

/// Whether the operand must be below 2 GiB. An absolute one cannot be elsewhere. With RSP as the
/// base, RSP would come near the signal stack.
pub fn is_low(operand: &Operand) -> bool {
    operand.is_absolute() || operand.base == Base::Register(RSP)
}

/// Finds registers with which an instruction reads at `target`, out of any that are given. The base
/// register is set if there is one, else the index, with a few bits of the displacement. If there
/// is neither (relative to the next instruction, or absolute), the displacement is replaced. `next`
/// is the address behind the instruction.
///
/// There is no solution where base and index are one register, scale 1, and displacement and target
/// make an odd number.
pub fn solve(operand: &Operand, given: &[u64; 16], target: u64, next: u64) -> Option<Solution> {
    let mut general = *given;
    let mut displacement = None;
    match (operand.base, operand.index) {
        (Base::Register(base), _) => general[base] = base_value(base, operand, given, target)?,
        (Base::NextInstruction, _) => displacement = Some(target.wrapping_sub(next)),
        (Base::None, None) => displacement = Some(target),
        (Base::None, Some((index, scale))) => {
            // What is left must be a multiple of the scale.
            let low_bits = scale - 1;
            let kept = operand.displacement as u64 & !low_bits | target & low_bits;
            displacement = Some(kept);
            // Bits that the scale moves out of the number may be anything.
            let free = given[index] & !(u64::MAX / scale);
            general[index] = (target.wrapping_sub(kept) / scale) | free;
        }
    }
    let displacement = displacement.map(|number| i32::try_from(number as i64));
    Some(Solution {
        general,
        displacement: displacement.transpose().ok()?,
    })
}

/// The base register's value: the sum of base, index and displacement is to be `target`.
fn base_value(base: usize, operand: &Operand, given: &[u64; 16], target: u64) -> Option<u64> {
    let rest = target.wrapping_sub(operand.displacement as u64);
    match operand.index {
        Some((index, scale)) if index == base => divide(rest, 1 + scale, given[base]),
        Some((index, scale)) => Some(rest.wrapping_sub(given[index].wrapping_mul(scale))),
        None => Some(rest),
    }
}

/// A number that times 2, 3, 5 or 9 is `product`, modulo 2^64. Odd factors have an inverse. For 2
/// the highest bit may be anything, and is that of `given`.
fn divide(product: u64, factor: u64, given: u64) -> Option<u64> {
    let inverse: u64 = match factor {
        3 => 0xAAAA_AAAA_AAAA_AAAB,
        5 => 0xCCCC_CCCC_CCCC_CCCD,
        9 => 0x8E38_E38E_38E3_8E39,
        _ => {
            let half = (product / 2) | (given & 1 << 63);
            return product.is_multiple_of(2).then_some(half);
        }
    };
    Some(product.wrapping_mul(inverse))
}

#[cfg(test)]
mod tests {
    use super::{divide, solve, Operand, Solution};

    const TARGET: u64 = 0x4000_0FC0;
    const NEXT: u64 = 0x4100_0000;
    const GIVEN: u64 = 0xFEDC_BA98_7654_3210;

    fn solution(code: &[u8]) -> Option<Solution> {
        let operand = Operand::of(code, 64).expect("a memory form");
        solve(&operand, &[GIVEN; 16], TARGET, NEXT)
    }

    /// The base register, where nothing else is changed.
    fn base(code: &[u8], register: usize) -> u64 {
        let solution = solution(code).expect("there is a solution");
        let others = (0..16).filter(|other| *other != register);
        assert_eq!(solution.displacement, None);
        for other in others {
            assert_eq!(solution.general[other], GIVEN);
        }
        solution.general[register]
    }

    /// The displacement, where no register is changed.
    fn displacement(code: &[u8]) -> Option<i32> {
        let solution = solution(code).expect("there is a solution");
        assert_eq!(solution.general, [GIVEN; 16]);
        solution.displacement
    }

    #[test]
    fn base_register_makes_up_for_the_displacement() {
        // vpshufd xmm1, [rax], 0x1b; [rax + 0x10]; [rax + 0x100]; [r13 + 0x10]
        assert_eq!(base(&[0xC5, 0xF9, 0x70, 0x08, 0x1B], 0), TARGET);
        let near = [0xC5, 0xF9, 0x70, 0x48, 0x10, 0x1B];
        assert_eq!(base(&near, 0), TARGET - 0x10);
        let far = [0xC5, 0xF9, 0x70, 0x88, 0, 1, 0, 0, 0x1B];
        assert_eq!(base(&far, 0), TARGET - 0x100);
        let extended = [0xC4, 0xC1, 0x79, 0x70, 0x4D, 0x10, 0x1B];
        assert_eq!(base(&extended, 13), TARGET - 0x10);
        // vpshufd zmm1, [rax - 64], 0x1b
        let multiplied = [0x62, 0xF1, 0x7D, 0x48, 0x70, 0x48, 0xFF, 0x1B];
        assert_eq!(base(&multiplied, 0), TARGET + 64);
    }

    #[test]
    fn base_register_makes_up_for_the_index() {
        // vpshufd xmm1, [rax + rcx*4 + 0x10], 0x1b
        let code = [0xC5, 0xF9, 0x70, 0x4C, 0x88, 0x10, 0x1B];
        let sum = GIVEN.wrapping_mul(4).wrapping_add(0x10);
        assert_eq!(base(&code, 0).wrapping_add(sum), TARGET);
        // [rsp + 0x10], no index
        let code = [0xC5, 0xF9, 0x70, 0x4C, 0x24, 0x10, 0x1B];
        assert_eq!(base(&code, 4), TARGET - 0x10);
    }

    #[test]
    fn base_and_index_may_be_one_register() {
        // vpshufd xmm1, [rax + rax*scale + 1], 0x1b
        for (bits, factor) in [(1, 3), (2, 5), (3, 9)] {
            let code = [0xC5, 0xF9, 0x70, 0x4C, bits << 6, 1, 0x1B];
            assert_eq!(base(&code, 0).wrapping_mul(factor), TARGET - 1);
        }
        let odd = [0xC5, 0xF9, 0x70, 0x4C, 0x00, 1, 0x1B];
        assert_eq!(solution(&odd), None);
        let even = [0xC5, 0xF9, 0x70, 0x4C, 0x00, 2, 0x1B];
        assert_eq!(base(&even, 0).wrapping_mul(2), TARGET - 2);
    }

    #[test]
    fn displacement_is_replaced_without_registers() {
        // vpshufd xmm1, [rip + ..], 0x1b
        let relative = [0xC5, 0xF9, 0x70, 0x0D, 1, 2, 3, 4, 0x1B];
        let distance = (TARGET as i64 - NEXT as i64) as i32;
        assert_eq!(displacement(&relative), Some(distance));
        // [..]
        let absolute = [0xC5, 0xF9, 0x70, 0x0C, 0x25, 1, 2, 3, 4, 0x1B];
        assert_eq!(displacement(&absolute), Some(TARGET as i32));
    }

    /// vpshufd xmm1, [rcx*scale + ..], 0x1b, with displacements of both signs.
    #[test]
    fn index_alone_is_solved_for() {
        for (bits, scale) in (0..4).zip([1, 2, 4, 8]) {
            for high in [0x12, 0x7F, 0x80, 0xFF] {
                let sib = bits << 6 | 1 << 3 | 5;
                let code = [0xC5, 0xF9, 0x70, 0x0C, sib, 0xFF, 2, 3, high, 0x1B];
                let solution = solution(&code).expect("there is a solution");
                let displacement = solution.displacement.expect("the low bits change");
                assert_eq!(
                    displacement >> 3,
                    i32::from_le_bytes([0xFF, 2, 3, high]) >> 3
                );
                let indexed = solution.general[1].wrapping_mul(scale);
                assert_eq!(indexed.wrapping_add(displacement as u64), TARGET);
                // The bits that the scale moves out are those that were given.
                let shift = 64 - u32::from(bits);
                assert_eq!(
                    solution.general[1].checked_shr(shift),
                    GIVEN.checked_shr(shift)
                );
            }
        }
    }

    #[test]
    fn division_is_exact() {
        for factor in [3, 5, 9] {
            let quotient = divide(0x4000_0001, factor, 0).expect("odd factors divide everything");
            assert_eq!(quotient.wrapping_mul(factor), 0x4000_0001);
        }
        assert_eq!(divide(7, 2, 0), None);
        assert_eq!(divide(8, 2, u64::MAX), Some(4 | 1 << 63));
    }
}
