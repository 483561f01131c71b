//! One step on the register file (document 01, "What a step moves", and request 1).

use crate::decode::{parse, Instruction, Third};
use crate::limits::{check_state, LANE_SIZE, REGISTER_SIZE};
use crate::refusal::{Refusal, DONE};
use crate::table::Mnemonic;

/// A refused step has length 0.
#[derive(Debug, Clone, Copy, PartialEq, Eq, Default)]
pub struct Stepped {
    pub status: u32,
    pub length: u32,
    /// As in [`Decoded`](crate::Decoded).
    pub reason: u32,
}

/// Decodes the instruction at the start of `code` and carries it out on `file`.
pub fn step(code: &[u8], file: &mut [u8], masks: &[u64], features: u32, memory: &[u8]) -> Stepped {
    match accept(code, file, masks, features, memory) {
        Ok(instruction) => {
            execute(&instruction, file, masks, memory);
            Stepped {
                status: DONE,
                length: instruction.length as u32,
                reason: 0,
            }
        }
        Err(refusal) => Stepped {
            status: refusal.number(),
            length: 0,
            reason: refusal.reason(),
        },
    }
}

/// All refusals of a step, in order: 1, then 2 to 5 by decoding, then 6.
fn accept(
    code: &[u8],
    file: &[u8],
    masks: &[u64],
    features: u32,
    memory: &[u8],
) -> Result<Instruction, Refusal> {
    check_state(file, masks, features)?;
    let instruction = parse(code, features)?;
    if memory.len() != instruction.memory() {
        return Err(Refusal::Memory);
    }
    Ok(instruction)
}

/// Reads all sources into a result first, so that a destination may also be a source.
fn execute(instruction: &Instruction, file: &mut [u8], masks: &[u64], memory: &[u8]) {
    let width = instruction.width;
    let mut repeated = [0; REGISTER_SIZE];
    let first = register(file, instruction.first, width);
    let third = third_operand(instruction, file, memory, &mut repeated);
    let mut result = [0; REGISTER_SIZE];
    permute(instruction, first, third, &mut result[..width]);

    let start = instruction.destination * REGISTER_SIZE;
    let destination = &mut file[start..start + REGISTER_SIZE];
    write(instruction, masks, &result[..width], destination);
}

/// The low `width` bytes of a register.
fn register(file: &[u8], number: usize, width: usize) -> &[u8] {
    let start = number * REGISTER_SIZE;
    &file[start..start + width]
}

/// The third operand where it lies; a broadcast element is first written out to full width.
fn third_operand<'a>(
    instruction: &Instruction,
    file: &'a [u8],
    memory: &'a [u8],
    repeated: &'a mut [u8; REGISTER_SIZE],
) -> &'a [u8] {
    match instruction.third {
        Third::Register(number) => register(file, number, instruction.width),
        Third::Memory { broadcast: false } => memory,
        Third::Memory { broadcast: true } => {
            for element in repeated.chunks_exact_mut(memory.len()) {
                element.copy_from_slice(memory);
            }
            &repeated[..instruction.width]
        }
    }
}

/// Fills `result` (one vector) with what the destination gets if no element is masked.
fn permute(instruction: &Instruction, first: &[u8], third: &[u8], result: &mut [u8]) {
    let immediate = instruction.immediate;
    match instruction.row.mnemonic {
        Mnemonic::Vpermilpd if instruction.row.has_immediate => {
            vpermilpd_immediate(third, immediate, result);
        }
        Mnemonic::Vpermilpd => vpermilpd_register(first, third, result),
        Mnemonic::Vpermilps if instruction.row.has_immediate => vpshufd(third, immediate, result),
        Mnemonic::Vpermilps => vpermilps_register(first, third, result),
        Mnemonic::Vpermb => vpermb(first, third, result),
        Mnemonic::Vpshufb => vpshufb(first, third, result),
        Mnemonic::Vunpcklps => unpack::<4, LOW>(first, third, result),
        Mnemonic::Vunpckhps => unpack::<4, HIGH>(first, third, result),
        Mnemonic::Vunpcklpd => unpack::<8, LOW>(first, third, result),
        Mnemonic::Vunpckhpd => unpack::<8, HIGH>(first, third, result),
        Mnemonic::Vpshufd => vpshufd(third, immediate, result),
        Mnemonic::Vperm2f128 => vperm2f128(first, third, immediate, result),
    }
}

fn vpermilpd_immediate(source: &[u8], immediate: u8, result: &mut [u8]) {
    for (j, quadword) in result.chunks_exact_mut(8).enumerate() {
        let pick = (immediate >> j) & 1;
        quadword.copy_from_slice(lane_element::<8>(source, j, pick));
    }
}

/// Bit 1 of each control quadword picks, not bit 0.
fn vpermilpd_register(source: &[u8], control: &[u8], result: &mut [u8]) {
    for (j, quadword) in result.chunks_exact_mut(8).enumerate() {
        let pick = (control[8 * j] >> 1) & 1;
        quadword.copy_from_slice(lane_element::<8>(source, j, pick));
    }
}

/// Bits 1:0 of each control doubleword pick.
fn vpermilps_register(source: &[u8], control: &[u8], result: &mut [u8]) {
    for (j, doubleword) in result.chunks_exact_mut(4).enumerate() {
        let pick = control[4 * j] & 3;
        doubleword.copy_from_slice(lane_element::<4>(source, j, pick));
    }
}

/// Element `pick` of the lane that element `j` is in.
fn lane_element<const SIZE: usize>(source: &[u8], j: usize, pick: u8) -> &[u8] {
    let lane = j / (LANE_SIZE / SIZE);
    let start = lane * LANE_SIZE + SIZE * usize::from(pick);
    &source[start..start + SIZE]
}

fn vpermb(indices: &[u8], source: &[u8], result: &mut [u8]) {
    for (byte, &index) in result.iter_mut().zip(indices) {
        *byte = source[usize::from(index) % source.len()];
    }
}

/// A control byte with bit 7 set clears; the others pick by bits 3:0, within the lane.
fn vpshufb(source: &[u8], control: &[u8], result: &mut [u8]) {
    for (j, (byte, &control)) in result.iter_mut().zip(control).enumerate() {
        let lane = j / LANE_SIZE;
        let pick = usize::from(control & 0x0F);
        *byte = match control & 0x80 {
            0 => source[lane * LANE_SIZE + pick],
            _ => 0,
        };
    }
}

/// Where the halves of a lane start.
const LOW: usize = 0;
const HIGH: usize = LANE_SIZE / 2;

/// The low or the high half of each lane, its elements from the two sources in turn.
fn unpack<const SIZE: usize, const HALF: usize>(first: &[u8], third: &[u8], result: &mut [u8]) {
    let sources = first
        .chunks_exact(LANE_SIZE)
        .zip(third.chunks_exact(LANE_SIZE));
    for (lane, (first, third)) in result.chunks_exact_mut(LANE_SIZE).zip(sources) {
        let pairs = first[HALF..]
            .chunks_exact(SIZE)
            .zip(third[HALF..].chunks_exact(SIZE));
        for (pair, (first, third)) in lane.chunks_exact_mut(2 * SIZE).zip(pairs) {
            pair[..SIZE].copy_from_slice(first);
            pair[SIZE..].copy_from_slice(third);
        }
    }
}

/// Also VPERMILPS with an immediate.
fn vpshufd(source: &[u8], immediate: u8, result: &mut [u8]) {
    let picks = [0, 2, 4, 6].map(|shift| usize::from((immediate >> shift) & 3));
    let lanes = result
        .chunks_exact_mut(LANE_SIZE)
        .zip(source.chunks_exact(LANE_SIZE));
    for (lane, source) in lanes {
        for (doubleword, pick) in lane.chunks_exact_mut(4).zip(picks) {
            doubleword.copy_from_slice(&source[4 * pick..4 * pick + 4]);
        }
    }
}

fn vperm2f128(first: &[u8], third: &[u8], immediate: u8, result: &mut [u8]) {
    let controls = [immediate & 0x0F, immediate >> 4];
    for (half, control) in result.chunks_exact_mut(LANE_SIZE).zip(controls) {
        let source = match control & 3 {
            0 => &first[..LANE_SIZE],
            1 => &first[LANE_SIZE..],
            2 => &third[..LANE_SIZE],
            _ => &third[LANE_SIZE..],
        };
        if control & 8 != 0 {
            half.fill(0);
        } else {
            half.copy_from_slice(source);
        }
    }
}

/// Writes the elements under the opmask and clears the destination above the vector width.
fn write(instruction: &Instruction, masks: &[u64], result: &[u8], destination: &mut [u8]) {
    let mask = match instruction.mask {
        0 => u64::MAX,
        number => masks[number],
    };
    let size = instruction.row.element;
    let (vector, above) = destination.split_at_mut(result.len());
    let elements = vector.chunks_exact_mut(size).zip(result.chunks_exact(size));
    for (j, (to, from)) in elements.enumerate() {
        if (mask >> j) & 1 == 1 {
            to.copy_from_slice(from);
        } else if instruction.zeroing {
            to.fill(0);
        }
    }
    above.fill(0);
}
