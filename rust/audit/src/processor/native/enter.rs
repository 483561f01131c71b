//! Assembly around one instruction: load all registers, start it, store all registers.
//!
//! `enter_*` sets the trap flag and jumps to the instruction in one go (IRETQ), so that the
//! processor stops behind this one instruction, whatever its length, and no other is executed.
//! IRETQ also gives the instruction its own RSP. The signal handler (for the trap, #UD or a fault)
//! continues at `resume_*` with the context in RDI and the caller's stack, and that returns to the
//! caller of `enter_*`.
//!
//! Callee-saved registers are on the caller's stack meanwhile. No permute changes MXCSR, the
//! direction flag or any other flag.
//!
//! `repeat_zmm` does without trap and signal handler, for instructions that are known not to stop.

use super::context::{Context, RSP};
use crate::state::State;
use std::arch::naked_asm;
use std::mem::offset_of;

const BEFORE_FILE: usize = offset_of!(Context, before) + offset_of!(State, file);
const BEFORE_MASKS: usize = offset_of!(Context, before) + offset_of!(State, masks);
const AFTER_FILE: usize = offset_of!(Context, after) + offset_of!(State, file);
const AFTER_MASKS: usize = offset_of!(Context, after) + offset_of!(State, masks);
const GENERAL: usize = offset_of!(Context, general);

/// Saves the registers that belong to the caller.
macro_rules! save {
    () => {
        "push rbx
        push rbp
        push r12
        push r13
        push r14
        push r15
        mov [rdi + {stack_pointer}], rsp"
    };
}

/// Loads k0 to k7 and zmm0 to zmm31.
macro_rules! load_zmm {
    () => {
        ".irp n, 0,1,2,3,4,5,6,7
        kmovq k\\n, [rdi + {masks} + 8 * \\n]
        .endr
        .irp n, 0,1,2,3,4,5,6,7,8,9,10,11,12,13,14,15
        vmovdqu64 zmm\\n, [rdi + {file} + 64 * \\n]
        .endr
        .irp n, 16,17,18,19,20,21,22,23,24,25,26,27,28,29,30,31
        vmovdqu64 zmm\\n, [rdi + {file} + 64 * \\n]
        .endr"
    };
}

/// Stores k0 to k7 and zmm0 to zmm31.
macro_rules! store_zmm {
    () => {
        ".irp n, 0,1,2,3,4,5,6,7
        kmovq [rdi + {masks} + 8 * \\n], k\\n
        .endr
        .irp n, 0,1,2,3,4,5,6,7,8,9,10,11,12,13,14,15
        vmovdqu64 [rdi + {file} + 64 * \\n], zmm\\n
        .endr
        .irp n, 16,17,18,19,20,21,22,23,24,25,26,27,28,29,30,31
        vmovdqu64 [rdi + {file} + 64 * \\n], zmm\\n
        .endr"
    };
}

/// Makes the frame for IRETQ (SS, RSP, RFLAGS with the trap flag, CS, RIP), loads the general
/// registers, RDI last, and starts the instruction.
macro_rules! start {
    () => {
        "mov eax, ss
        push rax
        push qword ptr [rdi + {general} + 8 * {rsp_number}]
        pushfq
        or qword ptr [rsp], 0x100
        mov eax, cs
        push rax
        push qword ptr [rdi + {entry}]
        mov rax, [rdi + {general}]
        mov rcx, [rdi + {general} + 8 * 1]
        mov rdx, [rdi + {general} + 8 * 2]
        mov rbx, [rdi + {general} + 8 * 3]
        mov rbp, [rdi + {general} + 8 * 5]
        mov rsi, [rdi + {general} + 8 * 6]
        .irp n, 8,9,10,11,12,13,14,15
        mov r\\n, [rdi + {general} + 8 * \\n]
        .endr
        mov rdi, [rdi + {general} + 8 * 7]
        iretq"
    };
}

/// Gives the caller its registers back. VZEROUPPER spares it the cost of dirty upper halves.
macro_rules! restore {
    () => {
        "vzeroupper
        pop r15
        pop r14
        pop r13
        pop r12
        pop rbp
        pop rbx
        ret"
    };
}

/// Starts the instruction with zmm0 to zmm31 and k0 to k7 of `before`.
///
/// # Safety
///
/// The processor has AVX512F and AVX512BW. The signal handler is installed and knows `context`,
/// and `entry` is the address of one instruction that writes no memory.
#[unsafe(naked)]
pub unsafe extern "C" fn enter_zmm(context: *mut Context) {
    naked_asm!(
        save!(),
        load_zmm!(),
        start!(),
        file = const BEFORE_FILE,
        masks = const BEFORE_MASKS,
        general = const GENERAL,
        rsp_number = const RSP,
        entry = const offset_of!(Context, entry),
        stack_pointer = const offset_of!(Context, stack_pointer),
    )
}

/// Stores zmm0 to zmm31 and k0 to k7 to `after` and ends the call of `enter_zmm`.
///
/// # Safety
///
/// Not to be called: only the signal handler continues here.
#[unsafe(naked)]
pub unsafe extern "C" fn resume_zmm() {
    naked_asm!(
        store_zmm!(),
        restore!(),
        file = const AFTER_FILE,
        masks = const AFTER_MASKS,
    )
}

/// Starts the instruction with ymm0 to ymm15 of `before`.
///
/// # Safety
///
/// As for `enter_zmm`, but AVX is enough.
#[unsafe(naked)]
pub unsafe extern "C" fn enter_ymm(context: *mut Context) {
    naked_asm!(
        save!(),
        ".irp n, 0,1,2,3,4,5,6,7,8,9,10,11,12,13,14,15
        vmovdqu ymm\\n, [rdi + {file} + 64 * \\n]
        .endr",
        start!(),
        file = const BEFORE_FILE,
        general = const GENERAL,
        rsp_number = const RSP,
        entry = const offset_of!(Context, entry),
        stack_pointer = const offset_of!(Context, stack_pointer),
    )
}

/// Stores ymm0 to ymm15 to `after` and ends the call of `enter_ymm`.
///
/// # Safety
///
/// Not to be called: only the signal handler continues here.
#[unsafe(naked)]
pub unsafe extern "C" fn resume_ymm() {
    naked_asm!(
        ".irp n, 0,1,2,3,4,5,6,7,8,9,10,11,12,13,14,15
        vmovdqu [rdi + {file} + 64 * \\n], ymm\\n
        .endr",
        restore!(),
        file = const AFTER_FILE,
    )
}

/// Calls the code at `entry` `passes` times, with zmm0 to zmm31 and k0 to k7 loaded from `state`
/// before and stored there in the end. All of these are the caller's to lose, so none is saved.
///
/// # Safety
///
/// The processor has AVX512F and AVX512BW. The code at `entry` changes vector registers alone, and
/// returns.
#[unsafe(naked)]
pub unsafe extern "C" fn repeat_zmm(state: *mut State, passes: u64, entry: u64) {
    naked_asm!(
        load_zmm!(),
        "2:
        sub rsi, 1
        jb 3f
        call rdx
        jmp 2b
        3:",
        store_zmm!(),
        "vzeroupper
        ret",
        file = const offset_of!(State, file),
        masks = const offset_of!(State, masks),
    )
}
