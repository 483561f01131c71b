//! Where in memory an instruction's operand is.

use crate::ffi;

/// What working out an address gave. Every field but `status` and `reason` is 0 or false when
/// `status` is not 0.
#[derive(Debug, Clone, Copy, PartialEq, Eq)]
pub struct Addressed {
    /// Address of the memory operand's first byte, 0 if the third operand is a register.
    pub address: u64,
    /// 0 if the instruction was accepted, else 1 to 5; [`describe`](crate::describe) has each.
    pub status: u32,
    /// With status 4, which reserved field is wrong: one of [`reason`](crate::reason). Else 0.
    pub reason: u32,
    /// Whether the instruction has a memory operand. Only then is `address` one.
    pub has_address: bool,
}

/// The address of the memory operand of the instruction at the start of `code`.
///
/// `registers` are the 16 general registers in the encoding's order: rax, rcx, rdx, rbx, rsp, rbp,
/// rsi, rdi, r8 to r15. Another number of them is refused with status 1. `instruction_address` is
/// where the instruction itself stands, and counts for a rip-relative operand alone. `features`,
/// and the statuses 2 to 5, are those of [`decode`](crate::decode).
///
/// The sum wraps around at 64 bits. Segment bases are left out, and a prefix in front is refused
/// with status 3: for fs or gs, pass the code and the address behind the prefix, and add the
/// segment's base. How many bytes stand there is `memory` of [`Decoded`](crate::Decoded).
///
/// ```
/// use tarhuspo::limits::GPR_COUNT;
/// use tarhuspo::{address, features};
///
/// let mut registers = [0; GPR_COUNT];
/// (registers[0], registers[1]) = (0x1000, 3);
///
/// // vpshufd xmm0, [rax + rcx*4 + 0x10], 0x1b
/// let code = [0xC5, 0xF9, 0x70, 0x44, 0x88, 0x10, 0x1B];
/// let addressed = address(&code, features::ALL, &registers, 0);
/// assert!(addressed.has_address);
/// assert_eq!(addressed.address, 0x1000 + 4 * 3 + 0x10);
///
/// // vpshufd xmm1, xmm2, 0x1b has no operand in memory.
/// let addressed = address(&[0xC5, 0xF9, 0x70, 0xCA, 0x1B], features::ALL, &registers, 0);
/// assert_eq!((addressed.status, addressed.has_address), (0, false));
/// ```
///
/// EVEX counts a displacement of one byte in vectors, or in elements where it broadcasts one. And
/// an address relative to rip is one relative to the next instruction:
///
/// ```
/// # use tarhuspo::limits::GPR_COUNT;
/// # use tarhuspo::{address, features};
/// # let mut registers = [0; GPR_COUNT];
/// # registers[0] = 0x1000;
/// // vunpcklps zmm1, zmm2, [rax - 0x40]
/// let code = [0x62, 0xF1, 0x6C, 0x48, 0x14, 0x48, 0xFF];
/// assert_eq!(address(&code, features::ALL, &registers, 0).address, 0x1000 - 0x40);
///
/// // vunpcklps zmm1, zmm2, dword [rax - 4]{1to16}
/// let code = [0x62, 0xF1, 0x6C, 0x58, 0x14, 0x48, 0xFF];
/// assert_eq!(address(&code, features::ALL, &registers, 0).address, 0x1000 - 4);
///
/// // vunpcklps xmm1, xmm2, [rip + 0x10], which has 8 bytes
/// let code = [0xC5, 0xE8, 0x14, 0x0D, 0x10, 0x00, 0x00, 0x00];
/// assert_eq!(address(&code, features::ALL, &registers, 0x2000).address, 0x2000 + 8 + 0x10);
/// ```
pub fn address(
    code: &[u8],
    features: u32,
    registers: &[u64],
    instruction_address: u64,
) -> Addressed {
    // SAFETY: a slice's pointer is non-null, aligned and valid for its length. The library reads
    // these slices, writes nothing and keeps no pointer.
    let answer = unsafe {
        ffi::tarhuspo_address(
            code.as_ptr(),
            code.len(),
            features,
            registers.as_ptr(),
            registers.len(),
            instruction_address,
        )
    };
    Addressed {
        address: answer.address,
        status: answer.status,
        reason: answer.reason,
        has_address: answer.has_address != 0,
    }
}
