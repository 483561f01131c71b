//! The few functions and types of the C library that the audit needs, for x86-64 Linux.

use std::ffi::{c_int, c_void};

pub const PROT_NONE: c_int = 0;
pub const PROT_READ: c_int = 1;
pub const PROT_WRITE: c_int = 2;
pub const PROT_EXEC: c_int = 4;

pub const MAP_PRIVATE: c_int = 0x02;
pub const MAP_ANONYMOUS: c_int = 0x20;
/// An address below 2 GiB.
pub const MAP_32BIT: c_int = 0x40;
pub const MAP_FAILED: *mut c_void = usize::MAX as *mut c_void;

pub const SIGILL: c_int = 4;
pub const SIGTRAP: c_int = 5;
pub const SIGBUS: c_int = 7;
pub const SIGSEGV: c_int = 11;

pub const SA_SIGINFO: c_int = 4;
pub const SA_ONSTACK: c_int = 0x0800_0000;
pub const SIG_SETMASK: c_int = 2;

/// Places of registers in `SignalContext::general`.
pub const REG_RDI: usize = 8;
pub const REG_RSP: usize = 15;
pub const REG_RIP: usize = 16;
pub const REG_EFL: usize = 17;

/// One bit for each signal, signal 1 lowest.
#[repr(C)]
#[derive(Clone, Copy)]
pub struct SignalSet(pub [u64; 16]);

/// `struct sigaction`. The handler is a function's address.
#[repr(C)]
#[derive(Clone, Copy)]
pub struct SignalAction {
    pub handler: usize,
    pub mask: SignalSet,
    pub flags: c_int,
    pub restorer: usize,
}

/// `stack_t`
#[repr(C)]
#[derive(Clone, Copy)]
pub struct SignalStack {
    pub start: *mut c_void,
    pub flags: c_int,
    pub size: usize,
}

/// The start of `siginfo_t`.
#[repr(C)]
pub struct SignalInfo {
    pub signal: c_int,
    pub errno: c_int,
    pub code: c_int,
}

/// The start of `ucontext_t`, up to the general registers.
#[repr(C)]
pub struct SignalContext {
    pub flags: u64,
    pub link: *mut c_void,
    pub stack: SignalStack,
    pub general: [u64; 23],
}

extern "C" {
    pub fn mmap(
        address: *mut c_void,
        length: usize,
        protection: c_int,
        flags: c_int,
        file: c_int,
        offset: i64,
    ) -> *mut c_void;
    pub fn munmap(address: *mut c_void, length: usize) -> c_int;
    pub fn mprotect(address: *mut c_void, length: usize, protection: c_int) -> c_int;
    pub fn sigaction(signal: c_int, new: *const SignalAction, old: *mut SignalAction) -> c_int;
    pub fn sigaltstack(new: *const SignalStack, old: *mut SignalStack) -> c_int;
    pub fn pthread_sigmask(how: c_int, new: *const SignalSet, old: *mut SignalSet) -> c_int;
    pub fn raise(signal: c_int) -> c_int;
}
