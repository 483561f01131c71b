//! Catching the trap, #UD or fault that ends an instruction.

use super::context::{Context, Stop};
use super::pages::LONGEST;
use super::sys::{self, SignalAction, SignalContext, SignalInfo, SignalSet, SignalStack};
use std::cell::Cell;
use std::ffi::c_int;
use std::mem::MaybeUninit;
use std::ptr;
use std::sync::OnceLock;

/// A trap behind the instruction, #UD, and the two signals of a bad address.
const CAUGHT: [c_int; 4] = [sys::SIGTRAP, sys::SIGILL, sys::SIGSEGV, sys::SIGBUS];
/// The trap flag in RFLAGS.
const TRAP_FLAG: u64 = 0x100;

/// What was done about the caught signals before, in the order of `CAUGHT`.
static PREVIOUS: OnceLock<[SignalAction; CAUGHT.len()]> = OnceLock::new();

thread_local! {
    /// The run in progress on this thread, or null.
    static RUNNING: Cell<*mut Context> = const { Cell::new(ptr::null_mut()) };
}

/// Installs the handler, once for the whole process. It stays: signals that do not come from an
/// audited instruction are passed on to what was installed before.
pub fn install() {
    PREVIOUS.get_or_init(|| CAUGHT.map(replace_action));
}

fn replace_action(signal: c_int) -> SignalAction {
    let handler: extern "C" fn(c_int, *mut SignalInfo, *mut SignalContext) = handle;
    let action = SignalAction {
        handler: handler as usize,
        mask: SignalSet([0; 16]),
        flags: sys::SA_SIGINFO | sys::SA_ONSTACK,
        restorer: 0,
    };
    let mut previous = action;
    // SAFETY: both pointers are to live values of the right layout, and the handler has the
    // signature that SA_SIGINFO asks for.
    let result = unsafe { sys::sigaction(signal, &action, &mut previous) };
    assert_eq!(result, 0, "this signal can always be caught");
    previous
}

extern "C" fn handle(signal: c_int, info: *mut SignalInfo, context: *mut SignalContext) {
    let running = RUNNING.get();
    // SAFETY: the kernel gives a handler with SA_SIGINFO valid information and a valid context, for
    // it alone.
    let (code, general) = unsafe { ((*info).code, &mut (*context).general) };
    // SAFETY: a pointer that is not null is to the context of the run that this signal interrupts;
    // nothing else uses it until the handler returns.
    match unsafe { running.as_mut() } {
        Some(run) if is_raised(code) && is_inside(run, general[sys::REG_RIP]) => {
            stop(run, signal, general);
        }
        _ => pass_on(signal, code),
    }
}

/// Whether the instruction pointer is at the audited instruction or behind it. One more byte
/// counts, for the breakpoint that follows the longest one.
fn is_inside(run: &Context, place: u64) -> bool {
    (run.entry..=run.entry + LONGEST as u64 + 1).contains(&place)
}

/// Notes how the instruction ended, and continues behind it with the caller's stack.
fn stop(run: &mut Context, signal: c_int, general: &mut [u64; 23]) {
    run.stop = Stop {
        signal,
        place: general[sys::REG_RIP],
    };
    general[sys::REG_RIP] = run.resume;
    general[sys::REG_RSP] = run.stack_pointer;
    general[sys::REG_EFL] &= !TRAP_FLAG;
    general[sys::REG_RDI] = ptr::from_mut(run) as u64;
}

/// Whether the processor raised the signal. Codes of sent ones are 0 or less.
fn is_raised(code: c_int) -> bool {
    code > 0
}

/// Puts the previous action back. A fault then happens again and reaches it; a trap, or a signal
/// that someone sent, has to be raised again.
fn pass_on(signal: c_int, code: c_int) {
    let place = CAUGHT.iter().position(|caught| *caught == signal);
    if let (Some(previous), Some(place)) = (PREVIOUS.get(), place) {
        // SAFETY: the action is one that the system gave for this signal.
        unsafe { sys::sigaction(signal, &previous[place], ptr::null_mut()) };
    }
    if signal == sys::SIGTRAP || !is_raised(code) {
        // SAFETY: raising a signal is allowed in a handler. It arrives when the handler returns.
        unsafe { sys::raise(signal) };
    }
}

/// While this lives, the handler knows the context and has a large stack. No other signal arrives
/// meanwhile: its handler might use the instruction's RSP, which is no stack.
pub struct Armed {
    previous_stack: SignalStack,
    previous_mask: SignalSet,
}

impl Armed {
    /// # Safety
    ///
    /// `stack` and `context` outlive the returned value, and this thread alone uses `context`.
    pub unsafe fn new(context: *mut Context, stack: &SignalStack) -> Armed {
        let mut previous_stack = MaybeUninit::uninit();
        let mut previous_mask = MaybeUninit::uninit();
        let mut blocked = SignalSet([u64::MAX; 16]);
        for signal in CAUGHT {
            blocked.0[0] &= !(1 << (signal - 1));
        }
        // SAFETY: the pointers are to live values of the right layout, and the caller keeps the
        // stack alive.
        let results = unsafe {
            [
                sys::sigaltstack(stack, previous_stack.as_mut_ptr()),
                sys::pthread_sigmask(sys::SIG_SETMASK, &blocked, previous_mask.as_mut_ptr()),
            ]
        };
        assert_eq!(results, [0, 0], "cannot prepare for signals");
        RUNNING.set(context);
        Armed {
            // SAFETY: the calls above succeeded and have written both.
            previous_stack: unsafe { previous_stack.assume_init() },
            // SAFETY: as above.
            previous_mask: unsafe { previous_mask.assume_init() },
        }
    }
}

impl Drop for Armed {
    fn drop(&mut self) {
        RUNNING.set(ptr::null_mut());
        // SAFETY: both values are what the system gave before.
        let results = unsafe {
            [
                sys::pthread_sigmask(sys::SIG_SETMASK, &self.previous_mask, ptr::null_mut()),
                sys::sigaltstack(&self.previous_stack, ptr::null_mut()),
            ]
        };
        debug_assert_eq!(results, [0, 0]);
    }
}
