//! The process that runs an audit is as it was afterwards.

#![cfg(all(
    target_arch = "x86_64",
    target_os = "linux",
    target_pointer_width = "64"
))]

use audit::{audit, engine, Capabilities, Limit, Options, Outcome, Processor, State};
use std::arch::asm;
use std::ffi::c_int;
use std::os::unix::process::ExitStatusExt;
use std::process::{Command, Output};

/// `stack_t` as words, and the first word of `sigset_t`.
type SignalStack = [usize; 3];
type SignalSet = [u64; 16];

extern "C" {
    fn sigaltstack(new: *const SignalStack, old: *mut SignalStack) -> c_int;
    fn pthread_sigmask(how: c_int, new: *const SignalSet, old: *mut SignalSet) -> c_int;
}

/// What an instruction or a signal handler might leave changed.
#[derive(Debug, PartialEq)]
struct Own {
    mxcsr: u32,
    x87_control: u16,
    /// Trap, interrupt, direction and alignment flags; the others change with every comparison.
    flags: u64,
    signal_stack: SignalStack,
    signal_mask: SignalSet,
}

impl Own {
    fn read() -> Own {
        let (mut mxcsr, mut x87_control) = (0, 0);
        let mut flags: u64;
        // SAFETY: the instructions store to the two variables and to the stack, and change nothing.
        unsafe {
            asm!("stmxcsr [{}]", in(reg) &mut mxcsr, options(nostack));
            asm!("fnstcw [{}]", in(reg) &mut x87_control, options(nostack));
            asm!("pushfq", "pop {}", out(reg) flags);
        }
        let (mut signal_stack, mut signal_mask) = ([0; 3], [0; 16]);
        // SAFETY: with no new value both only write the old one, which has room.
        let results = unsafe {
            [
                sigaltstack(std::ptr::null(), &mut signal_stack),
                pthread_sigmask(0, std::ptr::null(), &mut signal_mask),
            ]
        };
        assert_eq!(results, [0, 0]);
        // The flags word of the stack is an int: its upper half is padding.
        signal_stack[1] &= 0xFFFF_FFFF;
        Own {
            mxcsr,
            x87_control,
            flags: flags & 0x4_0700,
            signal_stack,
            signal_mask,
        }
    }
}

/// A sum that depends on rounding, and on every register that the compiler keeps it in.
fn sum() -> f64 {
    (1..10_000).map(|n| 1.0 / f64::from(n)).sum()
}

fn has_avx() -> bool {
    let has = Capabilities::detect()
        .expect("possible features")
        .register_set()
        .is_some();
    if !has {
        println!("skipped: no AVX on this machine");
    }
    has
}

/// Accepted instructions, #UD and faults.
fn run_many() {
    let options = Options::new(7, Limit::Steps(20_000));
    audit(&mut engine::reference(), options).expect("no difference");
    let mut processor =
        Processor::new(Capabilities::detect().expect("possible features")).expect("pages");
    for _ in 0..1_000 {
        // vpshufd xmm1, [rax], 0x1b without memory
        let outcome = processor.run(&[0xC5, 0xF9, 0x70, 0x08, 0x1B], &State::ZERO, &[]);
        assert_eq!(outcome, Outcome::Fault);
    }
}

#[test]
fn own_state_is_kept() {
    if !has_avx() {
        return;
    }
    let before = sum();
    let own = Own::read();
    let kept: Vec<u64> = (0..1_000).map(|n| n * n).collect();
    run_many();
    assert_eq!(Own::read(), own);
    assert_eq!(sum().to_bits(), before.to_bits());
    assert!(kept.iter().zip(0..).all(|(value, n)| *value == n * n));
}

/// Tells `child_process` how to end.
const END: &str = "AUDIT_TEST_END";

/// Runs `child_process` in a process of its own.
fn child(end: &str) -> Output {
    let program = std::env::current_exe().expect("the path of this test");
    Command::new(program)
        .args(["--exact", "child_process", "--nocapture"])
        .env(END, end)
        .output()
        .expect("this test starts again")
}

/// Signals that have nothing to do with an audited instruction end the process as always.
#[test]
fn other_signals_are_passed_on() {
    if !has_avx() {
        return;
    }
    let ends = [
        ("undefined", 4),
        ("breakpoint", 5),
        ("null", 11),
        ("sent", 4),
    ];
    for (end, signal) in ends {
        let output = child(end);
        assert_eq!(output.status.signal(), Some(signal), "{end}: {output:?}");
    }
}

/// The handler of the standard library still has its say, and its stack.
#[test]
fn stack_overflow_is_still_reported() {
    if !has_avx() {
        return;
    }
    let output = child("overflow");
    let text = String::from_utf8_lossy(&output.stderr);
    assert_eq!(output.status.signal(), Some(6), "{output:?}");
    assert!(text.contains("overflowed its stack"), "{text}");
}

/// Passes at once, unless `child` has started it to end in one of these ways.
#[test]
fn child_process() {
    extern "C" {
        fn raise(signal: c_int) -> c_int;
    }
    let Ok(end) = std::env::var(END) else { return };
    run_many();
    // SAFETY: each of these is meant to end this process, by a signal of its own.
    unsafe {
        match end.as_str() {
            "undefined" => asm!("ud2"),
            "breakpoint" => asm!("int3"),
            "null" => asm!("mov {0}, [{0}]", inout(reg) 0_u64 => _),
            "sent" => assert_eq!(raise(4), 0),
            _ => assert_eq!(deep(0), 0),
        }
    }
}

/// Uses more stack than there is: each call needs its frame after the next one.
fn deep(depth: u64) -> u64 {
    let frame = std::hint::black_box([depth; 64]);
    if depth == u64::MAX {
        return 0;
    }
    deep(depth + 1) + frame[63]
}
