//! `tarhuspo address`.

use crate::tools::{assert_bad_usage, printed, run, WRONG_VVVV};

/// vpshufd zmm1, zmmword ptr [rbx + r12*4 - 0x40], 0x1b
const ZMM: &str = "62 B1 7D 48 70 4C A3 FF 1B";
/// vunpcklps xmm1, xmm2, xmmword ptr [rip - 0x10]
const RELATIVE: &str = "C5 E8 14 0D F0 FF FF FF";

#[test]
fn address_operand_and_registers() {
    let expected = "\
address: 0xfe0
operand: zmmword ptr [rbx + r12*4 - 0x40]
rbx:     0x1000
r12:     0x8
";
    for arguments in [
        &["address", ZMM, "--gpr", "rbx=0x1000,r12=8"][..],
        &["address", ZMM, "--gpr", "rbx=4096", "--gpr", "r12=0x8"],
        &[
            "address",
            ZMM,
            "--gpr=R12=8",
            "--gpr",
            " RBX = 0X1000 ",
            "--at",
            "0x123",
        ],
        &[
            "address",
            "--gpr",
            "rax=1,r12=8,rbx=0x1000",
            "62B17D4870",
            "4C A3FF1B",
        ],
        &[
            "address",
            ZMM,
            "90",
            "--gpr",
            "rbx=0x1000,r12=8",
            "--features",
            "avx,avx512f",
        ],
    ] {
        assert_eq!(printed(arguments), expected, "{arguments:?}");
    }
}

/// Whoever forgets a register sees so.
#[test]
fn what_is_not_given_is_0() {
    let expected = "\
address: 0xffffffffffffffe0
operand: zmmword ptr [rbx + r12*4 - 0x40]
rbx:     0x0 (not given)
r12:     0x8
";
    assert_eq!(printed(&["address", ZMM, "--gpr", "r12=8"]), expected);
    let expected = "\
address: 0xfffffffffffffff8
operand: xmmword ptr [rip - 0x10]
rip:     0x8 (the next instruction; --at is not given)
";
    assert_eq!(printed(&["address", RELATIVE]), expected);
}

#[test]
fn rip_is_behind_the_instruction() {
    let expected = "\
address: 0x1ff8
operand: xmmword ptr [rip - 0x10]
rip:     0x2008 (the next instruction)
";
    for at in ["0x2000", "8192"] {
        assert_eq!(printed(&["address", RELATIVE, "--at", at]), expected);
    }
    // With an immediate, vpshufd xmm1, [rip + 0x10], 0x1b; and past 2^64.
    let bytes = "C5 F9 70 0D 10 00 00 00 1B";
    assert_eq!(address(&[bytes, "--at", "0x2000"]), "0x2019");
    let last = u64::MAX.to_string();
    assert_eq!(address(&[bytes, "--at", &last]), "0x18");
    assert_eq!(address(&[bytes, "--at", "0xFFFFFFFFFFFFFFFF"]), "0x18");
}

/// The address alone.
fn address(arguments: &[&str]) -> String {
    let words = printed(&[&["address"], arguments].concat());
    let first = words
        .lines()
        .next()
        .and_then(|line| line.strip_prefix("address: "));
    first.expect("the first line has the address").to_string()
}

#[test]
fn every_part_of_an_address_counts() {
    let general = "rax=0x100000000,rcx=3,rbp=0x50,r12=0x10,r13=0x700";
    let address = |bytes| address(&[bytes, "--gpr", general]);
    for (bytes, expected) in [
        ("C5 F9 70 08 1B", "0x100000000"),
        ("C5 F9 70 48 FF 1B", "0xffffffff"),
        ("C5 F9 70 4C 88 10 1B", "0x10000001c"),
        ("C4 C1 79 70 0C 24 1B", "0x10"),
        ("C4 C1 79 70 4D 00 1B", "0x700"),
        ("C5 F9 70 0C CD 10 00 00 00 1B", "0x28"),
        ("C5 F9 70 0C 25 00 00 00 80 1B", "0xffffffff80000000"),
        ("62 F1 7D 48 70 48 7F 1B", "0x100001fc0"),
        ("62 F1 7D 48 70 48 80 1B", "0xffffe000"),
        ("62 F1 7D 58 70 48 FF 1B", "0xfffffffc"),
    ] {
        assert_eq!(address(bytes), expected, "{bytes}");
    }
}

/// Values up to 2^64 - 1, and a sum that wraps around.
#[test]
fn sums_wrap_around() {
    // [rax + rcx*8 + 0x10]
    let bytes = "C5 F9 70 4C C8 10 1B";
    let all = "rax=0xffffffffffffffff,rcx=18446744073709551615";
    assert_eq!(address(&[bytes, "--gpr", all]), "0x7");
}

#[test]
fn one_register_is_named_once() {
    let expected = "\
address: 0xf
operand: xmmword ptr [rax + rax*2]
rax:     0x5
";
    assert_eq!(
        printed(&["address", "C5 F9 70 0C 40 1B", "--gpr", "rax=5"]),
        expected
    );
}

#[test]
fn an_absolute_address_has_no_registers() {
    let expected = "\
address: 0x12345678
operand: dword ptr [0x12345678]{1to16}
";
    let bytes = "62 F1 7D 58 70 0C 25 78 56 34 12 1B";
    assert_eq!(
        printed(&["address", bytes, "--at", "7", "--gpr", "rbp=1"]),
        expected
    );
}

/// That is no refusal.
#[test]
fn register_forms_have_no_address() {
    for (bytes, register) in [
        ("C5 F9 70 CA 1B", "xmm2"),
        ("62 81 7D 48 70 CA 1B", "zmm26"),
    ] {
        let expected = format!("no memory operand: the third operand is the register {register}\n");
        assert_eq!(printed(&["address", bytes, "--gpr", "rdx=1"]), expected);
    }
}

/// The refusal is what was asked for, and goes to standard output.
#[test]
fn refusals_are_those_of_decode() {
    let refusal = |words: &str| (Some(1), format!("refused, status {words}\n"), String::new());
    let describe = |status: u32| refusal(&format!("{status}: {}", tarhuspo::describe(status)));
    assert_eq!(run(&["address", "C5 F9 70 08"]), describe(2));
    assert_eq!(run(&["address", "90"]), describe(3));
    // vpshufd zmm1, [rax], 0x1b in EVEX map 5
    assert_eq!(run(&["address", "62 F5 7D 48 70 08 1B"]), describe(3));
    assert_eq!(run(&["address", "C5 E9 70 08 1B"]), refusal(WRONG_VVVV));
    assert_eq!(run(&["address", ZMM, "--features", "avx"]), describe(5));
    assert_eq!(run(&["address", ZMM, "--features", "64"]), describe(1));
    for bytes in [
        "",
        "62",
        "C5 E9 70 08 1B",
        "62 F1 7D 68 70 08 1B",
        "62 F9 7D 48 70 08 1B",
    ] {
        let (status, out, err) = run(&["decode", bytes]);
        assert_eq!(run(&["address", bytes]), (status, out, err), "{bytes}");
    }
}

#[test]
fn bad_usage_is_one_line() {
    let bytes = "expected hex bytes after 'address', as in: address C5 F9 70 08 1B";
    assert_bad_usage(&["address"], bytes);
    assert_bad_usage(&["address", "--at", "1"], bytes);
    assert_bad_usage(&["address", "5"], "expected pairs of hex digits, not '5'");
    let option = "expected an option among --at, --gpr, --features, not '--regs'";
    assert_bad_usage(&["address", "90", "--regs", "rax=1"], option);
    let missing = "expected the instruction's address after --at";
    assert_bad_usage(&["address", "90", "--at"], missing);
    let missing = "expected registers, as in rbx=0x1000,r12=8, after --gpr";
    assert_bad_usage(&["address", "90", "--gpr"], missing);
    let twice = "expected --at only once";
    assert_bad_usage(&["address", "90", "--at=1", "--at=1"], twice);
}

const TOO_LARGE: [&str; 2] = ["18446744073709551616", "0x10000000000000000"];
const NO_NUMBER: [&str; 7] = ["", "0x", "ff", "-1", "+1", "0x+1", "1 2"];

#[test]
fn numbers_are_decimal_or_hex_with_0x() {
    for given in TOO_LARGE.iter().chain(&NO_NUMBER) {
        let what = "a number below 2^64 after --at, decimal or hex with 0x";
        let message = format!("expected {what}, not '{given}'");
        assert_bad_usage(&["address", ZMM, &format!("--at={given}")], &message);
        let what = "a number below 2^64 for rbx, decimal or hex with 0x";
        let message = format!("expected {what}, not '{given}'");
        assert_bad_usage(
            &["address", ZMM, "--gpr", &format!("rbx={given}")],
            &message,
        );
    }
}

#[test]
fn registers_are_told_by_name() {
    let assert_odd = |list: &str, message: &str| {
        assert_bad_usage(&["address", ZMM, "--gpr", list], message);
    };
    let names = "expected rax, rcx, rdx, rbx, rsp, rbp, rsi, rdi or r8 to r15 in --gpr";
    for name in ["eax", "r16", "zmm1", "r08", "", "rax rcx"] {
        assert_odd(&format!("{name}=1"), &format!("{names}, not '{name}'"));
    }
    let pair = "expected a register and its value after --gpr, as in rbx=0x1000";
    for (list, part) in [
        ("rbx", "rbx"),
        ("rbx=1,", ""),
        ("", ""),
        ("rbx 1,rcx=1", "rbx 1"),
    ] {
        assert_odd(list, &format!("{pair}, not '{part}'"));
    }
    assert_odd("rbx=1,RBX=1", "expected rbx only once in --gpr");
    assert_odd(
        "rip=1",
        "expected --at for the instruction's address: rip follows from it",
    );
    let twice = "expected r12 only once in --gpr";
    assert_bad_usage(&["address", ZMM, "--gpr", "r12=1", "--gpr", "r12=1"], twice);
}
