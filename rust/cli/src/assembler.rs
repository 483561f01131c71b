//! A decoded instruction in words.

use crate::operand::Operand;
use tarhuspo::{mnemonic_name, Decoded};

/// The instruction as an assembler writes it, then each field on its own line. `operand` is its
/// memory operand, if it has one.
pub fn described(decoded: &Decoded, operand: Option<&Operand>) -> String {
    let mut text = instruction(decoded, operand) + "\n";
    for (name, value) in fields(decoded, operand) {
        let value = value.unwrap_or_else(|| "none".to_string());
        text += &format!("{:15}{value}\n", format!("{name}:"));
    }
    text
}

fn instruction(decoded: &Decoded, operand: Option<&Operand>) -> String {
    let mut operands = vec![destination(decoded)];
    if decoded.has_first() {
        operands.push(register(decoded, decoded.first));
    }
    operands.push(match operand {
        Some(operand) => memory(decoded, operand),
        None => register(decoded, decoded.third),
    });
    if decoded.has_immediate != 0 {
        operands.push(immediate(decoded));
    }
    format!("{} {}", name(decoded).to_lowercase(), operands.join(", "))
}

fn name(decoded: &Decoded) -> &'static str {
    mnemonic_name(decoded.mnemonic).unwrap_or("unknown")
}

/// A register by its number and the vector width.
pub fn register(decoded: &Decoded, number: u32) -> String {
    let file = match decoded.bits {
        128 => "xmm",
        256 => "ymm",
        _ => "zmm",
    };
    format!("{file}{number}")
}

fn destination(decoded: &Decoded) -> String {
    let mut text = register(decoded, decoded.destination);
    if decoded.mask != 0 {
        text += &format!("{{k{}}}", decoded.mask);
    }
    if decoded.zeroing != 0 {
        text += "{z}";
    }
    text
}

/// A memory operand with its size, and with the elements that a broadcast fills.
pub fn memory(decoded: &Decoded, operand: &Operand) -> String {
    let text = format!("{} ptr {operand}", size(decoded.memory));
    match decoded.broadcast {
        0 => text,
        _ => format!("{text}{{1to{}}}", elements(decoded)),
    }
}

/// What an assembler calls so many bytes of memory.
fn size(bytes: u32) -> &'static str {
    match bytes {
        1 => "byte",
        2 => "word",
        4 => "dword",
        8 => "qword",
        16 => "xmmword",
        32 => "ymmword",
        _ => "zmmword",
    }
}

/// How many elements a broadcast fills.
fn elements(decoded: &Decoded) -> u32 {
    (decoded.bits / 8).checked_div(decoded.memory).unwrap_or(0)
}

fn immediate(decoded: &Decoded) -> String {
    format!("{:#04x}", decoded.immediate)
}

/// Each field with its value in words, or nothing where the instruction has none.
fn fields(decoded: &Decoded, operand: Option<&Operand>) -> [(&'static str, Option<String>); 11] {
    let register = |number| register(decoded, number);
    let third = match operand {
        Some(operand) => operand.to_string(),
        None => register(decoded.third),
    };
    let memory = operand.map(|_| format!("{} bytes", decoded.memory));
    let first = decoded.has_first().then(|| register(decoded.first));
    let opmask = (decoded.mask != 0).then(|| format!("k{}", decoded.mask));
    let immediate = (decoded.has_immediate != 0).then(|| immediate(decoded));
    [
        ("length", Some(format!("{} bytes", decoded.length))),
        ("memory", memory),
        ("encoding", Some(encoding(decoded).to_string())),
        ("vector width", Some(format!("{} bits", decoded.bits))),
        ("destination", Some(register(decoded.destination))),
        ("first source", first),
        ("third operand", Some(third)),
        ("opmask", opmask),
        ("masked off", masked_off(decoded)),
        ("broadcast", broadcast(decoded)),
        ("immediate", immediate),
    ]
}

fn encoding(decoded: &Decoded) -> &'static str {
    match decoded.evex {
        0 => "VEX",
        _ => "EVEX",
    }
}

/// What becomes of the elements that the opmask leaves out.
fn masked_off(decoded: &Decoded) -> Option<String> {
    let text = match (decoded.mask, decoded.zeroing) {
        (0, _) => return None,
        (_, 0) => "elements are merged",
        _ => "elements are zeroed",
    };
    Some(text.to_string())
}

fn broadcast(decoded: &Decoded) -> Option<String> {
    let element = size(decoded.memory);
    (decoded.broadcast != 0).then(|| format!("one {element} to {}", elements(decoded)))
}
