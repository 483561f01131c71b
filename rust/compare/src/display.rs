//! Inputs as text, whole, so that a failed case can be repeated.

use std::fmt::Write;

/// Bytes in hexadecimal, 64 to a line. Lines are numbered if there is more than one: in a register
/// file that is the number of the register.
pub fn bytes(name: &str, bytes: &[u8]) -> String {
    let mut text = format!("{name}, {} bytes:", bytes.len());
    for (number, line) in bytes.chunks(64).enumerate() {
        if bytes.len() > 64 {
            let _ = write!(text, "\n{number:>4}:");
        }
        for byte in line {
            let _ = write!(text, " {byte:02X}");
        }
    }
    text
}

/// Opmasks in hexadecimal.
pub fn masks(masks: &[u64]) -> String {
    let mut text = format!("opmasks, {}:", masks.len());
    for mask in masks {
        let _ = write!(text, " {mask:016X}");
    }
    text
}

/// General registers in hexadecimal, 4 to a line. Lines are numbered by their first register.
pub fn gprs(registers: &[u64]) -> String {
    let mut text = format!("general registers, {}:", registers.len());
    for (number, line) in registers.chunks(4).enumerate() {
        let _ = write!(text, "\n{:>4}:", 4 * number);
        for register in line {
            let _ = write!(text, " {register:016X}");
        }
    }
    text
}

/// Entries of a byte map in hexadecimal, 64 to a line. Lines are numbered by register.
pub fn entries(name: &str, entries: &[u16]) -> String {
    let mut text = format!("{name}, {} entries:", entries.len());
    for (number, line) in entries.chunks(64).enumerate() {
        let _ = write!(text, "\n{number:>4}:");
        for entry in line {
            let _ = write!(text, " {entry:04X}");
        }
    }
    text
}
