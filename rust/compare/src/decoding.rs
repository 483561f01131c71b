//! Comparison of decoding, field by field.

use crate::guard::Guarded;
use crate::instructions::Instructions;
use crate::tally::Reasons;
use std::collections::BTreeMap;
use tarhuspo::Decoded;

/// Decoding gives the statuses 0 to 5.
pub const STATUSES: usize = 6;

/// The fields of a result, in the order of the C struct.
pub type Fields = [u32; 15];

// Both structs are taken apart without `..`, so a field that is added to one and forgotten here
// does not compile.
macro_rules! fields {
    ($($name:ident),*) => {
        const NAMES: [&str; 15] = [$(stringify!($name)),*];

        pub fn library_fields(decoded: Decoded) -> Fields {
            let Decoded { $($name),* } = decoded;
            [$($name),*]
        }

        pub fn reference_fields(decoded: reference::Decoded) -> Fields {
            let reference::Decoded { $($name),* } = decoded;
            [$($name),*]
        }
    };
}

fields!(
    status,
    length,
    memory,
    mnemonic,
    bits,
    evex,
    destination,
    first,
    third,
    mask,
    zeroing,
    broadcast,
    has_immediate,
    immediate,
    reason
);

/// Decodes with the library and with the reference, and stops at the first difference.
#[derive(Default)]
pub struct Comparison {
    buffer: Guarded,
    /// How many cases had each status.
    pub counts: [u64; STATUSES],
    /// The reasons of status 4, by first byte.
    pub reasons: BTreeMap<u8, Reasons>,
    /// The accepted ones.
    pub instructions: Instructions,
}

impl Comparison {
    /// Compares on `code`, and gives the status.
    ///
    /// # Panics
    ///
    /// If the results differ in any field, if the status is above 5, if a reason comes with another
    /// status than 4, or if the library changed the code or bytes around it.
    pub fn check(&mut self, code: &[u8], features: u32) -> u32 {
        self.check_part(code, code.len(), features).status
    }

    /// Compares on the first `length` bytes of `whole`, and gives the result. The others follow in
    /// memory, where a decoder that reads past its input would find them.
    ///
    /// # Panics
    ///
    /// As [`check`](Comparison::check).
    pub fn check_part(&mut self, whole: &[u8], length: usize, features: u32) -> Decoded {
        let code = &whole[..length];
        let copy = self.buffer.fill(whole);
        let decoded = tarhuspo::decode(&copy[..length], features);
        let library = library_fields(decoded);
        if !self.buffer.is_unchanged(whole) {
            panic!("decoding wrote to memory\n{}", input(code, features));
        }
        let reference = reference_fields(reference::decode(code, features));
        if library != reference {
            panic!("{}\n{}", input(code, features), results(library, reference));
        }
        let status = decoded.status;
        match self.counts.get_mut(status as usize) {
            Some(count) => *count += 1,
            None => panic!("status {status}\n{}", input(code, features)),
        }
        if let Some(&first) = code.first() {
            let reasons = self.reasons.entry(first).or_default();
            reasons.add(status, decoded.reason);
        }
        if status == 0 {
            self.instructions.record(&decoded);
        }
        decoded
    }
}

fn input(code: &[u8], features: u32) -> String {
    const SHOWN: usize = 64;
    let shown: Vec<_> = code
        .iter()
        .take(SHOWN)
        .map(|byte| format!("{byte:02X}"))
        .collect();
    let more = if code.len() > SHOWN { " .." } else { "" };
    format!(
        "{} bytes: {}{more}\nfeatures: {features:#x}",
        code.len(),
        shown.join(" ")
    )
}

fn results(library: Fields, reference: Fields) -> String {
    let mut text = String::from("                  library  reference\n");
    for (name, (ours, theirs)) in NAMES.iter().zip(library.iter().zip(&reference)) {
        let note = if ours == theirs { "" } else { "  differs" };
        text += &format!("{name:14} {ours:10} {theirs:10}{note}\n");
    }
    text
}
