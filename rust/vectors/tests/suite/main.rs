//! The stored vectors, and the inputs in them.

mod addresses;
mod features;
mod listings;
mod opcode_maps;
mod reasons;
mod samples;
mod stored;

use inputs::limits::features::ALL;
use std::sync::OnceLock;
use vectors::Vectors;

/// What the reference gives, made once for all tests.
fn vectors() -> &'static Vectors {
    static VECTORS: OnceLock<Vectors> = OnceLock::new();
    VECTORS.get_or_init(Vectors::generate)
}

/// The list from its first refused instruction on.
fn from_refused(mut code: &[u8]) -> &[u8] {
    loop {
        let decoded = reference::decode(code, ALL);
        if code.is_empty() || decoded.status != 0 {
            return code;
        }
        code = &code[decoded.length as usize..];
    }
}
