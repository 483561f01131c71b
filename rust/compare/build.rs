//! Tells the tests where the archive and the C header are.

use std::env;

fn main() {
    for (given, passed) in [
        ("DEP_TARHUSPO_ARCHIVE", "TARHUSPO_ARCHIVE"),
        ("DEP_TARHUSPO_INCLUDE", "TARHUSPO_INCLUDE"),
    ] {
        println!("cargo::rerun-if-env-changed={given}");
        match env::var(given) {
            Ok(path) => println!("cargo::rustc-env={passed}={path}"),
            Err(e) => println!("cargo::error=the crate tarhuspo gave no {given}: {e}"),
        }
    }
}
