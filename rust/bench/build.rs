//! Compiles the specialised C functions that the library is timed beside.

use std::env;
use std::path::Path;
use std::process::{exit, Command};

const SOURCE: &str = "src/specialised.c";

/// For any x86-64 processor, as the library and the Rust side are. The program that it is linked
/// into is position-independent, whatever the compiler's own choice is.
const ARGUMENTS: [&str; 8] = [
    "-O3",
    "-march=x86-64",
    "-std=c99",
    "-Wall",
    "-Wextra",
    "-Werror",
    "-fPIE",
    "-c",
];

fn main() {
    println!("cargo::rerun-if-changed={SOURCE}");
    println!("cargo::rerun-if-changed=build.rs");
    if let Err(message) = build() {
        println!("cargo::error={message}");
        exit(1);
    }
}

fn build() -> Result<(), String> {
    let folder = env::var("OUT_DIR").map_err(|e| format!("cargo gave no OUT_DIR: {e}"))?;
    let object = Path::new(&folder).join("specialised.o");
    let output = Command::new("cc")
        .args(ARGUMENTS)
        .args([Path::new(SOURCE), Path::new("-o"), &object])
        .output()
        .map_err(|e| format!("cannot run `cc`: {e}"))?;
    if !output.status.success() {
        eprint!("{}", String::from_utf8_lossy(&output.stderr));
        return Err(format!("`cc` failed on {SOURCE}; what it said is below"));
    }
    println!("cargo::rustc-link-arg-bins={}", object.display());
    Ok(())
}
