//! Proves the Rattle crate `tarhuspo_c`, builds its static library and links it.

use std::path::{Path, PathBuf};
use std::process::{exit, Command, Output};
use std::{env, fs, io};

/// Writes the archive if every proof holds, and else fails.
const SCRIPT: &str = "tools/staticlib.sh";

fn main() {
    if let Err(message) = build() {
        println!("cargo::error={message}");
        exit(1);
    }
}

fn build() -> Result<(), String> {
    let top = Path::new(&variable("CARGO_MANIFEST_DIR")?).join("../..");
    let top = fs::canonicalize(&top).map_err(|e| format!("no repository above rust/: {e}"))?;
    let sources = sources(&top).map_err(|e| format!("cannot read crates/: {e}"))?;
    for input in sources {
        println!("cargo::rerun-if-changed={}", input.display());
    }
    if variable("CARGO_CFG_TARGET_ARCH")? != "x86_64" {
        return Err("the proved library is compiled for x86-64 only".to_string());
    }

    prove(&top)?;
    let archive = keep(&top)?;
    println!("cargo::rustc-link-search=native={}", variable("OUT_DIR")?);
    println!("cargo::rustc-link-lib=static=tarhuspo");
    println!("cargo::metadata=archive={}", archive.display());
    println!("cargo::metadata=include={}", top.join("include").display());
    Ok(())
}

fn variable(name: &str) -> Result<String, String> {
    env::var(name).map_err(|e| format!("cargo gave no {name}: {e}"))
}

/// What the library is made of. Not the crates' whole folders, whose `out/` changes with each run of `rt`.
fn sources(top: &Path) -> io::Result<Vec<PathBuf>> {
    let mut sources = vec![top.join("crates.txt"), top.join(SCRIPT)];
    for folder in fs::read_dir(top.join("crates"))? {
        let folder = folder?.path();
        let parts = ["src", "specs", "proofs"].map(|part| folder.join(part));
        sources.extend(parts.into_iter().filter(|part| part.exists()));
    }
    Ok(sources)
}

fn prove(top: &Path) -> Result<(), String> {
    let ran = Command::new(top.join(SCRIPT)).output();
    let output = ran.map_err(|e| format!("cannot run {SCRIPT}: {e}"))?;
    if output.status.success() {
        return Ok(());
    }
    pass_on(&output);
    Err(format!(
        "{SCRIPT} failed ({}); what it said is below",
        output.status
    ))
}

/// Cargo shows a build script's standard error when the script fails.
fn pass_on(output: &Output) {
    for text in [&output.stdout, &output.stderr] {
        eprint!("{}", String::from_utf8_lossy(text));
    }
}

/// Copies the archive to OUT_DIR, because the script's next run removes it where it was written.
fn keep(top: &Path) -> Result<PathBuf, String> {
    let made = top.join("target/staticlib/libtarhuspo.a");
    let kept = Path::new(&variable("OUT_DIR")?).join("libtarhuspo.a");
    fs::copy(&made, &kept).map_err(|e| format!("cannot copy {}: {e}", made.display()))?;
    Ok(kept)
}
