//! The system's compilers, and programs that they make.

use std::path::{Path, PathBuf};
use std::process::{Command, Output};

pub const INCLUDE: &str = env!("TARHUSPO_INCLUDE");
const ARCHIVE: &str = env!("TARHUSPO_ARCHIVE");

/// Runs a compiler with warnings as errors.
pub fn compile(compiler: &str, arguments: &[&str]) {
    let output = Command::new(compiler)
        .args(["-Wall", "-Wextra", "-Werror", "-pedantic", "-I", INCLUDE])
        .args(arguments)
        .output()
        .unwrap_or_else(|e| panic!("cannot run `{compiler}`: {e}"));
    let errors = errors(&output);
    assert!(output.status.success(), "{compiler} failed:\n{errors}");
}

fn errors(output: &Output) -> String {
    String::from_utf8_lossy(&output.stderr).into_owned()
}

/// What a C program prints that is linked with the archive.
pub fn printed(source: &Path, name: &str) -> String {
    let program: PathBuf = [env!("CARGO_TARGET_TMPDIR"), name].iter().collect();
    let (program, source) = (program.to_string_lossy(), source.to_string_lossy());
    compile("cc", &["-std=c11", "-o", &program, &source, ARCHIVE]);
    let output = Command::new(&*program)
        .output()
        .expect("the compiled program starts");
    assert!(output.status.success(), "{}", errors(&output));
    String::from_utf8_lossy(&output.stdout).into_owned()
}
