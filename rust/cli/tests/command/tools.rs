//! What the tests share: starting the command, and folders for its files.

use std::fs;
use std::io::{ErrorKind, Write};
use std::path::{Path, PathBuf};
use std::process::{Command, Output, Stdio};

/// Exit status, standard output and standard error.
pub type Ran = (Option<i32>, String, String);

pub fn command() -> Command {
    Command::new(env!("CARGO_BIN_EXE_tarhuspo"))
}

pub fn ran(output: Output) -> Ran {
    let text = |bytes| String::from_utf8(bytes).expect("the output is UTF-8");
    (
        output.status.code(),
        text(output.stdout),
        text(output.stderr),
    )
}

pub fn run(arguments: &[&str]) -> Ran {
    run_with_input(arguments, b"")
}

pub fn run_with_input(arguments: &[&str], input: &[u8]) -> Ran {
    ran(run_bytes(arguments, input))
}

/// For output that is no text.
pub fn run_bytes(arguments: &[&str], input: &[u8]) -> Output {
    let mut command = command();
    let piped = command
        .args(arguments)
        .stdin(Stdio::piped())
        .stdout(Stdio::piped())
        .stderr(Stdio::piped());
    let mut child = piped.spawn().expect("the command starts");
    let mut pipe = child.stdin.take().expect("a pipe");
    match pipe.write_all(input) {
        // A command that does not read all of its input closes the pipe.
        Err(e) if e.kind() != ErrorKind::BrokenPipe => panic!("{e}"),
        _ => drop(pipe),
    }
    child.wait_with_output().expect("the command ends")
}

/// What a command that ends well prints.
pub fn printed(arguments: &[&str]) -> String {
    let (status, out, err) = run(arguments);
    assert_eq!((status, err.as_str()), (Some(0), ""), "{arguments:?}");
    out
}

/// The bytes that a command that ends well writes to standard output.
pub fn printed_bytes(arguments: &[&str]) -> Vec<u8> {
    let output = run_bytes(arguments, b"");
    let errors = String::from_utf8_lossy(&output.stderr);
    assert!(output.status.success(), "{arguments:?}: {errors}");
    output.stdout
}

/// Exit status 2, nothing printed, and one line on standard error.
pub fn assert_bad_usage(arguments: &[&str], message: &str) {
    let line = format!("tarhuspo: {message}\n");
    assert_eq!(
        run(arguments),
        (Some(2), String::new(), line),
        "{arguments:?}"
    );
}

/// Exit status 1, nothing printed, and the refusal on standard error.
pub fn assert_refused(arguments: &[&str], refusal: &str, status: u32) {
    let sentence = tarhuspo::describe(status);
    assert_refused_with(
        arguments,
        &format!("{refusal}, status {status}: {sentence}"),
    );
}

/// The same with the refusal's whole line, as status 4 has it.
pub fn assert_refused_with(arguments: &[&str], refusal: &str) {
    let line = format!("tarhuspo: {refusal}\n");
    assert_eq!(
        run(arguments),
        (Some(1), String::new(), line),
        "{arguments:?}"
    );
}

/// What stands behind `status` for a wrong vvvv.
pub const WRONG_VVVV: &str =
    "4 (#UD), reason 4: vvvv must be 1111b: this form has no first source, \
     and under EVEX V' must be 1 too.";
/// The same for a width that VPERM2F128 does not have.
pub const WRONG_WIDTH: &str =
    "4 (#UD), reason 3: The width must be one that exists: EVEX has none \
                               for L'L 11b, and VPERM2F128 has L 1 alone.";
/// The same for b on VPSHUFB.
pub const WRONG_B: &str =
    "4 (#UD), reason 5: b must be 0 with a register as third operand, and on \
                           VPERMB and VPSHUFB, which have no broadcast.";

/// Exit status and all output of the command at a terminal, which `script` provides. Nothing if the
/// system has no such program.
pub fn at_terminal(arguments: &str) -> Option<(Option<i32>, String)> {
    let line = format!("'{}' {arguments}", env!("CARGO_BIN_EXE_tarhuspo"));
    let mut script = Command::new("script");
    let started = script
        .args(["-qec", &line, "/dev/null"])
        .stdin(Stdio::null())
        .output();
    match started {
        Err(e) if e.kind() == ErrorKind::NotFound => {
            println!("skipped: this system has no `script`");
            None
        }
        Err(e) => panic!("cannot run `script`: {e}"),
        Ok(output) => {
            let (status, out, _) = ran(output);
            Some((status, out))
        }
    }
}

/// A file of the repository.
pub fn repository(path: &str) -> String {
    let top = Path::new(env!("CARGO_MANIFEST_DIR")).join("../..");
    let path = top.join(path);
    path.to_str().expect("a path in UTF-8").to_string()
}

/// A folder for one test, which is removed after it.
pub struct Folder {
    path: PathBuf,
}

impl Folder {
    /// An empty folder. Each test has its own name.
    pub fn new(name: &str) -> Folder {
        let path = Path::new(env!("CARGO_TARGET_TMPDIR")).join(name);
        let _ = fs::remove_dir_all(&path);
        fs::create_dir_all(&path).expect("a folder for the test");
        Folder { path }
    }

    pub fn path(&self, name: &str) -> String {
        let path = self.path.join(name);
        path.to_str().expect("a path in UTF-8").to_string()
    }

    /// Writes a file, and gives its path.
    pub fn write(&self, name: &str, bytes: impl AsRef<[u8]>) -> String {
        let path = self.path(name);
        fs::write(&path, bytes).expect("the folder is writable");
        path
    }

    pub fn read(&self, name: &str) -> Vec<u8> {
        fs::read(self.path(name)).unwrap_or_else(|e| panic!("{name}: {e}"))
    }

    /// Names of all files, sorted.
    pub fn names(&self) -> Vec<String> {
        let entries = fs::read_dir(&self.path).expect("the folder is there");
        let name = |entry: fs::DirEntry| entry.file_name().to_string_lossy().into_owned();
        let mut names: Vec<_> = entries
            .map(|entry| name(entry.expect("an entry")))
            .collect();
        names.sort();
        names
    }
}

impl Drop for Folder {
    fn drop(&mut self) {
        let _ = fs::remove_dir_all(&self.path);
    }
}

/// Registers in which neighbouring bytes differ, and none is 0.
pub fn registers() -> Vec<u8> {
    (0..2_048_usize)
        .map(|place| ((place + 7 * (place / 64)) % 251 + 1) as u8)
        .collect()
}

/// The bytes of a map with these entries, and every other byte as it is.
pub fn map_with(entries: &[(usize, u16)]) -> Vec<u8> {
    let mut map: Vec<u16> = (0..2_048).collect();
    for (place, entry) in entries {
        map[*place] = *entry;
    }
    map.into_iter().flat_map(u16::to_le_bytes).collect()
}
