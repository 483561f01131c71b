//! Standard output, standard error, and files that are replaced whole or not at all.

use crate::answer::Answer;
use crate::options::{Options, OUT};
use std::ffi::OsString;
use std::fs::{self, File, Metadata};
use std::io::{self, ErrorKind, IsTerminal, Write};
use std::path::{Path, PathBuf};

/// Prints what a command says. A reader that has closed the pipe has seen what it wanted: that is no
/// failure.
pub fn print(text: &[u8]) -> Result<(), String> {
    let mut out = io::stdout().lock();
    match out.write_all(text).and_then(|()| out.flush()) {
        Err(e) if e.kind() != ErrorKind::BrokenPipe => Err(format!("cannot write the answer: {e}")),
        _ => Ok(()),
    }
}

/// Writes to standard error. If even that fails, the exit status still tells.
pub fn complain(message: &str) {
    let _ = io::stderr().write_all(message.as_bytes());
}

/// Bytes that are no text go to `--out`, or to standard output unless a person would see them.
pub fn bytes(options: &Options, what: &str, bytes: Vec<u8>) -> Result<Answer, String> {
    match options.value(&OUT) {
        Some(path) if path != "-" => Ok(Answer {
            file: Some((path.into(), bytes)),
            ..Answer::default()
        }),
        _ if io::stdout().is_terminal() => Err(format!(
            "expected --out FILE or a pipe: {what} are no text for a terminal"
        )),
        _ => Ok(Answer {
            text: bytes,
            ..Answer::default()
        }),
    }
}

/// New content of a file, all of it written, that is not in its place yet.
pub struct Pending {
    beside: PathBuf,
    target: PathBuf,
    is_placed: bool,
}

/// Writes a file beside the one that it is to replace. Something that is no file, such as a device,
/// cannot be replaced, and is written to at once.
pub fn prepare(path: &Path, bytes: &[u8]) -> Result<Pending, String> {
    // A link stays, and what it leads to is replaced.
    let target = fs::canonicalize(path).unwrap_or_else(|_| path.to_path_buf());
    let before = fs::metadata(&target).ok();
    let prepared = match before {
        Some(found) if !found.is_file() => Pending::at_once(target, bytes),
        _ => Pending::write(target, bytes, before),
    };
    prepared.map_err(|e| unwritable(path, &e))
}

impl Pending {
    fn at_once(target: PathBuf, bytes: &[u8]) -> io::Result<Pending> {
        fs::write(&target, bytes)?;
        Ok(Pending {
            beside: PathBuf::new(),
            target,
            is_placed: true,
        })
    }

    fn write(target: PathBuf, bytes: &[u8], before: Option<Metadata>) -> io::Result<Pending> {
        let beside = beside(&target);
        let mut file = File::create_new(&beside)?;
        // From here on, a failure removes the new file.
        let pending = Pending {
            beside,
            target,
            is_placed: false,
        };
        file.write_all(bytes)?;
        if let Some(before) = before {
            file.set_permissions(before.permissions())?;
        }
        file.sync_all()?;
        Ok(pending)
    }

    pub fn put_in_place(mut self) -> Result<(), String> {
        if !self.is_placed {
            let moved = fs::rename(&self.beside, &self.target);
            moved.map_err(|e| unwritable(&self.target, &e))?;
            self.is_placed = true;
        }
        Ok(())
    }
}

impl Drop for Pending {
    fn drop(&mut self) {
        if !self.is_placed {
            let _ = fs::remove_file(&self.beside);
        }
    }
}

/// A name in the same folder, so that renaming stays within one file system.
fn beside(target: &Path) -> PathBuf {
    let mut name = OsString::from(".");
    name.push(target.file_name().unwrap_or_default());
    name.push(format!(".{}.part", std::process::id()));
    target.with_file_name(name)
}

fn unwritable(path: &Path, e: &io::Error) -> String {
    let name = path.to_string_lossy();
    format!(
        "expected a writable file, not '{}': {e}",
        name.escape_debug()
    )
}
