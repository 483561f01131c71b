//! The files in the folder of the Rattle program.

use std::collections::BTreeSet;
use std::path::{Path, PathBuf};
use std::{env, fs, io};

/// What writes the files again.
const AGAIN: &str = "`cargo run --release --bin vectors` in rust/ writes it again";

/// A file with its path in the program's folder.
pub struct File {
    path: PathBuf,
    contents: Vec<u8>,
}

/// The program's folder in this repository. Cargo says where that is when it runs a program; the
/// path that was compiled in can be that of another checkout, if the two share a build folder.
pub fn folder() -> PathBuf {
    let given = env::var_os("CARGO_MANIFEST_DIR");
    let own = given.unwrap_or_else(|| env!("CARGO_MANIFEST_DIR").into());
    Path::new(&own).join("../../crates/vectors")
}

impl File {
    pub fn new(path: impl Into<PathBuf>, contents: Vec<u8>) -> File {
        let path = path.into();
        File { path, contents }
    }

    /// A file that the program reads.
    pub fn data(name: &str, contents: Vec<u8>) -> File {
        File::new(Path::new("data").join(name), contents)
    }

    pub fn size(&self) -> usize {
        self.contents.len()
    }

    /// Says where the stored file is not this one.
    fn difference(&self, folder: &Path) -> Option<String> {
        let name = shown(&self.path);
        let stored = match fs::read(folder.join(&self.path)) {
            Ok(stored) => stored,
            Err(e) => return Some(format!("{name} cannot be read: {e}; {AGAIN}")),
        };
        if stored == self.contents {
            return None;
        }
        let pairs = stored.iter().zip(&self.contents);
        let at = pairs.take_while(|(one, other)| one == other).count();
        Some(format!(
            "{name} is not what the reference gives: of {} and {} bytes, the first that differs \
             is at {at}; {AGAIN}",
            stored.len(),
            self.contents.len()
        ))
    }

    fn beside(&self, folder: &Path) -> PathBuf {
        let mut name = folder.join(&self.path).into_os_string();
        name.push(".new");
        name.into()
    }
}

/// The path from the top of the repository.
fn shown(path: &Path) -> String {
    format!("crates/vectors/{}", path.display())
}

/// Each stored file that is missing, differs, or is one too many, in a sentence.
pub fn differences(files: &[File], folder: &Path) -> Vec<String> {
    let mut found: Vec<_> = files.iter().filter_map(|f| f.difference(folder)).collect();
    let known: BTreeSet<_> = files.iter().map(|file| file.path.clone()).collect();
    let entries = fs::read_dir(folder.join("data")).into_iter().flatten();
    for entry in entries.flatten() {
        let path = Path::new("data").join(entry.file_name());
        if !known.contains(&path) {
            let name = shown(&path);
            found.push(format!("{name} is none of the files that are written"));
        }
    }
    found
}

/// Writes all files beside the old ones, and puts them in their place once all are written.
pub fn write(files: &[File], folder: &Path) -> io::Result<()> {
    let written = write_beside(files, folder);
    if written.is_err() {
        for file in files {
            // What could not be written may not be there.
            let _ = fs::remove_file(file.beside(folder));
        }
        return written;
    }
    for file in files {
        fs::rename(file.beside(folder), folder.join(&file.path))?;
    }
    Ok(())
}

fn write_beside(files: &[File], folder: &Path) -> io::Result<()> {
    fs::create_dir_all(folder.join("data"))?;
    for file in files {
        fs::write(file.beside(folder), &file.contents)?;
    }
    Ok(())
}
