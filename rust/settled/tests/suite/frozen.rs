//! The frozen files are what they were, and one that is not is found.

use settled::digest::Digest;
use settled::frozen::{changes, folder, Frozen, FILES};
use std::path::{Path, PathBuf};
use std::{env, fs, process};

#[test]
fn frozen_files_have_not_changed() {
    let found = changes(&FILES, &folder());
    assert!(found.is_empty(), "\n{}", found.join("\n"));
    println!("{} frozen files, none has changed", FILES.len());
}

/// A folder of its own with two files, removed when the test ends.
struct Scratch {
    folder: PathBuf,
    files: Vec<Frozen>,
}

impl Scratch {
    fn new(name: &str) -> Scratch {
        let folder = env::temp_dir().join(format!("settled-{}-{name}", process::id()));
        fs::create_dir_all(folder.join("data")).expect("made");
        let mut scratch = Scratch {
            folder,
            files: Vec::new(),
        };
        scratch.freeze("data/one", &[0, 255].repeat(100));
        scratch.freeze("stdout", b"one 200\n");
        scratch
    }

    fn freeze(&mut self, path: &'static str, bytes: &[u8]) {
        fs::write(self.folder.join(path), bytes).expect("written");
        let (size, digest) = (bytes.len(), Digest::of(bytes));
        self.files.push(Frozen { path, size, digest });
    }

    fn changes(&self) -> Vec<String> {
        changes(&self.files, &self.folder)
    }
}

impl Drop for Scratch {
    fn drop(&mut self) {
        // A test that failed early may not have made it.
        let _ = fs::remove_dir_all(&self.folder);
    }
}

/// Spoils one of the files, and expects one sentence that starts like this.
fn expect_found(name: &str, spoil: fn(&Path), start: &str) {
    let scratch = Scratch::new(name);
    assert!(scratch.changes().is_empty());
    spoil(&scratch.folder);
    let found = scratch.changes();
    assert_eq!(found.len(), 1, "{found:?}");
    assert!(found[0].starts_with(start), "{}", found[0]);
}

#[test]
fn changed_bit_is_found() {
    let flip = |folder: &Path| edit(&folder.join("stdout"), |bytes| bytes[7] ^= 1);
    expect_found("bit", flip, "base/stdout has changed: 8 bytes");
}

#[test]
fn swapped_bytes_are_found() {
    let swap = |folder: &Path| edit(&folder.join("data/one"), |bytes| bytes.swap(64, 127));
    expect_found("swapped", swap, "base/data/one has changed: 200 bytes");
}

#[test]
fn longer_file_is_found() {
    let extend = |folder: &Path| edit(&folder.join("data/one"), |bytes| bytes.push(0));
    expect_found("longer", extend, "base/data/one has changed: 201 bytes");
}

#[test]
fn missing_file_is_found() {
    let remove = |folder: &Path| fs::remove_file(folder.join("data/one")).expect("removed");
    expect_found("missing", remove, "base/data/one cannot be read");
}

#[test]
fn other_file_is_found() {
    let write = |folder: &Path| fs::write(folder.join("data/two"), b"").expect("written");
    expect_found("other", write, "base/data/two is no frozen file");
}

fn edit(path: &Path, change: fn(&mut Vec<u8>)) {
    let mut bytes = fs::read(path).expect("the file is there");
    change(&mut bytes);
    fs::write(path, bytes).expect("the file is written");
}
