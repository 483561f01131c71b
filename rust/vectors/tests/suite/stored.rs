//! What is stored is what the reference gives, and a stored file that is not is found.

use crate::vectors;
use std::path::{Path, PathBuf};
use std::{env, fs, process};
use vectors::stored::{differences, folder, write, File};

#[test]
fn stored_files_are_what_the_reference_gives() {
    let found = differences(&vectors().files, &folder());
    assert!(found.is_empty(), "\n{}", found.join("\n"));
}

/// A folder of its own, removed when the test ends.
struct Scratch(PathBuf);

impl Scratch {
    fn new(name: &str) -> Scratch {
        let path = env::temp_dir().join(format!("vectors-{}-{name}", process::id()));
        Scratch(path)
    }
}

impl Drop for Scratch {
    fn drop(&mut self) {
        // A test that failed early may not have made it.
        let _ = fs::remove_dir_all(&self.0);
    }
}

fn files() -> [File; 2] {
    [
        File::data("one", (0..=255).collect()),
        File::new("stdout", b"one 256\n".to_vec()),
    ]
}

/// Writes the files, spoils them, and expects one sentence with these words.
fn expect_found(name: &str, spoil: fn(&Path), words: &[&str]) {
    let scratch = Scratch::new(name);
    write(&files(), &scratch.0).expect("the files are written");
    assert!(differences(&files(), &scratch.0).is_empty());
    spoil(&scratch.0);
    let found = differences(&files(), &scratch.0);
    assert_eq!(found.len(), 1, "{found:?}");
    for word in words {
        assert!(found[0].contains(word), "'{word}' is not in: {}", found[0]);
    }
}

#[test]
fn changed_byte_is_found() {
    let words = ["data/one", "at 77;", "`cargo run --release --bin vectors`"];
    expect_found("changed", |folder| change(&folder.join("data/one")), &words);
}

fn change(path: &Path) {
    let mut bytes = fs::read(path).expect("the file is there");
    bytes[77] ^= 1;
    fs::write(path, bytes).expect("the file is written");
}

#[test]
fn shorter_file_is_found() {
    let spoil = |folder: &Path| fs::write(folder.join("stdout"), b"one").expect("written");
    expect_found("shorter", spoil, &["stdout", "of 3 and 8 bytes", "at 3;"]);
}

#[test]
fn missing_file_is_found() {
    let spoil = |folder: &Path| fs::remove_file(folder.join("data/one")).expect("removed");
    expect_found("missing", spoil, &["data/one cannot be read"]);
}

#[test]
fn other_file_is_found() {
    let spoil = |folder: &Path| fs::write(folder.join("data/two"), b"").expect("written");
    expect_found("other", spoil, &["data/two is none of"]);
}

/// A folder in the place of one of the files makes writing fail before any file is replaced.
#[test]
fn failed_write_leaves_the_old_files() {
    let scratch = Scratch::new("failed");
    write(&files(), &scratch.0).expect("the files are written");
    fs::create_dir(scratch.0.join("stdout.new")).expect("made");
    let newer = [
        File::data("one", vec![7]),
        File::new("stdout", b"one 1\n".to_vec()),
    ];
    write(&newer, &scratch.0).expect_err("a folder cannot be written to");
    assert!(differences(&files(), &scratch.0).is_empty());
}
