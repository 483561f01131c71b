//! The line counts in docs/READING.md are those of the files, and docs/CLAIMS.md names each must-fail edit.

use std::collections::BTreeSet;
use std::fs;
use std::path::{Path, PathBuf};

fn top() -> PathBuf {
    Path::new(env!("CARGO_MANIFEST_DIR")).join("../..")
}

fn lines(file: &str) -> usize {
    let text = fs::read_to_string(top().join(file)).expect(file);
    text.lines().count()
}

/// A table's row: a file in backquotes, and its lines.
fn row(line: &str) -> Option<(&str, usize)> {
    let mut cells = line.strip_prefix("| `")?.split(" | ");
    let file = cells.next()?.strip_suffix('`')?;
    Some((file, cells.next()?.parse().ok()?))
}

/// The number before ` lines` in a line, with commas for thousands.
fn stated(line: &str) -> Option<usize> {
    let (before, _) = line.split_once(" lines")?;
    let digits = before.rsplit(|c: char| !c.is_ascii_digit() && c != ',');
    digits.into_iter().next()?.replace(',', "").parse().ok()
}

#[test]
fn line_counts_are_right() {
    let text = fs::read_to_string(top().join("docs/READING.md")).expect("docs/READING.md");
    let (mut part, mut parts, mut all) = (0, 0, 0);
    for line in text.lines().rev() {
        if let Some((file, count)) = row(line) {
            assert_eq!(count, lines(file), "{file}");
            part += count;
        } else if line.starts_with("## ") {
            assert_eq!(stated(line), Some(part), "{line}");
            all += part;
            part = 0;
            parts += 1;
        }
    }
    assert_eq!(parts, 6);
    let total = text
        .lines()
        .find(|line| line.contains(" files, in this order"));
    assert_eq!(total.and_then(stated), Some(all));
}

/// The names of all must-fail edits, as `crate/label`.
fn edits() -> BTreeSet<String> {
    let mut names = BTreeSet::new();
    for folder in fs::read_dir(top().join("crates")).expect("crates") {
        let folder = folder.expect("a crate").path();
        let name = folder.file_name().unwrap().to_string_lossy().into_owned();
        let Ok(files) = fs::read_dir(folder.join("must-fail")) else {
            continue;
        };
        for file in files {
            let path = file.expect("an edit").path();
            let label = path.file_stem().unwrap().to_string_lossy().into_owned();
            names.insert(format!("{name}/{label}"));
        }
    }
    names
}

#[test]
fn every_edit_is_named_and_every_name_is_an_edit() {
    let text = fs::read_to_string(top().join("docs/CLAIMS.md")).expect("docs/CLAIMS.md");
    let edits = edits();
    assert!(!edits.is_empty());
    let crates: BTreeSet<&str> = edits.iter().filter_map(|e| e.split('/').next()).collect();
    let is_name = |word: &str| {
        let parts: Vec<&str> = word.split('/').collect();
        parts.len() == 2 && crates.contains(parts[0]) && !parts[1].contains('.')
    };
    let named: BTreeSet<String> = text
        .split('`')
        .skip(1)
        .step_by(2)
        .filter(|word| is_name(word))
        .map(str::to_owned)
        .collect();
    assert_eq!(named, edits);
}
