//! The base's results.

use crate::answer::Answer;
use crate::base::INPUTS;
use crate::entry_point::EntryPoint;
use crate::pools;
use std::str::Lines;

/// The answers of each entry point, in the order of [`EntryPoint::ALL`].
///
/// # Panics
///
/// If a line is missing, is one too many, or is not what stands there.
pub fn read(text: &str) -> Vec<Vec<Answer>> {
    let mut lines = text.lines();
    expect_count(&mut lines, "pools", pools::SIZE);
    let mut all = Vec::new();
    for entry_point in EntryPoint::ALL {
        all.push(lines.by_ref().take(INPUTS).map(read_line).collect());
        expect_count(&mut lines, entry_point.name(), INPUTS);
    }
    assert_eq!(lines.next(), None, "a line behind the last results");
    all
}

fn read_line(line: &str) -> Answer {
    Answer::read(line).unwrap_or_else(|| panic!("no result: {line}"))
}

fn expect_count(lines: &mut Lines, name: &str, count: usize) {
    let wanted = format!("{name} {count}");
    assert_eq!(lines.next(), Some(&wanted[..]), "the count of {name}");
}
