//! The archive defines exactly the functions of the header, and needs exactly the symbols from
//! outside that the header names.

use std::collections::BTreeSet;
use std::path::Path;
use std::process::Command;

type Names = BTreeSet<String>;

fn header() -> String {
    let path = Path::new(env!("TARHUSPO_INCLUDE")).join("tarhuspo.h");
    std::fs::read_to_string(path).expect("the header")
}

/// The header without comments and preprocessor lines.
fn declarations() -> String {
    let header = header();
    let mut parts = header.split("/*");
    let mut text = parts.next().unwrap_or("").to_string();
    for part in parts {
        let (_, rest) = part.split_once("*/").expect("a comment ends");
        text += rest;
    }
    let lines = text.lines().filter(|line| !line.starts_with('#'));
    lines.collect::<Vec<_>>().join("\n")
}

/// What stands before an opening bracket in a declaration.
fn declared() -> Names {
    let declarations = declarations();
    let before: Vec<_> = declarations.split('(').collect();
    let (_, before) = before.split_last().expect("a declaration");
    let is_part = |c: char| c.is_ascii_alphanumeric() || c == '_';
    let name = |text: &&str| text.rsplit(|c| !is_part(c)).next().map(str::to_string);
    before.iter().filter_map(name).collect()
}

/// The symbols that the header says are needed.
fn needed() -> Names {
    let header = header();
    let (_, rest) = header
        .split_once("Symbols that it takes from outside: ")
        .expect("the header says what is needed");
    let (list, _) = rest.split_once('.').expect("the sentence ends");
    list.split(", ").map(str::to_string).collect()
}

/// Defined and undefined global symbols of the archive.
fn symbols() -> (Names, Names) {
    let mut nm = Command::new("nm");
    let output = nm
        .args(["--extern-only", "--format=posix", env!("TARHUSPO_ARCHIVE")])
        .output()
        .expect("`nm` of the system's binutils");
    assert!(output.status.success(), "{output:?}");
    let text = String::from_utf8(output.stdout).expect("UTF-8");
    let (mut defined, mut undefined) = (Names::new(), Names::new());
    // Lines are a name, a kind and numbers; others name the members.
    for line in text.lines() {
        let mut words = line.split(' ');
        match (words.next(), words.next()) {
            (Some(name), Some("U" | "w" | "v")) => undefined.insert(name.to_string()),
            (Some(name), Some(_)) => defined.insert(name.to_string()),
            _ => continue,
        };
    }
    (defined, undefined)
}

#[test]
fn archive_defines_the_functions_of_the_header() {
    let (defined, _) = symbols();
    assert_eq!(defined, declared());
}

#[test]
fn archive_needs_what_the_header_says() {
    let (defined, undefined) = symbols();
    let outside: Names = undefined.difference(&defined).cloned().collect();
    assert_eq!(outside, needed());
}

/// The check reads the header as it is meant.
#[test]
fn functions_are_found_in_the_header() {
    let names = declared();
    for name in ["decode", "address", "bytemap_compose"] {
        assert!(names.contains(&format!("tarhuspo_{name}")), "{names:?}");
    }
    assert!(
        names.iter().all(|name| name.starts_with("tarhuspo_")),
        "{names:?}"
    );
}
