//! Features, by name or as a number.

use crate::hex;
use crate::options::{expected, Options, FEATURES};
use tarhuspo::features::{self, AVX, AVX2, AVX512BW, AVX512F, AVX512VL, AVX512_VBMI, NAMED};

/// A feature, and the one that a processor with it has too. This is for the words of an error: which
/// sets pass is the library's to say.
const NEEDS: [(u32, u32); 5] = [
    (AVX2, AVX),
    (AVX512F, AVX),
    (AVX512VL, AVX512F),
    (AVX512_VBMI, AVX512F),
    (AVX512BW, AVX512F),
];

/// The features that the options give: all of them if nothing is said.
pub fn given(options: &Options) -> Result<u32, String> {
    match options.value(&FEATURES) {
        Some(list) => possible(&list.to_string_lossy()),
        None => Ok(features::ALL),
    }
}

/// Features that a processor can have. Numbers that are too large for the library are let through:
/// refusing them is the library's answer to give.
fn possible(list: &str) -> Result<u32, String> {
    let set = parse(list)?;
    if set > features::ALL || features::possible(set) {
        return Ok(set);
    }
    let what = "features that a processor can have";
    let lacking = lacking(set);
    if lacking.is_empty() {
        // The library knows of a need that is not in the table.
        return Err(expected(what, list));
    }
    Err(format!("expected {what}: {lacking}"))
}

/// A number, or names between commas.
fn parse(list: &str) -> Result<u32, String> {
    if !list.starts_with(|c: char| c.is_ascii_digit()) {
        let mut names = list.split(',');
        return names.try_fold(0, |sum, name| Ok(sum | feature(name)?));
    }
    let number = hex::number(list).and_then(|number| u32::try_from(number).ok());
    number.ok_or_else(|| expected("a feature number below 2^32", list))
}

fn feature(name: &str) -> Result<u32, String> {
    let name = name.trim();
    for (known, bit) in NAMED {
        if known.eq_ignore_ascii_case(name) {
            return Ok(bit);
        }
    }
    let names = NAMED.map(|(known, _)| known).join(", ");
    Err(expected(&format!("features among {names}"), name))
}

/// What the features of a set need and the set has not, in words. Nothing if it has everything.
fn lacking(set: u32) -> String {
    let mut clauses = Vec::new();
    for (_, lacked) in NAMED.iter().filter(|(_, bit)| set & bit == 0) {
        let is_needing = |bit: u32| set & bit != 0 && need(bit) == Some(*lacked);
        let needing = NAMED.iter().filter(|(_, bit)| is_needing(*bit));
        let names: Vec<_> = needing.map(|(name, _)| *name).collect();
        let lacked = with_needs(*lacked, set);
        match &names[..] {
            [] => {}
            [name] => clauses.push(format!("{name} needs {lacked}")),
            [names @ .., last] => {
                let names = names.join(", ");
                clauses.push(format!("{names} and {last} need {lacked}"));
            }
        }
    }
    clauses.join("; ")
}

fn need(feature: u32) -> Option<u32> {
    let mut needs = NEEDS.iter();
    let found = needs.find(|(known, _)| *known == feature);
    found.map(|(_, need)| *need)
}

/// A feature's name, and behind it what that needs itself, if the set lacks this as well.
fn with_needs(feature: u32, set: u32) -> String {
    let named = NAMED.iter().filter(|(_, bit)| *bit == feature);
    let name: String = named.map(|(name, _)| *name).collect();
    match need(feature) {
        Some(next) if set & next == 0 => format!("{name}, which needs {}", with_needs(next, set)),
        _ => name,
    }
}

#[cfg(test)]
mod tests {
    use super::{lacking, possible};
    use tarhuspo::features;

    /// Otherwise an error would say nothing, or a set that passes would have words against it.
    #[test]
    fn there_are_words_for_what_the_library_refuses() {
        let sets = 0..=features::ALL;
        let refused = sets.filter(|set| {
            assert_eq!(lacking(*set).is_empty(), features::possible(*set), "{set}");
            assert_eq!(possible(&set.to_string()).is_ok(), features::possible(*set));
            !features::possible(*set)
        });
        assert_eq!(refused.count(), 45);
    }

    #[test]
    fn a_need_is_said_once() {
        for (set, words) in [
            (2, "avx2 needs avx"),
            (4, "avx512f needs avx"),
            (8, "avx512vl needs avx512f, which needs avx"),
            (9, "avx512vl needs avx512f"),
            (17, "avx512_vbmi needs avx512f"),
            (33, "avx512bw needs avx512f"),
            (
                56,
                "avx512vl, avx512_vbmi and avx512bw need avx512f, which needs avx",
            ),
            (59, "avx512vl, avx512_vbmi and avx512bw need avx512f"),
            (62, "avx2 and avx512f need avx"),
            (
                42,
                "avx2 needs avx; avx512vl and avx512bw need avx512f, which needs avx",
            ),
        ] {
            assert_eq!(lacking(set), words, "{set}");
        }
    }
}
