//! The features, and which of them a processor can have together.

use reference::limits::feature;
use std::fmt;

/// The features with the names that processor vendors use, in lower case.
const NAMED: [(&str, u32); 6] = [
    ("avx", feature::AVX),
    ("avx2", feature::AVX2),
    ("avx512f", feature::AVX512F),
    ("avx512vl", feature::AVX512VL),
    ("avx512_vbmi", feature::AVX512_VBMI),
    ("avx512bw", feature::AVX512BW),
];

/// A feature, and all that a processor with it has besides.
const NEEDS: [(u32, u32); 5] = [
    (feature::AVX2, feature::AVX),
    (feature::AVX512F, feature::AVX),
    (feature::AVX512VL, feature::AVX | feature::AVX512F),
    (feature::AVX512_VBMI, feature::AVX | feature::AVX512F),
    (feature::AVX512BW, feature::AVX | feature::AVX512F),
];

/// Names of the given feature bits, separated by commas.
pub fn names(features: u32) -> String {
    let has = |(_, bit): &&(&str, u32)| features & bit != 0;
    let names: Vec<_> = NAMED.iter().filter(has).map(|(n, _)| *n).collect();
    names.join(", ")
}

/// The features with all that they need.
pub fn closed(features: u32) -> u32 {
    let needs = NEEDS.iter().filter(|(one, _)| features & one != 0);
    needs.fold(features, |all, (_, needs)| all | needs)
}

/// The set without these features, and without what needs one of them.
pub fn without(set: u32, features: u32) -> u32 {
    let needing = NEEDS.iter().filter(|(_, needs)| features & needs != 0);
    needing.fold(set & !features, |rest, (one, _)| rest & !one)
}

/// Every set that a processor can have.
pub fn possible() -> Vec<u8> {
    let numbers = 0..=feature::ALL as u8;
    let is_closed = |set: &u8| closed(u32::from(*set)) == u32::from(*set);
    numbers.filter(is_closed).collect()
}

/// The set itself, if a processor can have it.
pub fn checked(features: u32) -> Result<u32, Impossible> {
    match closed(features) == features {
        true => Ok(features),
        false => Err(Impossible { features }),
    }
}

/// A set that no processor has.
#[derive(Debug, Clone, Copy, PartialEq, Eq)]
pub struct Impossible {
    features: u32,
}

impl fmt::Display for Impossible {
    fn fmt(&self, f: &mut fmt::Formatter<'_>) -> fmt::Result {
        let lacked = closed(self.features) & !self.features;
        let needing = self.features & !without(self.features, lacked);
        write!(
            f,
            "CPUID reports {} without {}: no processor has such a set, and the library refuses it \
             with status 1",
            names(needing),
            names(lacked)
        )
    }
}

#[cfg(test)]
mod tests {
    use super::{checked, closed, possible, without};
    use reference::limits::feature;

    const POSSIBLE: [u8; 19] = [
        0, 1, 3, 5, 7, 13, 15, 21, 23, 29, 31, 37, 39, 45, 47, 53, 55, 61, 63,
    ];

    fn is_possible(set: u32) -> bool {
        POSSIBLE.iter().any(|one| u32::from(*one) == set)
    }

    #[test]
    fn nineteen_sets_are_possible() {
        assert_eq!(possible(), POSSIBLE);
        for set in 0..=feature::ALL {
            let passes = checked(set) == Ok(set);
            assert_eq!(passes, is_possible(set), "{set}");
        }
    }

    /// The least set above, and the greatest below.
    #[test]
    fn no_more_is_added_or_taken_away_than_must_be() {
        for set in 0..=feature::ALL {
            let sets = || possible().into_iter().map(u32::from);
            let above = sets().filter(|one| one & set == set);
            assert_eq!(Some(closed(set)), above.min(), "{set}");
            for taken in 0..=feature::ALL {
                let below = sets().filter(|one| one & closed(set) & !taken == *one);
                let rest = without(closed(set), taken);
                assert_eq!(Some(rest), below.max(), "{set} without {taken}");
            }
        }
    }

    #[test]
    fn an_impossible_set_is_told_in_words() {
        for (features, words) in [
            (feature::AVX512VL, "avx512vl without avx, avx512f"),
            (feature::AVX | feature::AVX512BW, "avx512bw without avx512f"),
            (
                feature::ALL - feature::AVX512F,
                "avx512vl, avx512_vbmi, avx512bw without avx512f",
            ),
            (feature::AVX2, "avx2 without avx"),
        ] {
            let impossible = checked(features).expect_err(words);
            let expected = format!(
                "CPUID reports {words}: no processor has such a set, and the library refuses it \
                 with status 1"
            );
            assert_eq!(impossible.to_string(), expected);
        }
    }
}
