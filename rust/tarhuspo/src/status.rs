//! Status numbers in words.

/// One sentence on what a status number means.
///
/// Decoding and an address give 0 to 5, a step 0 to 6, and a run also 8. Building a byte map gives
/// 0 to 5, 7 or 8, applying and composing give 0, 1 or 9, and a listing 0, 1 or 8. With 4 comes a
/// reason, for which [`describe_reason`](crate::describe_reason) has a sentence of its own.
///
/// ```
/// use tarhuspo::{decode, describe, features};
///
/// let decoded = decode(&[0xC5, 0xF9], features::ALL);
/// assert_eq!(describe(decoded.status), "The bytes end before the instruction does.");
/// ```
pub fn describe(status: u32) -> &'static str {
    match status {
        0 => "The input was accepted.",
        1 => {
            "A buffer has the wrong size, no processor has the features, or a listing's place is \
             behind the code."
        }
        2 => "The bytes end before the instruction does.",
        3 => "The bytes are not one of the supported instructions.",
        4 => "A reserved field of the encoding has a value that raises #UD.",
        5 => "The instruction needs a feature that is not enabled (#UD).",
        6 => "The memory operand does not have exactly the length that the instruction reads.",
        7 => "A byte map cannot describe an instruction with a memory operand or register control.",
        8 => "The code is longer than the 16,384 bytes that one call takes.",
        9 => "A byte map has an entry above 2,048.",
        _ => "This is not a status number of the library.",
    }
}

#[cfg(test)]
mod tests {
    use super::describe;

    #[test]
    fn each_status_has_its_own_sentence() {
        let sentences: Vec<_> = (0..=10).map(describe).collect();
        for (i, sentence) in sentences.iter().enumerate() {
            assert!(sentence.ends_with('.') && !sentence.contains('\n'));
            assert!(
                !sentences[..i].contains(sentence),
                "status {i} repeats a sentence"
            );
        }
        assert_eq!(describe(u32::MAX), describe(10));
    }
}
