//! The rules that explain why an answer is no longer the base's.

use crate::answer::Answer;
use crate::input::Input;
use crate::landed::Landed;

/// One reason of a change request for another answer.
pub struct Rule {
    /// The number of the request.
    pub request: u32,
    /// What the request says, in a few words.
    pub name: &'static str,
    /// Whether the request's words turn the old answer to this input into the new one.
    pub explains: fn(input: &Input, old: &Answer, new: &Answer) -> bool,
}

/// The rules of the requests that have landed, in their order.
///
/// To add one, write a predicate from the request's words, and not from what the library gives:
/// which inputs are meant, what they answered before, and what they have to answer now. Say that a
/// request 99 makes decoding refuse more than 15 bytes with 8:
///
/// ```text
/// Rule {
///     request: 99,
///     name: "decoding refuses more than 15 bytes",
///     explains: |input, _, new| match input {
///         Input::Decode(input) => input.code.len() > 15 && *new == refused_decoding(8),
///         _ => false,
///     },
/// },
/// ```
///
/// - A rule that takes any new answer shows nothing. Status, numbers and digest have to be what
///   the request says: here `refused_decoding` has length 0 and the digest of a status and 13
///   zeros. Where a refusal leaves a buffer alone, the digest is that of the room's `whole`; where
///   the request says what a buffer holds, [`Room::call`](crate::room::Room::call) with a function
///   that writes it gives the digest.
/// - A difference counts for the first rule of this list that explains it. Where two requests
///   together make an answer what it is, the later one's rule says so.
/// - A rule for which no difference is left fails the test: it is wrong, or is not needed.
pub const RULES: &[Rule] = &[
    Rule {
        request: 1,
        name: "features up to 63 are not refused",
        explains: |input, old, new| {
            has_feature_5(input) && is_changed_by(Landed::Request1, input, old, new)
        },
    },
    Rule {
        request: 1,
        name: "bytes that answered 3 follow the new rows",
        explains: |input, old, new| {
            !has_feature_5(input) && is_changed_by(Landed::Request1, input, old, new)
        },
    },
    Rule {
        request: 3,
        name: "a listing has the reason behind a 4",
        explains: |input, old, new| is_changed_by(Landed::Request3, input, old, new),
    },
    Rule {
        request: 5,
        name: "lists of 4,097 to 16,384 bytes are run, built and listed",
        explains: |input, old, new| {
            is_long(input) && is_changed_by(Landed::Request5, input, old, new)
        },
    },
    Rule {
        request: 5,
        name: "text of 64 to 25,623 bytes gets as many lines as fit",
        explains: |input, old, new| {
            !is_long(input) && is_changed_by(Landed::Request5, input, old, new)
        },
    },
    Rule {
        request: 6,
        name: "a set of features that no processor has is refused with 1",
        explains: |input, old, new| is_changed_by(Landed::Request6, input, old, new),
    },
    Rule {
        request: 7,
        name: "EVEX P bit 2 is part of the map, and no row has the maps 4 to 7",
        explains: |input, old, new| is_changed_by(Landed::Request7, input, old, new),
    },
];

/// Features that request 1 no longer refuses. With fewer, and in listings, which take none, its new
/// rows alone can change an answer. Those of them that request 6 refuses again answer as at the base.
fn has_feature_5(input: &Input) -> bool {
    matches!(input.features(), Some(32..=63))
}

/// A list that was too long before request 5. With others, the size of a listing's text alone can
/// change an answer then.
fn is_long(input: &Input) -> bool {
    input.list().is_some_and(|code| code.len() > 4_096)
}

/// Whether the old answer is the base's, and the new one is the right one from this request on, in
/// every part, and was not before it.
fn is_changed_by(request: Landed, input: &Input, old: &Answer, new: &Answer) -> bool {
    let gives = |landed: Landed, answer: &Answer| landed.answer(input).as_ref() == Some(answer);
    let (before, since) = Landed::ALL.split_at(request as usize);
    since.iter().all(|&landed| gives(landed, new))
        && before.last().is_some_and(|&landed| !gives(landed, new))
        && gives(Landed::Base, old)
}
