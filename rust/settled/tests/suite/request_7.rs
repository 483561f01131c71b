//! Request 7 by itself: the bytes that it changes, the library's answers to the request's codes, the
//! frozen inputs with such bytes and without, and the answers that its rule takes and does not take.

use crate::tools::{answers, base, expect_none, expect_rule, inputs, listing, rule, with_3};
use settled::answer::Answer;
use settled::decoded::Decoded;
use settled::digest::Digest;
use settled::entry_point::EntryPoint;
use settled::input::{Decode, Input, Listing};
use settled::landed::{whole_lines, Landed};
use settled::request_7::has_map_from_4_on;
use settled::today::{self, Refused};

/// VPSHUFD zmm1, zmm2, 0x1b with another second byte.
fn under(p: u8) -> [u8; 7] {
    [0x62, p, 0x7D, 0x48, 0x70, 0xCA, 0x1B]
}

#[test]
fn bytes_that_the_request_changes() {
    let changed: [&[u8]; 6] = [
        &under(0xF5),
        &under(0xF4),
        &under(0x06),
        &under(0x97),
        &under(0xF5)[..5],
        &[0x62, 0xF5, 0xFF, 0xFF, 0xFF],
    ];
    for code in changed {
        assert!(has_map_from_4_on(code), "{code:02X?}");
    }
    let others: [&[u8]; 9] = [
        &[],
        &under(0xF5)[..4],
        &under(0xF1),
        &under(0xF0),
        &under(0xF9),                                // P bit 3
        &under(0xFD),                                // and P bit 2
        &[0x62, 0xF5, 0x79, 0x48, 0x70, 0xCA, 0x1B], // Q bit 2
        &[0xC4, 0xE5, 0x7D, 0x48, 0x70, 0xCA, 0x1B],
        &[0xC5, 0xF5, 0x7D, 0x48, 0x70, 0xCA, 0x1B],
    ];
    for code in others {
        assert!(!has_map_from_4_on(code), "{code:02X?}");
    }
}

/// Each with status and reason, from the request.
#[test]
fn answers_to_the_requests_codes() {
    let cases: [(&[u8], u32, u32); 7] = [
        (&under(0xF5), 3, 0),
        (&under(0xF9), 4, 1),
        (&[0x62, 0xF1, 0x79, 0x48, 0x70, 0xCA, 0x1B], 4, 1),
        (&under(0xF4), 3, 0),
        (&under(0xF0), 3, 0),
        (&under(0xFD), 4, 1),
        (&under(0xF5)[..4], 2, 0),
    ];
    for (code, status, reason) in cases {
        for features in [0, 31, 63] {
            let code = code.to_vec();
            let input = Input::Decode(Decode { features, code });
            let expected = Refused {
                status,
                place: 0,
                reason,
            };
            assert_eq!(today::refused(&input), Some(expected), "{input}");
        }
    }
}

/// Every frozen input that was refused for such bytes answers 3 in the same place and changes no more
/// than before, and every other answers what it did before the request.
#[test]
fn frozen_inputs_with_and_without_such_bytes() {
    let base = base();
    for entry_point in EntryPoint::ALL {
        let (mut changed, mut others) = (0, 0);
        for (number, input) in base.inputs(entry_point).enumerate() {
            let Some(before) = Landed::Request6.answer(&input) else {
                continue;
            };
            let expected = since(&input, &before);
            let name = entry_point.name();
            let now = today::answer(&input);
            assert_eq!(now, expected, "{name}, record {number} from 0\n{input}");
            match now == before {
                true => others += 1,
                false => changed += 1,
            }
        }
        let name = entry_point.name();
        println!("{name}: {changed} with another answer, {others} others");
        let has_code = !matches!(entry_point, EntryPoint::Apply | EntryPoint::Compose);
        assert_eq!(changed > 0, has_code, "{name}");
    }
}

/// What the request makes of an answer from before it.
fn since(input: &Input, before: &Answer) -> Answer {
    let (code, place) = match input {
        Input::Decode(i) => (&i.code, 0),
        Input::Step(i) => (&i.code, 0),
        Input::Run(i) => (&i.code, before.numbers[1]),
        Input::Build(i) => (&i.code, before.numbers[0]),
        Input::Listing(i) => return listed_since(i, before),
        Input::Apply(_) | Input::Compose(_) => panic!("no code:\n{input}"),
    };
    if before.status != 4 || !has_map_from_4_on(&code[place as usize..]) {
        return before.clone();
    }
    let mut answer = Answer {
        status: 3,
        ..before.clone()
    };
    // A decoding's digest is of its fields, of which the status is one.
    if matches!(input, Input::Decode(_)) {
        answer.digest = Digest::of(&Decoded::refused(3).fields());
    }
    answer
}

/// The line of a refused instruction is two bytes shorter, so that it may fit now.
fn listed_since(input: &Listing, before: &Answer) -> Answer {
    let text = Landed::Request6.lines(&input.code);
    let last = text.lines().last().unwrap_or_default();
    let place: Option<usize> = last.split('\t').next().and_then(|at| at.parse().ok());
    let is_changed =
        |place: usize| last.ends_with("\t4:1") && has_map_from_4_on(&input.code[place..]);
    if before.status != 0 || !place.is_some_and(is_changed) {
        return before.clone();
    }
    let text = with_3(&text);
    let (written, digest) = input.text.call(|room| {
        let piece = whole_lines(&text, room.len());
        room[..piece.len()].copy_from_slice(piece.as_bytes());
        piece.len()
    });
    Answer {
        status: 0,
        numbers: vec![written as u64],
        digest,
    }
}

/// VPSHUFD xmm1, xmm2, 0x1b, which is the base's, and VUNPCKHPS xmm1, xmm2, xmm3, which is request
/// 1's.
const STEPS: [u8; 9] = [0xC5, 0xF9, 0x70, 0xCA, 0x1B, 0xC5, 0xE8, 0x15, 0xCB];

/// An input of each entry point, with these bytes alone or at the end of a list.
fn with(features: u32, code: &[u8]) -> Vec<Input> {
    inputs(features, code, &[&STEPS, code].concat())
}

/// Each of the maps 4 to 7, of 5 bytes and more, with an opcode of a row and with another.
#[test]
fn rule_takes_the_right_answer_alone() {
    let unknown = [0x62, 0xF6, 0x7D, 0x48, 0xFF, 0xCA];
    let mut codes = vec![unknown.to_vec(), under(0xF5)[..5].to_vec()];
    codes.extend([0xF4, 0xF5, 0xF6, 0x07].map(|p| under(p).to_vec()));
    for features in [1, 31, 37, 63] {
        for input in codes.iter().flat_map(|code| with(features, code)) {
            expect_rule(&input, 6);
            // What it answered until then is not right.
            let [old, _] = answers(&input);
            let before = Landed::Request6.answer(&input).expect("it has code");
            assert_eq!(rule(&input, &old, &before), None, "{input}");
        }
    }
}

/// A list that was too long at the base, and a text that was too short: request 7 has the last word.
#[test]
fn rule_takes_long_lists_and_short_texts() {
    let long = [&under(0xF5)[..], &STEPS.repeat(456)].concat();
    assert!(long.len() > 4_096);
    for input in inputs(31, &[], &long) {
        if input.list().is_some() {
            expect_rule(&input, 6);
        }
    }
    expect_rule(&listing(64, &under(0xF5)), 6);
}

/// A set of features that no processor has answers 1 with such bytes too, and that is request 6's.
#[test]
fn rule_leaves_features_to_request_6() {
    for input in with(30, &under(0xF5)) {
        if input.features().is_some() {
            expect_rule(&input, 5);
        }
    }
}

/// Bytes that answer what they did, which is 2, 3, 4 or 0.
#[test]
fn rule_takes_nothing_else() {
    let others: [&[u8]; 6] = [
        &under(0xF5)[..4],
        &under(0xF0),
        &under(0xF9),
        &under(0xFD),
        &[0x62, 0xF5, 0x79, 0x48, 0x70, 0xCA, 0x1B],
        &under(0xF1),
    ];
    for code in others {
        for input in inputs(31, code, code) {
            let [old, today] = answers(&input);
            assert_ne!(rule(&input, &old, &today), Some(6), "{input}");
            expect_none(&input);
        }
    }
}
