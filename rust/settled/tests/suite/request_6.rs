//! Request 6 by itself: the sets that it refuses, what the base's rows need, the frozen inputs with
//! such sets and with others, and the answers that its rule takes and does not take.

use crate::tools::{answers, base, expect_none, expect_rule, inputs, rule};
use settled::answer::Answer;
use settled::decoded::Decoded;
use settled::digest::Digest;
use settled::entry_point::EntryPoint;
use settled::input::Input;
use settled::landed::Landed;
use settled::needs::needed_features;
use settled::request_6::no_processor_has;
use settled::today;

/// The others of the 64 sets.
#[rustfmt::skip] // in rows
const LEFT: [u32; 19] = [
    0, 1, 3, 5, 7, 13, 15, 21, 23, 29,
    31, 37, 39, 45, 47, 53, 55, 61, 63,
];

#[test]
fn sets_that_no_processor_has() {
    for features in 0..64 {
        assert_eq!(no_processor_has(features), !LEFT.contains(&features));
    }
}

/// An instruction of every row and width of the base, and what it needs.
#[test]
fn features_that_the_bases_rows_need() {
    let forms: [(&[u8], u32); 13] = [
        (&[0xC5, 0xE8, 0x14, 0xCB], 1),
        (&[0xC5, 0xEC, 0x14, 0xCB], 1),
        (&[0xC4, 0xE3, 0x7D, 0x05, 0xCA, 0x05], 1),
        (&[0xC4, 0xE3, 0x6D, 0x06, 0xCB, 0x31], 1),
        (&[0xC5, 0xF9, 0x70, 0xCA, 0x1B], 1),
        (&[0xC5, 0xFD, 0x70, 0xCA, 0x1B], 2),
        (&[0x62, 0xF1, 0x7D, 0x48, 0x70, 0xCA, 0x1B], 4),
        (&[0x62, 0xF1, 0x7D, 0x28, 0x70, 0xCA, 0x1B], 12),
        (&[0x62, 0xF2, 0xED, 0x08, 0x0D, 0xCB], 12),
        (&[0x62, 0xF1, 0x6C, 0x48, 0x14, 0xCB], 4),
        (&[0x62, 0xF2, 0x6D, 0x48, 0x8D, 0xCB], 16),
        (&[0x62, 0xF2, 0x6D, 0x28, 0x8D, 0xCB], 24),
        (&[0x62, 0xF2, 0x6D, 0x08, 0x8D, 0xCB], 24),
    ];
    for (code, needed) in forms {
        let decoded = today::decoded(code, 31);
        assert_eq!(decoded.status, 0, "{code:02X?}");
        assert_eq!(needed_features(&decoded), needed, "{code:02X?}");
        // With the sets that are left, today's library says the same.
        for features in LEFT {
            let has = features & needed == needed;
            let expected = if has { decoded } else { Decoded::refused(5) };
            assert_eq!(today::decoded(code, features), expected, "{code:02X?}");
        }
    }
}

/// Every frozen input with such a set answers 1 and changes nothing, and every other answers what it
/// did before the request. The library still does, unless request 7 has changed the answer since.
#[test]
fn frozen_inputs_with_and_without_such_sets() {
    let base = base();
    for entry_point in EntryPoint::ALL {
        let (mut refused, mut others, mut changed) = (0, 0, 0);
        for (number, input) in base.inputs(entry_point).enumerate() {
            let Some(before) = Landed::Request5.answer(&input) else {
                continue;
            };
            let features = input.features().filter(|&features| features < 64);
            let is_refused = features.is_some_and(no_processor_has);
            let expected = if is_refused { refusal(&input) } else { before };
            let place = format!("{}, record {number} from 0\n{input}", entry_point.name());
            let found = Landed::Request6.answer(&input);
            assert_eq!(found.as_ref(), Some(&expected), "{place}");
            if !is_refused && Landed::TODAY.answer(&input) != found {
                changed += 1;
                continue;
            }
            assert_eq!(today::answer(&input), expected, "{place}");
            match is_refused {
                true => refused += 1,
                false => others += 1,
            }
        }
        let name = entry_point.name();
        println!("{name}: {refused} with a set that no processor has, {others} others");
        println!("{name}: {changed} that request 7 has changed");
    }
}

/// Answer 1: no numbers but 0, and every buffer as it was.
fn refusal(input: &Input) -> Answer {
    let answer = |numbers: &[u64], digest| Answer {
        status: 1,
        numbers: numbers.to_vec(),
        digest,
    };
    match input {
        Input::Decode(_) => {
            let fields = Decoded::refused(1).fields();
            answer(&[0], Digest::of(&fields))
        }
        Input::Step(i) => answer(&[0], i.file.call(|_| ()).1),
        Input::Run(i) => answer(&[0, 0], i.file.call(|_| ()).1),
        Input::Build(i) => answer(&[0], i.map.call(|_| ()).1),
        Input::Apply(_) | Input::Compose(_) | Input::Listing(_) => panic!("no features:\n{input}"),
    }
}

/// VPSHUFD xmm1, xmm2, 0x1b, which is the base's, and VUNPCKHPS xmm1, xmm2, xmm3, which is request
/// 1's.
const STEPS: [u8; 9] = [0xC5, 0xF9, 0x70, 0xCA, 0x1B, 0xC5, 0xE8, 0x15, 0xCB];

/// The inputs of the entry points that take features.
fn with_features(features: u32, code: &[u8]) -> impl Iterator<Item = Input> {
    let inputs = inputs(features, code, code).into_iter();
    inputs.filter(|input| input.features().is_some())
}

/// Sets that passed at the base: accepted, refused for a feature, short, without a row, with a field
/// that is wrong.
#[test]
fn rule_takes_the_right_answer_alone() {
    let codes: [&[u8]; 5] = [
        &STEPS,
        &[0xC5, 0xFD, 0x70, 0xCA, 0x1B],
        &STEPS[..8],
        &[0x90; 4],
        &[0xC5, 0xE9, 0x70, 0xCA, 0x1B],
    ];
    for features in (0..32).filter(|&features| no_processor_has(features)) {
        for input in codes.iter().flat_map(|code| with_features(features, code)) {
            expect_rule(&input, 5);
            // What it answered until then is not right.
            let [old, _] = answers(&input);
            let before = Landed::Request5.answer(&input).expect("it has code");
            assert_eq!(rule(&input, &old, &before), None, "{input}");
        }
    }
}

/// A list that was too long at the base, too: request 6 has the last word.
#[test]
fn rule_takes_long_lists() {
    let long = STEPS.repeat(456);
    assert!(long.len() > 4_096);
    for input in with_features(30, &long).filter(|input| input.list().is_some()) {
        expect_rule(&input, 5);
    }
}

/// Sets over 31 answer the same again as at the base, and with sets that are left nothing changes.
#[test]
fn rule_takes_nothing_else() {
    let refused = (32..64).filter(|&features| no_processor_has(features));
    for input in refused.flat_map(|features| with_features(features, &STEPS)) {
        let [old, today] = answers(&input);
        assert_eq!((old.status, &old), (1, &today), "{input}");
        expect_none(&input);
    }
    let base_row = &STEPS[..5];
    for features in LEFT.into_iter().filter(|&features| features < 32) {
        with_features(features, base_row).for_each(|input| expect_none(&input));
    }
}
