//! Shared by the tests.

use settled::answer::Answer;
use settled::base::Base;
use settled::digest::Digest;
use settled::entry_point::EntryPoint;
use settled::frozen::folder;
use settled::input::{Build, Decode, Input, Listing, Run, Step};
use settled::landed::Landed;
use settled::room::{old_map, Room};
use settled::rules::RULES;

pub fn base() -> Base {
    Base::read(&folder()).expect("the frozen files can be read")
}

/// The frozen listings.
pub fn listings(base: &Base) -> impl Iterator<Item = Listing> + '_ {
    base.inputs(EntryPoint::Listing).map(|input| match input {
        Input::Listing(listing) => listing,
        _ => panic!("no listing:\n{input}"),
    })
}

/// A listing into text of this size, in a room as large as the frozen ones have.
pub fn listing(size: u16, code: &[u8]) -> Input {
    Input::Listing(Listing {
        text: Room::new(vec![7; 26_112], size),
        code: code.to_vec(),
    })
}

/// An input of each entry point that has code.
pub fn inputs(features: u32, code: &[u8], list: &[u8]) -> Vec<Input> {
    let file = || Room::new((0..2_560).map(|i| i as u8).collect(), 2_048);
    let (masks, list) = (|| vec![u64::MAX; 8], || list.to_vec());
    vec![
        Input::Decode(Decode {
            features,
            code: code.to_vec(),
        }),
        Input::Step(Step {
            features,
            file: file(),
            masks: masks(),
            memory: vec![],
            code: code.to_vec(),
        }),
        Input::Run(Run {
            features,
            budget: 9,
            file: file(),
            masks: masks(),
            code: list(),
        }),
        Input::Build(Build {
            features,
            map: Room::new(old_map(7), 2_048),
            masks: masks(),
            code: list(),
        }),
        // As much text as the base asks for: with less, request 5's rule speaks.
        listing(25_624, &list()),
    ]
}

/// The number of the rule that explains this difference.
pub fn rule(input: &Input, old: &Answer, new: &Answer) -> Option<usize> {
    RULES
        .iter()
        .position(|rule| (rule.explains)(input, old, new))
}

/// The base's answer to an input that has code, and today's.
pub fn answers(input: &Input) -> [Answer; 2] {
    let answer = |landed: Landed| landed.answer(input).expect("an input with code");
    [answer(Landed::Base), answer(Landed::TODAY)]
}

/// A listing's text that ends with reason 1, with a 3 in the place of the 4 and the reason.
pub fn with_3(text: &str) -> String {
    let before = text.strip_suffix("4:1\n");
    let before = before.unwrap_or_else(|| panic!("no reason 1 at the end of\n{text}"));
    format!("{before}3\n")
}

/// No other status than the old one has a rule.
pub fn expect_none(input: &Input) {
    let [old, _] = answers(input);
    for status in (0..10).filter(|status| *status != old.status) {
        let new = Answer {
            status,
            ..old.clone()
        };
        assert_eq!(rule(input, &old, &new), None, "{input}\n{new}");
    }
}

/// The right answer has this rule, and one that is wrong in any part has none.
pub fn expect_rule(input: &Input, number: usize) {
    let [old, right] = answers(input);
    assert_eq!(rule(input, &old, &right), Some(number), "{input}");
    let changes: [fn(&mut Answer); 3] = [
        |answer| answer.status ^= 1,
        |answer| answer.numbers[0] += 1,
        |answer| answer.digest = Digest(answer.digest.0 ^ 1),
    ];
    for change in changes {
        let mut wrong = right.clone();
        change(&mut wrong);
        assert_eq!(rule(input, &old, &wrong), None, "{input}\n{wrong}");
        // The old answer has to be the base's, too.
        let mut other = old.clone();
        change(&mut other);
        assert_eq!(rule(input, &other, &right), None, "{input}\n{other}");
    }
}
