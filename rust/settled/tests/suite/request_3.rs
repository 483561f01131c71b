//! Request 3 by itself: texts of the frozen listings are the old ones with reasons, every frozen 4
//! has the right reason, and the answers that its rule takes and does not take.

use crate::tools::{answers, base, expect_rule, listing, listings, rule, with_3};
use settled::base::INPUTS;
use settled::entry_point::EntryPoint;
use settled::input::{Decode, Input, Listing};
use settled::landed::Landed;
use settled::request_3::reason;
use settled::today;

/// Lists into text that is large enough for all lines, and gives it. What lies behind has to stay.
fn listed(code: &[u8]) -> String {
    let lines = 1 + code.len() / 4;
    let mut text = vec![0xEE; 64 + 27 * lines];
    let listed = today::listed(code, 0, &mut text);
    assert_eq!((listed.status, listed.more), (0, false), "{code:02X?}");
    let (written, behind) = text.split_at(listed.written as usize);
    assert!(behind.iter().all(|&byte| byte == 0xEE), "{code:02X?}");
    String::from_utf8(written.to_vec()).expect("ASCII")
}

/// The code of every frozen listing, with text enough. What is expected is the text of request 1 with
/// a digit behind a 4, and the digit is worked out here, for all rows; where request 7 has made a 3 of
/// the 4, that. The rest of each line comes, for the base's rows, from today's decoder. That is still
/// checked: the base's text is held to the frozen digest, for every listing with enough text, by the
/// first test of `landed.rs`.
#[test]
fn texts_are_the_old_ones_with_reasons() {
    let base = base();
    let (mut same, mut new_rows) = (0, 0);
    let mut reasons = [0; 6];
    for Listing { code, .. } in listings(&base) {
        let text = Landed::Request3.lines(&code);
        let today = listed(&code);
        assert_eq!(today, Landed::TODAY.lines(&code), "{code:02X?}");
        if today != text {
            assert_eq!(today, with_3(&text), "{code:02X?}");
        } else if let Some(digit) = reason_in(&text) {
            reasons[digit - 1] += 1;
        }
        match without_reason(&text) == Landed::Base.lines(&code) {
            true => same += 1,
            false => new_rows += 1,
        }
    }
    assert_eq!(same + new_rows, INPUTS);
    assert!(reasons.iter().all(|&count| count > 0), "{reasons:?}");
    println!(
        "texts: {same} are the base's but for the reason, {new_rows} have new rows; \
         reasons 1 to 6: {reasons:?}"
    );
}

/// The digit behind a 4, if the text has one.
fn reason_in(text: &str) -> Option<usize> {
    let (_, digit) = text.strip_suffix('\n')?.rsplit_once("\t4:")?;
    digit.parse().ok()
}

fn without_reason(text: &str) -> String {
    match reason_in(text) {
        Some(digit) => text.replace(&format!("\t4:{digit}\n"), "\t4\n"),
        None => text.to_string(),
    }
}

/// Where an input was refused with 4, the reason is what this package finds at that place; else 0.
#[test]
fn reasons_of_the_frozen_inputs() {
    let base = base();
    for entry_point in EntryPoint::ALL {
        let mut reasons = [0; 6];
        for (number, input) in base.inputs(entry_point).enumerate() {
            let Some(found) = today::refused(&input) else {
                continue;
            };
            let expected = match found.status {
                4 => reason(&code(&input)[found.place as usize..]),
                _ => Some(0),
            };
            assert_eq!(
                Some(found.reason),
                expected,
                "{}, record {number} from 0\n{input}",
                entry_point.name()
            );
            if found.status == 4 {
                reasons[found.reason as usize - 1] += 1;
            }
        }
        let gives_one = !matches!(
            entry_point,
            EntryPoint::Apply | EntryPoint::Compose | EntryPoint::Listing
        );
        assert_eq!(reasons.iter().all(|&count| count > 0), gives_one);
        println!("{}: reasons 1 to 6: {reasons:?}", entry_point.name());
    }
}

fn code(input: &Input) -> &[u8] {
    match input {
        Input::Decode(input) => &input.code,
        Input::Step(input) => &input.code,
        Input::Run(input) => &input.code,
        Input::Build(input) => &input.code,
        Input::Listing(input) => &input.code,
        Input::Apply(_) | Input::Compose(_) => &[],
    }
}

#[test]
fn reasons_of_written_out_code() {
    let cases: [(&[u8], Option<u32>); 19] = [
        (&[0x62, 0xF9, 0x01, 0xF0, 0xFF], Some(1)),
        (&[0x62, 0xF5, 0x7D, 0x48, 0x70, 0xCA, 0x1B], Some(1)), // until request 7
        (&[0x62, 0xF1, 0x79, 0x48, 0x70, 0xCA, 0x1B], Some(1)),
        (&[0xC4, 0xE3, 0xED, 0x05, 0xCA, 0x05], Some(2)), // W and vvvv
        (&[0xC4, 0xE3, 0xE9, 0x06, 0xCB, 0x31], Some(2)), // W and L
        (&[0xC4, 0xE2, 0xE9, 0x0C, 0xCB], Some(2)),
        (&[0xC4, 0xE3, 0x69, 0x06, 0xCB, 0x31], Some(3)), // L
        (&[0x62, 0xF1, 0x05, 0xF0, 0x70, 0xCA, 0x1B], Some(3)), // and all behind it
        (&[0xC5, 0xE9, 0x70, 0xCA, 0x1B], Some(4)),
        (&[0xC4, 0xE3, 0x69, 0x04, 0xCA, 0x1B], Some(4)),
        (&[0x62, 0xF1, 0x7D, 0x40, 0x70, 0xCA, 0x1B], Some(4)), // V'
        (&[0x62, 0xF1, 0x05, 0xD0, 0x70, 0xCA, 0x1B], Some(4)), // and all behind it
        (&[0x62, 0xF1, 0x7D, 0xD8, 0x70, 0xCA, 0x1B], Some(5)), // b and z
        (&[0x62, 0xF2, 0x6D, 0x58, 0x8D, 0x08], Some(5)),       // VPERMB
        (&[0x62, 0xF2, 0xED, 0x58, 0x00, 0x08], Some(5)),       // VPSHUFB
        (&[0x62, 0xF1, 0x7D, 0xC8, 0x70, 0xCA, 0x1B], Some(6)),
        (&[0x62, 0xF1, 0x7D, 0x58, 0x70, 0x08, 0x1B], None), // b with memory is right
        (&[0xC4, 0xE1, 0xE9, 0x14, 0xCB], None),             // any W will do
        (&[0x90], None),
    ];
    for (code, number) in cases {
        assert_eq!(reason(code), number, "{code:02X?}");
    }
}

/// VPSHUFD xmm1, xmm2, 0x1b, then VPSHUFB with width 3, b and z: a new row.
const LIST: [u8; 11] = [
    0xC5, 0xF9, 0x70, 0xCA, 0x1B, 0x62, 0xF2, 0x6D, 0xF8, 0x00, 0xCB,
];

#[test]
fn text_of_a_written_out_list() {
    let text = "at\tlen\tname\tbits\tanswer\n0\t5\tVPSHUFD\t128\t0\n5\t0\t-\t0\t4:3\n";
    assert_eq!(Landed::Request3.lines(&LIST), text);
    assert_eq!(listed(&LIST), text);
    let text = "at\tlen\tname\tbits\tanswer\n0\t5\tVPSHUFD\t128\t0\n5\t0\t-\t0\t2\n";
    assert_eq!(Landed::Request3.lines(&LIST[..10]), text);
    assert_eq!(listed(&LIST[..10]), text);
}

/// A list that ends with a 4, of the base's rows and of a new one.
#[test]
fn rule_takes_the_right_answer_alone() {
    let wrong_vvvv = [0xC5, 0xE9, 0x70, 0xCA, 0x1B];
    for code in [&LIST[..], &wrong_vvvv] {
        for size in [25_624, 25_625, 26_096] {
            let input = listing(size, code);
            expect_rule(&input, 2);
            // Without the reason it is not right.
            let [old, _] = answers(&input);
            let before = Landed::Request1.answer(&input).expect("it has code");
            assert_eq!(rule(&input, &old, &before), None, "{input}");
        }
    }
}

#[test]
fn rule_takes_no_other_input() {
    let code = LIST.to_vec();
    // No 4, and a text that is too short at the base.
    let [accepted, short] = [listing(25_624, &LIST[..5]), listing(25_623, &LIST)];
    let decode = Input::Decode(Decode { features: 31, code });
    for input in [accepted, short, decode] {
        let [old, right] = answers(&input);
        assert_ne!(rule(&input, &old, &right), Some(2), "{input}");
    }
}
