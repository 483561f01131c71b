//! Request 5 by itself: pieces of the frozen listings, and the answers that its rules take and do
//! not take.

use crate::tools::{answers, base, expect_none, expect_rule, listing, listings};
use settled::base::INPUTS;
use settled::input::{Build, Decode, Input, Listing, Run};
use settled::landed::{whole_lines, Landed};
use settled::room::{old_map, Room};
use settled::today::{self, Listed};

/// The place in front of the first tab.
fn place_of(line: &str) -> u64 {
    let place = line.split('\t').next().and_then(|at| at.parse().ok());
    place.expect("a line starts with its place")
}

/// What a piece answers that has `piece` of what is left of the text.
fn expected(code: &[u8], piece: &str, left: &str) -> Listed {
    let behind = &left[piece.len()..];
    let last = piece.lines().last().unwrap_or_default();
    let next = match behind {
        "" if last.contains("\t-\t") => place_of(last),
        "" => code.len() as u64,
        _ => place_of(behind),
    };
    Listed {
        status: 0,
        written: piece.len() as u64,
        next,
        more: !behind.is_empty(),
    }
}

/// Takes a list's pieces, each into text of this size, from place 0 on until no lines remain. Each
/// has to be as many lines of the whole text as fit, and no byte behind them may change. Gives the
/// number of pieces.
fn check_pieces(code: &[u8], size: usize) -> usize {
    let text = Landed::TODAY.lines(code);
    let (mut left, mut place) = (&text[..], 0);
    for count in 1.. {
        let piece = whole_lines(left, size);
        let mut buffer = vec![0xEE; size];
        let listed = today::listed(code, place, &mut buffer);
        assert_eq!(
            listed,
            expected(code, piece, left),
            "{code:02X?}, {size} bytes"
        );
        let (written, behind) = buffer.split_at(piece.len());
        assert_eq!(written, piece.as_bytes(), "{code:02X?}, {size} bytes");
        assert!(behind.iter().all(|&byte| byte == 0xEE), "{code:02X?}");
        if !listed.more {
            return count;
        }
        (left, place) = (&left[piece.len()..], listed.next as usize);
    }
    unreachable!("a list ends")
}

/// Into text of the frozen size, and of small ones. A text under 64 bytes is refused.
#[test]
fn pieces_of_the_frozen_listings() {
    let base = base();
    let (mut refused, mut whole, mut parts) = (0, 0, 0);
    for (number, Listing { text, code }) in listings(&base).enumerate() {
        parts += check_pieces(&code, 64 + number % 100);
        if text.size >= 64 {
            whole += check_pieces(&code, text.size);
            continue;
        }
        let none = Listed {
            status: 1,
            written: 0,
            next: 0,
            more: false,
        };
        assert_eq!(today::listed(&code, 0, &mut vec![0; text.size]), none);
        refused += 1;
    }
    assert!(refused > 0 && whole + refused >= INPUTS && parts > 2 * INPUTS);
    println!("listings: {refused} refused, the others in {whole} pieces; {parts} small pieces");
}

/// VPSHUFD xmm1, xmm2, 0x1b, and VUNPCKHPS xmm1, xmm2, xmm3, which is request 1's.
const STEPS: [u8; 9] = [0xC5, 0xF9, 0x70, 0xCA, 0x1B, 0xC5, 0xE8, 0x15, 0xCB];
/// VPSHUFD with a wrong vvvv
const RESERVED: [u8; 5] = [0xC5, 0xE9, 0x70, 0xCA, 0x1B];

/// Lists that were too long: an accepted one, and some with a refused instruction at the end.
fn long_lists() -> [Vec<u8>; 4] {
    let full = STEPS.repeat(1_820);
    let [reserved, no_row] = [&RESERVED[..], &[0x90; 4]];
    let longest = [&full, no_row].concat();
    assert_eq!(longest.len(), 16_384);
    [
        full[..4_104].to_vec(),
        [&full[..4_095], reserved].concat(),
        full[..4_097].to_vec(),
        longest,
    ]
}

fn run(features: u32, file_size: u16, code: &[u8]) -> Input {
    Input::Run(Run {
        features,
        budget: 5_000,
        file: Room::new((0..2_560).map(|i| i as u8).collect(), file_size),
        masks: vec![u64::MAX; 8],
        code: code.to_vec(),
    })
}

fn build(features: u32, map_size: u16, code: &[u8]) -> Input {
    Input::Build(Build {
        features,
        map: Room::new(old_map(7), map_size),
        masks: vec![u64::MAX; 8],
        code: code.to_vec(),
    })
}

#[test]
fn long_lists_are_no_longer_refused() {
    for code in long_lists() {
        for features in [31, 63] {
            expect_rule(&run(features, 2_048, &code), 3);
            expect_rule(&build(features, 2_048, &code), 3);
        }
        for size in [64, 25_623, 25_624, 26_096] {
            expect_rule(&listing(size, &code), 3);
        }
    }
}

#[test]
fn answers_of_long_lists() {
    let ends = [
        (0, 912, 4_104),
        (4, 910, 4_095),
        (2, 910, 4_095),
        (3, 3_640, 16_380),
    ];
    for (code, (status, steps, place)) in long_lists().iter().zip(ends) {
        let [_, ran] = answers(&run(31, 2_048, code));
        assert_eq!((ran.status, ran.numbers), (status, vec![steps, place]));
        let [_, built] = answers(&build(31, 2_048, code));
        assert_eq!((built.status, built.numbers), (status, vec![place]));
    }
}

#[test]
fn short_texts_are_no_longer_refused() {
    for code in [&STEPS.repeat(400)[..], &STEPS, &RESERVED, &[]] {
        for size in [64, 65, 100, 25_623] {
            expect_rule(&listing(size, code), 4);
        }
    }
}

/// What the request leaves as it was: text under 64 bytes, lists over 16,384, other sizes, and code
/// that is no list.
#[test]
fn rules_take_nothing_else() {
    let [long, ..] = long_lists();
    let longer = STEPS.repeat(1_821);
    assert!(longer.len() > 16_384);
    let decode = Decode {
        features: 31,
        code: long.clone(),
    };
    let others = [
        listing(63, &STEPS),
        listing(63, &long),
        listing(63, &longer),
        listing(25_624, &longer),
        run(31, 2_048, &longer),
        run(31, 2_047, &long),
        run(64, 2_048, &long),
        build(31, 2_048, &longer),
        build(31, 2_049, &long),
        Input::Decode(decode),
    ];
    for input in &others {
        let [old, today] = answers(input);
        assert_eq!(old, today, "{input}");
        expect_none(input);
    }
}
