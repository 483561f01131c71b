//! Exact answers of a listing for inputs that a careless caller may pass.

use compare::guard::Guarded;
use compare::listings::refusal;
use tarhuspo::Listed;

const HEADINGS: &str = "at\tlen\tname\tbits\tanswer\n";
/// vunpcklps xmm1, xmm2, xmm3
const VUNPCKLPS: [u8; 4] = [0xC5, 0xE8, 0x14, 0xCB];

/// Lists between guard bytes, and sees that the code stays, and the text but for what was written.
fn listing(code: &[u8], place: usize, size: usize) -> (String, Listed) {
    let mut codes = Guarded::default();
    let mut texts = Guarded::default();
    let mut text = vec![0x5A; size];
    let listed = tarhuspo::listing(codes.fill(code), place, texts.fill(&text));
    assert!(codes.is_unchanged(code), "the code was changed");
    let written = listed.written as usize;
    let lines = texts.content()[..written].to_vec();
    text[..written].copy_from_slice(&lines);
    assert!(texts.is_unchanged(&text), "more was written than counted");
    (String::from_utf8(lines).expect("ASCII"), listed)
}

/// A piece behind which no lines remain.
fn last_piece(text: &str, next: u64) -> (String, Listed) {
    let listed = Listed {
        written: text.len() as u64,
        next,
        status: 0,
        more: false,
    };
    (text.to_string(), listed)
}

fn refused(status: u32) -> (String, Listed) {
    (String::new(), refusal(status))
}

/// Codes of all kinds, among them lists at the limit and over it.
fn codes() -> [Vec<u8>; 6] {
    let full = VUNPCKLPS.repeat(4_096);
    [
        vec![],
        vec![0x90],
        VUNPCKLPS.to_vec(),
        [&full[..], &[0xC5]].concat(),
        vec![0xC5; 100_000],
        full,
    ]
}

#[test]
fn less_than_64_bytes_of_text_are_refused_whatever_the_rest() {
    for code in codes() {
        let end = code.len();
        for place in [0, 1, 4, end / 2, end, end + 1, usize::MAX] {
            for size in 0..64 {
                assert_eq!(listing(&code, place, size), refused(1));
            }
        }
    }
}

#[test]
fn places_past_the_end_are_refused_whatever_the_rest() {
    for code in codes() {
        let end = code.len();
        for place in [
            end + 1,
            end + 64,
            end + (1 << 32),
            usize::MAX - 1,
            usize::MAX,
        ] {
            for size in [0, 63, 64, 65, 100, 70_000] {
                assert_eq!(listing(&code, place, size), refused(1));
            }
        }
    }
}

#[test]
fn long_lists_are_refused_at_every_place() {
    for code in codes().into_iter().filter(|code| code.len() > 16_384) {
        let end = code.len();
        for place in [0, 1, 4, 16_380, 16_384, end - 1, end] {
            for size in [64, 65, 100, 70_000, 200_000] {
                assert_eq!(listing(&code, place, size), refused(8));
            }
        }
    }
}

#[test]
fn empty_buffers() {
    assert_eq!(listing(&[], 0, 0), refused(1));
    assert_eq!(listing(&[], 1, 64), refused(1));
    for size in [64, 65, 100, 70_000] {
        assert_eq!(listing(&[], 0, size), last_piece(HEADINGS, 0));
    }
    let nothing = tarhuspo::listing(Default::default(), 0, Default::default());
    assert_eq!(nothing, refusal(1));
}

#[test]
fn the_end_has_no_line() {
    let is_listed = |code: &Vec<u8>| (1..=16_384).contains(&code.len());
    for code in codes().into_iter().filter(is_listed) {
        let end = code.len();
        for size in [64, 65, 100, 70_000] {
            assert_eq!(listing(&code, end, size), last_piece("", end as u64));
        }
    }
}

/// Two lines behind the headings fill 64 bytes to the last one.
#[test]
fn the_least_text_moves_on() {
    let code = VUNPCKLPS.repeat(4);
    let first = format!("{HEADINGS}0\t4\tVUNPCKLPS\t128\t0\n4\t4\tVUNPCKLPS\t128\t0\n");
    assert_eq!(first.len(), 64);
    let remaining = Listed {
        written: 64,
        next: 8,
        status: 0,
        more: true,
    };
    assert_eq!(listing(&code, 0, 64), (first, remaining));
    let second = "8\t4\tVUNPCKLPS\t128\t0\n12\t4\tVUNPCKLPS\t128\t0\n";
    assert_eq!(listing(&code, 8, 64), last_piece(second, 16));
}

/// A place inside an instruction is decoded from there, and places count from the list's start.
#[test]
fn any_place_will_do() {
    // vperm2f128 ymm1, ymm2, ymm3, 0xc5, and behind its immediate the rest of a vunpcklps.
    let code = [0xC4, 0xE3, 0x6D, 0x06, 0xCB, 0xC5, 0xE8, 0x14, 0xCB];
    let text = format!("{HEADINGS}0\t6\tVPERM2F128\t256\t0\n6\t0\t-\t0\t3\n");
    assert_eq!(listing(&code, 0, 100), last_piece(&text, 6));
    let text = "5\t4\tVUNPCKLPS\t128\t0\n";
    assert_eq!(listing(&code, 5, 64), last_piece(text, 9));
    for place in [1, 2, 3, 4, 6, 7, 8] {
        let text = format!("{place}\t0\t-\t0\t3\n");
        assert_eq!(listing(&code, place, 64), last_piece(&text, place as u64));
    }
}
