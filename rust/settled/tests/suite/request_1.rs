//! Request 1 by itself: its worked cases, and the answers that its rules take and do not take.

use crate::tools::{expect_rule, inputs, rule};
use settled::answer::Answer;
use settled::decoded::Decoded;
use settled::digest::Digest;
use settled::input::{Apply, Input};
use settled::landed::Landed;
use settled::lane_permutes::{self, Instruction};
use settled::room::Room;

fn decoded(code: &[u8], features: u32) -> Result<Decoded, u32> {
    let found = lane_permutes::decode(code, features).expect("one of the rows");
    found.map(|instruction| instruction.decoded)
}

/// VUNPCKHPS xmm1, xmm2, xmm3
const UNPACK: [u8; 4] = [0xC5, 0xE8, 0x15, 0xCB];
/// VPSHUFB zmm1, zmm2, zmm3
const SHUFFLE: [u8; 6] = [0x62, 0xF2, 0x6D, 0x48, 0x00, 0xCB];

#[test]
fn operands_of_the_worked_cases() {
    let unpack = Decoded {
        status: 0,
        length: 4,
        mnemonic: 7,
        bits: 128,
        destination: 1,
        first: 2,
        third: 3,
        ..Decoded::default()
    };
    assert_eq!(decoded(&UNPACK, 1), Ok(unpack));
    let shuffle = Decoded {
        length: 6,
        mnemonic: 10,
        bits: 512,
        evex: 1,
        ..unpack
    };
    assert_eq!(decoded(&SHUFFLE, 63), Ok(shuffle));
    assert_eq!(
        decoded(&[0x62, 0xF2, 0xED, 0x48, 0x00, 0xCB], 63),
        Ok(shuffle)
    );
    let low = Decoded {
        mnemonic: 8,
        ..unpack
    };
    assert_eq!(decoded(&[0xC5, 0xE9, 0x14, 0xCB], 1), Ok(low));
    let long = Decoded { length: 5, ..low };
    assert_eq!(decoded(&[0xC4, 0xE1, 0xE9, 0x14, 0xCB], 1), Ok(long));
}

/// VPERMILPS xmm29{k3}{z}, dword ptr [mem]{1to4}, 0x1b, and xmm17, xmm18, xmm31
#[test]
fn operands_in_every_field() {
    let immediate = Decoded {
        status: 0,
        length: 12,
        memory: 4,
        mnemonic: 6,
        bits: 128,
        evex: 1,
        destination: 29,
        mask: 3,
        zeroing: 1,
        broadcast: 1,
        has_immediate: 1,
        immediate: 0x1B,
        ..Decoded::default()
    };
    let code = [0x62, 0x63, 0x7D, 0x9B, 0x04, 0x2C, 0x25, 1, 2, 3, 4, 0x1B];
    assert_eq!(decoded(&code, 12), Ok(immediate));
    let register = Decoded {
        length: 6,
        mnemonic: 6,
        bits: 128,
        evex: 1,
        destination: 17,
        first: 18,
        third: 31,
        ..Decoded::default()
    };
    assert_eq!(
        decoded(&[0x62, 0x82, 0x6D, 0x00, 0x0C, 0xCF], 12),
        Ok(register)
    );
}

#[test]
fn refusals_in_their_order() {
    let refused: [(&[u8], u32, u32); 12] = [
        (&UNPACK[..3], 63, 2),
        (&[0xC4, 0xE3, 0x79, 0x04, 0xCA], 63, 2), // no immediate
        (&[0xC4, 0xE3, 0xE9, 0x04, 0x0C], 0, 2),  // no SIB, and W and vvvv wrong
        (&[0xC4, 0xE3, 0xF9, 0x04, 0xCA, 0x1B], 0, 4), // VEX W
        (&[0xC4, 0xE3, 0x69, 0x04, 0xCA, 0x1B], 63, 4), // vvvv
        (&[0x62, 0xF3, 0x7D, 0x40, 0x04, 0xCA, 0x1B], 63, 4), // V'
        (&[0x62, 0xF2, 0x6D, 0x68, 0x00, 0xCB], 63, 4), // width 3
        (&[0x62, 0xF2, 0x6D, 0x58, 0x00, 0x08], 63, 4), // b on VPSHUFB
        (&[0x62, 0xF1, 0x6C, 0x58, 0x15, 0xCB], 63, 4), // b with a register
        (&[0x62, 0xF1, 0x6C, 0xC8, 0x15, 0xCB], 63, 4), // z with mask number 0
        (&SHUFFLE, 31, 5),
        (&UNPACK, 62, 5),
    ];
    for (code, features, status) in refused {
        assert_eq!(decoded(code, features), Err(status), "{code:02X?}");
    }
}

/// Each needs these features and no others.
#[test]
fn features_that_are_needed() {
    let forms: [(&[u8], u32); 8] = [
        (&UNPACK, 1),
        (&[0xC5, 0xEC, 0x15, 0xCB], 1),
        (&[0xC4, 0xE2, 0x69, 0x00, 0xCB], 1), // VPSHUFB of 128 bits
        (&[0xC4, 0xE2, 0x6D, 0x00, 0xCB], 2), // and of 256
        (&[0x62, 0xF1, 0x6C, 0x48, 0x15, 0xCB], 4),
        (&[0x62, 0xF1, 0x6C, 0x28, 0x15, 0xCB], 12),
        (&SHUFFLE, 32),
        (&[0x62, 0xF2, 0x6D, 0x08, 0x00, 0xCB], 40),
    ];
    for (code, needed) in forms {
        for features in 0..64 {
            let has = features & needed == needed;
            assert_eq!(
                decoded(code, features).is_ok(),
                has,
                "{code:02X?} {features}"
            );
        }
    }
}

#[test]
fn other_bytes_are_no_row() {
    let others: [&[u8]; 9] = [
        &[],
        &[0x90],
        &[0xC5, 0xE8],
        &[0x62, 0xF1, 0x6C, 0x48],
        &[0xC5, 0xF9, 0x70, 0xCA, 0x1B],
        &[0xC5, 0xE8, 0x14, 0xCB],             // VUNPCKLPS
        &[0x62, 0xF1, 0x6D, 0x48, 0x14, 0xCB], // VUNPCKLPD under EVEX with W 0
        &[0x62, 0xF9, 0x6C, 0x48, 0x15, 0xCB], // a wrong fixed bit
        &[0x62, 0xF1, 0x68, 0x48, 0x15, 0xCB], // and the other one
    ];
    for code in others {
        assert!(lane_permutes::decode(code, 63).is_none(), "{code:02X?}");
    }
}

fn instruction(code: &[u8]) -> Instruction {
    let found = lane_permutes::decode(code, 63).expect("one of the rows");
    found.unwrap_or_else(|status| panic!("refused with {status}"))
}

/// Every byte of registers 0 to 3 has its own value.
fn file() -> Vec<u8> {
    (0..2_048)
        .map(|place: usize| (place + place / 256) as u8)
        .collect()
}

/// Carries the instruction out, and expects byte i of register 1 to come from the place that
/// `origin` gives, or to be zero.
fn expect(code: &[u8], start: &[u8], masks: &[u64], origin: impl Fn(usize) -> Option<usize>) {
    let (mut found, mut expected) = (start.to_vec(), start.to_vec());
    instruction(code).carry_out(&mut found, masks, &[], 0);
    for i in 0..64 {
        expected[64 + i] = origin(i).map_or(0, |place| start[place]);
    }
    assert!(found == expected, "{code:02X?}: {:?}", &found[64..128]);
}

/// The place of byte i's element within its lane, from the elements that a lane picks: a register
/// and an element's number.
fn picked(i: usize, size: usize, picks: &[(usize, usize)]) -> usize {
    let (register, element) = picks[i % 16 / size];
    64 * register + i / 16 * 16 + size * element + i % size
}

#[test]
fn moves_of_whole_lanes() {
    let below = |bytes: usize, i: usize| i < bytes;
    let high = [(2, 2), (3, 2), (2, 3), (3, 3)];
    for (code, bytes) in [
        (&UNPACK[..], 16),
        (&[0xC5, 0xEC, 0x15, 0xCB], 32),
        (&[0x62, 0xF1, 0x6C, 0x48, 0x15, 0xCB], 64),
    ] {
        expect(code, &file(), &[0; 8], |i| {
            below(bytes, i).then(|| picked(i, 4, &high))
        });
    }
    let quadwords =
        |pick: usize| move |i| below(32, i).then(|| picked(i, 8, &[(2, pick), (3, pick)]));
    expect(&[0xC5, 0xED, 0x14, 0xCB], &file(), &[0; 8], quadwords(0));
    expect(&[0xC5, 0xED, 0x15, 0xCB], &file(), &[0; 8], quadwords(1));
    // VPERMILPS ymm1, ymm2, 0x1b
    let turned = [(2, 3), (2, 2), (2, 1), (2, 0)];
    expect(
        &[0xC4, 0xE3, 0x7D, 0x04, 0xCA, 0x1B],
        &file(),
        &[0; 8],
        |i| below(32, i).then(|| picked(i, 4, &turned)),
    );
}

/// VPERMILPS ymm1, ymm2, ymm3 with the controls 0 to 7: bit 2 does not count.
#[test]
fn moves_by_controls_in_doublewords() {
    let mut start = file();
    for control in 0..8 {
        start[192 + 4 * control] = control as u8;
    }
    let code = [0xC4, 0xE2, 0x6D, 0x0C, 0xCB];
    expect(&code, &start, &[0; 8], |i| {
        (i < 32).then(|| picked(i, 4, &[(2, 0), (2, 1), (2, 2), (2, 3)]))
    });
    // One control in memory for all.
    let mut found = start.clone();
    let broadcast = instruction(&[0x62, 0xF2, 0x6D, 0x58, 0x0C, 0x08]);
    broadcast.carry_out(&mut found, &[0; 8], &[6, 0xFF, 0xFF, 0xFF], 0);
    let thirds = (0..64).map(|i| start[picked(i, 4, &[(2, 2); 4])]);
    assert!(found[64..128].iter().copied().eq(thirds), "{found:?}");
}

/// VPSHUFB zmm1{k1}, zmm2, zmm3 in all three ways of masking, with controls that clear.
#[test]
fn moves_by_controls_in_bytes() {
    let mut start = file();
    let controls = [0x00, 0x0F, 0x10, 0x7F, 0x80, 0xFF, 0x1A];
    for i in 0..64 {
        start[192 + i] = controls[i % 7];
    }
    let picks = [Some(0), Some(15), Some(0), Some(15), None, None, Some(10)];
    let moved = |i: usize| picks[i % 7].map(|pick: usize| 128 + i / 16 * 16 + pick);
    let masks = [0, 0x8000_0001_F00F_5AA5, 0, 0, 0, 0, 0, 0];
    let is_written = |i: usize| masks[1] >> i & 1 == 1;
    expect(&SHUFFLE, &start, &masks, moved);
    expect(&[0x62, 0xF2, 0x6D, 0x49, 0x00, 0xCB], &start, &masks, |i| {
        if is_written(i) {
            moved(i)
        } else {
            Some(64 + i)
        }
    });
    expect(&[0x62, 0xF2, 0x6D, 0xC9, 0x00, 0xCB], &start, &masks, |i| {
        moved(i).filter(|_| is_written(i))
    });
}

/// A mask bit is for an element: VUNPCKHPD ymm1{k1}, ymm2, ymm3 writes quadwords 0 and 3.
#[test]
fn mask_bits_are_for_elements() {
    let masks = [0, 0b1111_1001, 0, 0, 0, 0, 0, 0];
    let code = [0x62, 0xF1, 0xED, 0x29, 0x15, 0xCB];
    expect(&code, &file(), &masks, |i| match i / 8 {
        0 | 3 => Some(picked(i, 8, &[(2, 1), (3, 1)])),
        1 | 2 => Some(64 + i),
        _ => None,
    });
}

// The rules.

/// Status and numbers of a list's run, its build and its listing.
fn answers(list: &[u8]) -> [(u32, Vec<u64>); 3] {
    let inputs = inputs(63, &[], list);
    [2, 3, 4].map(|at| {
        let answer = Landed::Request1.answer(&inputs[at]).expect("it has code");
        (answer.status, answer.numbers)
    })
}

#[test]
fn lists_with_the_new_rows() {
    let whole = [(0, vec![3, 14]), (0, vec![14]), (0, vec![80])];
    assert_eq!(answers(&list()), whole);
    // A control in a register has no map.
    let shuffle = [&OLD[..], &SHUFFLE].concat();
    let shuffled = [(0, vec![2, 11]), (7, vec![5]), (0, vec![60])];
    assert_eq!(answers(&shuffle), shuffled);
    let permute = [&OLD[..], &[0xC4, 0xE2, 0x69, 0x0C, 0xCB]].concat();
    let permuted = [(0, vec![2, 10]), (7, vec![5]), (0, vec![62])];
    assert_eq!(answers(&permute), permuted);
    // Nor has memory, which a run does not have.
    let memory = [&OLD[..], &[0xC5, 0xE8, 0x15, 0x08]].concat();
    let refused = [(6, vec![1, 5]), (7, vec![5]), (0, vec![62])];
    assert_eq!(answers(&memory), refused);
    let short = [&OLD[..], &UNPACK[..3]].concat();
    let refused = [(2, vec![1, 5]), (2, vec![5]), (0, vec![52])];
    assert_eq!(answers(&short), refused);
}

/// VPSHUFD xmm1, xmm2, 0x1b, which is no new row.
const OLD: [u8; 5] = [0xC5, 0xF9, 0x70, 0xCA, 0x1B];

/// A list with the code of all three kinds: a row of the base, a new one, and the base's again.
fn list() -> Vec<u8> {
    [&OLD[..], &UNPACK, &OLD].concat()
}

#[test]
fn rules_take_the_right_answer_alone() {
    for input in inputs(31, &UNPACK, &list()) {
        expect_rule(&input, 1);
    }
    // Of the sets from 32 on, those that request 6 leaves.
    for features in [37, 63] {
        for input in inputs(features, &UNPACK, &list()) {
            let takes_features = input.features().is_some();
            expect_rule(&input, usize::from(!takes_features));
        }
        for input in inputs(features, &OLD, &OLD) {
            if input.features().is_some() {
                expect_rule(&input, 0);
            }
        }
    }
}

/// Whatever the new answer is.
#[test]
fn rules_take_nothing_else() {
    let empty = Apply {
        map: vec![],
        file: Room::new(vec![0; 20], 4),
    };
    let mut others = vec![Input::Apply(empty)];
    others.extend(inputs(31, &OLD, &OLD));
    others.extend(inputs(64, &UNPACK, &UNPACK).into_iter().take(4));
    for input in &others {
        let old = Landed::Base.answer(input).unwrap_or(Answer {
            status: 0,
            numbers: vec![],
            digest: Digest(0),
        });
        for status in (0..10).filter(|status| *status != old.status) {
            let new = Answer {
                status,
                ..old.clone()
            };
            assert_eq!(rule(input, &old, &new), None, "{input}\n{new}");
        }
    }
}
