//! Request 6: the sets of features that pass, and that every entry point refuses the others.

use crate::support::{refusal, varied_file, ALL, OPEN, SETS};
use reference::limits::feature::{AVX, AVX2, AVX512BW, AVX512F, AVX512VL, AVX512_VBMI};
use reference::{
    address, build, decode, reserved_field, run, step, Addressed, Built, Ran, Stepped,
};

/// All numbers of 8 bits; each higher bit by itself and beside sets that pass; the largest.
fn numbers() -> Vec<u32> {
    let high = (8..32).map(|bit| 1 << bit);
    let beside = high.clone().flat_map(|high| [high + 1, high + ALL]);
    let most = [u32::MAX - 1, u32::MAX];
    (0..=255).chain(high).chain(beside).chain(most).collect()
}

/// Whether decoding looks at the code, of which there is none.
fn passes(features: u32) -> bool {
    match decode(&[], features).status {
        1 => false,
        2 => true,
        status => panic!("{status} with features {features}"),
    }
}

#[test]
fn nineteen_sets_pass() {
    let passing: Vec<u32> = numbers().into_iter().filter(|&n| passes(n)).collect();
    assert_eq!(passing, SETS);
    let expected = [
        0, 1, 3, 5, 7, 13, 15, 21, 23, 29, 31, 37, 39, 45, 47, 53, 55, 61, 63,
    ];
    assert_eq!(passing, expected);
}

/// The request's words, a feature at a time.
#[test]
fn features_that_another_needs() {
    assert!(!passes(ALL - AVX));
    for other in [AVX2, AVX512F, AVX512VL, AVX512_VBMI, AVX512BW] {
        assert!(!passes(other));
        assert!(passes(other | AVX | AVX512F));
    }
    for extension in [AVX512VL, AVX512_VBMI, AVX512BW] {
        assert!(!passes(extension | AVX));
        assert!(!passes(extension | AVX | AVX2));
        assert!(!passes(extension | AVX512F));
    }
    // Neither AVX2 nor one of the three is needed by another.
    for free in [AVX2, AVX512VL, AVX512_VBMI, AVX512BW] {
        assert!(passes(ALL - free));
    }
    assert!(!passes(ALL - AVX512F));
    assert!(passes(0) && passes(AVX) && passes(AVX | AVX2));
}

/// Code that is accepted, and code that answers each of 2 to 8 where the features pass.
fn codes() -> Vec<Vec<u8>> {
    vec![
        vec![0xC5, 0xE8, 0x14, 0xCB],
        vec![0x62, 0xF2, 0x6D, 0x28, 0x8D, 0xCB],
        vec![],
        vec![0x62, 0xF1],
        vec![0x90],
        vec![0xC5, 0xE9, 0x70, 0xCA, 0x1B],
        vec![0x62, 0xF9],
        vec![0x62, 0xF9, 0x7D, 0x48, 0x70],
        vec![0xC5, 0xE8, 0x14, 0x08],
        [0xC5, 0xE8, 0x14, 0xCB].repeat(4_097),
    ]
}

/// Whether decoding answers 1, with nothing beside it.
fn refuses_to_decode(code: &[u8], features: u32) -> bool {
    let decoded = decode(code, features);
    let refused = decoded.status == 1;
    assert_eq!(decoded == refusal(1, 0), refused);
    assert!(!refused || reserved_field(code, features).is_none());
    refused
}

fn refuses_to_step(code: &[u8], features: u32) -> bool {
    let mut file = varied_file();
    let stepped = step(code, &mut file, &OPEN, features, &[]);
    let refused = stepped.status == 1;
    let none = Stepped {
        status: 1,
        length: 0,
        reason: 0,
    };
    assert_eq!(stepped == none, refused);
    assert!(!refused || file == varied_file());
    refused
}

fn refuses_to_run(code: &[u8], features: u32, budget: u64) -> bool {
    let mut file = varied_file();
    let ran = run(code, &mut file, &OPEN, features, budget);
    let refused = ran.status == 1;
    let none = Ran {
        steps: 0,
        place: 0,
        status: 1,
        reason: 0,
    };
    assert_eq!(ran == none, refused);
    assert!(!refused || file == varied_file());
    refused
}

fn refuses_to_build(code: &[u8], features: u32) -> bool {
    let mut map = vec![0xABCD; 2_048];
    let built = build(code, &OPEN, features, &mut map);
    let refused = built.status == 1;
    let none = Built {
        place: 0,
        status: 1,
        reason: 0,
    };
    assert_eq!(built == none, refused);
    assert!(!refused || map == [0xABCD; 2_048]);
    refused
}

fn refuses_to_address(code: &[u8], features: u32) -> bool {
    let found = address(code, features, &[7; 16], 9);
    let refused = found.status == 1;
    let none = Addressed {
        status: 1,
        ..Addressed::default()
    };
    assert_eq!(found == none, refused);
    refused
}

#[test]
fn every_entry_point_refuses_the_others() {
    for code in codes() {
        for features in numbers() {
            let found = [
                refuses_to_decode(&code, features),
                refuses_to_step(&code, features),
                refuses_to_run(&code, features, 0),
                refuses_to_run(&code, features, 4_096),
                refuses_to_build(&code, features),
                refuses_to_address(&code, features),
            ];
            let refused = !SETS.contains(&features);
            assert_eq!(found, [refused; 6], "features {features}");
        }
    }
}

/// Wrong sizes answer 1 as well, whatever the features are.
#[test]
fn wrong_sizes_beside_any_features() {
    let code = [0xC5, 0xE8, 0x14, 0xCB];
    for features in numbers() {
        let mut short = vec![5; 2_047];
        assert_eq!(step(&code, &mut short, &OPEN, features, &[]).status, 1);
        assert_eq!(run(&code, &mut short, &OPEN, features, 1).status, 1);
        assert_eq!(short, [5; 2_047]);
        assert_eq!(build(&code, &[0; 7], features, &mut [0; 2_048]).status, 1);
        assert_eq!(build(&code, &OPEN, features, &mut [0; 2_047]).status, 1);
        assert_eq!(address(&code, features, &[7; 15], 9).status, 1);
    }
}
