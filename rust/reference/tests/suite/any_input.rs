//! Inputs of every kind: no panic, and a refusal changes nothing.

use crate::sample::Sample;
use crate::support::{Random, ALL, SETS};
use reference::{
    address, apply, build, compose, decode, listing, reserved_field, run, step, Addressed, Decoded,
    Field, Listed,
};

const SIZES: [usize; 8] = [0, 1, 2_047, 2_048, 2_048, 2_048, 2_049, 4_097];

/// A reason from 1 to 6 comes with status 4, and 0 with every other.
fn check_reason(status: u32, reason: u32) {
    let is_number = (1..=6).contains(&reason);
    assert_eq!(is_number, status == 4, "{status} with {reason}");
    assert!(is_number || reason == 0, "{status} with {reason}");
}

/// Bytes that look like instructions now and then: random, or an accepted one with one byte changed.
fn code(random: &mut Random) -> Vec<u8> {
    let mut code = Sample::random(random).encode();
    match random.below(3) {
        0 => {
            let count = random.below(20);
            code = random.bytes(count);
        }
        1 => {
            let index = random.below(code.len());
            code[index] = random.byte();
        }
        _ => code.truncate(random.below(13)),
    }
    if random.below(50) == 0 {
        code = code.repeat(random.pick(&[600, 2_000]));
    }
    code
}

/// Mostly sets that pass.
fn features(random: &mut Random) -> u32 {
    match random.below(8) {
        0 => random.word() as u32,
        1 => random.below(65) as u32,
        2 | 3 => random.pick(&SETS),
        _ => ALL,
    }
}

fn masks(random: &mut Random) -> Vec<u64> {
    let count = random.pick(&[8, 8, 8, 7, 9]);
    (0..count).map(|_| random.word()).collect()
}

fn map(random: &mut Random) -> Vec<u16> {
    let limit = random.pick(&[2_049, 2_049, 2_050, 65_536]);
    let count = random.pick(&SIZES);
    (0..count).map(|_| random.below(limit) as u16).collect()
}

#[test]
fn decoding_and_stepping() {
    let mut random = Random(10);
    for _ in 0..20_000 {
        let code = code(&mut random);
        let features = features(&mut random);
        let masks = masks(&mut random);
        let decoded = decode(&code, features);
        assert_eq!(decoded.status != 1, SETS.contains(&features));
        check_reason(decoded.status, decoded.reason);
        let field = reserved_field(&code, features);
        assert_eq!(field.map_or(0, Field::number), decoded.reason);
        assert!(decoded.status <= 5 && decoded.length as usize <= code.len());
        if decoded.status != 0 {
            let (status, reason) = (decoded.status, decoded.reason);
            assert_eq!(
                decoded,
                Decoded {
                    status,
                    reason,
                    ..Decoded::default()
                }
            );
        }
        let size = random.pick(&SIZES);
        let start = random.bytes(size);
        let given = random.pick(&[0, decoded.memory as usize]);
        let mut file = start.clone();
        let stepped = step(&code, &mut file, &masks, features, &random.bytes(given));
        assert!(stepped.status <= 6);
        check_reason(stepped.status, stepped.reason);
        if stepped.status != 0 {
            assert_eq!(stepped.length, 0);
            assert!(file == start);
        }
    }
}

#[test]
fn addresses() {
    let mut random = Random(13);
    for _ in 0..20_000 {
        let code = code(&mut random);
        let features = features(&mut random);
        let count = random.pick(&[16, 16, 16, 0, 15, 17]);
        let registers: Vec<_> = (0..count).map(|_| random.word()).collect();
        let found = address(&code, features, &registers, random.word());
        check_reason(found.status, found.reason);
        let decoded = decode(&code, features);
        let expected = match count {
            16 => (decoded.status, decoded.reason),
            _ => (1, 0),
        };
        assert_eq!((found.status, found.reason), expected);
        assert_eq!(found.has_address, expected.0 == 0 && decoded.memory > 0);
        if !found.has_address {
            let (status, reason) = expected;
            let none = Addressed {
                status,
                reason,
                ..Addressed::default()
            };
            assert_eq!(found, none);
        }
    }
}

#[test]
fn running_building_and_listing() {
    let mut random = Random(11);
    for _ in 0..5_000 {
        let code = code(&mut random);
        let features = features(&mut random);
        let masks = masks(&mut random);
        let size = random.pick(&SIZES);
        let mut file = random.bytes(size);
        let ran = run(&code, &mut file, &masks, features, 4_096);
        assert!(ran.place as usize <= code.len() && ran.steps <= ran.place / 4);
        check_reason(ran.status, ran.reason);
        let start = map(&mut random);
        let mut map = start.clone();
        let built = build(&code, &masks, features, &mut map);
        assert!(built.status <= 8 && built.place as usize <= code.len());
        assert!(built.status == 0 || map == start);
        check_reason(built.status, built.reason);
        let size = random.pick(&[0, 63, 64, 64, 65, 100, 27_672, 70_000]);
        check_listing(&code, size, &mut random);
    }
}

/// Lists a piece from any place, and checks what holds of every answer.
fn check_listing(code: &[u8], size: usize, random: &mut Random) {
    let end = code.len();
    let inside = random.below(end + 1);
    let place = random.pick(&[0, inside, inside, end, end + 1, usize::MAX]);
    let mut text = vec![0xEE; size];
    let listed = listing(code, place, &mut text);
    let status = match (size, place) {
        (0..64, _) => 1,
        _ if place > end => 1,
        _ if end > 16_384 => 8,
        _ => 0,
    };
    let refusal = Listed {
        status,
        ..Listed::default()
    };
    assert_eq!(listed.status, status);
    assert!(status == 0 || listed == refusal);
    let (written, rest) = text.split_at(listed.written as usize);
    assert!(rest.iter().all(|&byte| byte == 0xEE));
    assert!(written.is_empty() || written.ends_with(b"\n"));
    let next = listed.next as usize;
    assert!(status != 0 || (place..=end).contains(&next));
    // Lines remain within the list only, and behind at least one line.
    assert!(!listed.more || (place < next && next < end));
}

#[test]
fn applying_and_composing() {
    let mut random = Random(12);
    for _ in 0..1_000 {
        let [first, second] = [map(&mut random), map(&mut random)];
        let size = random.pick(&SIZES);
        let start = random.bytes(size);
        let mut file = start.clone();
        let status = apply(&first, &mut file);
        assert!([0, 1, 9].contains(&status));
        assert!(status == 0 || file == start);
        let before = map(&mut random);
        let mut out = before.clone();
        let status = compose(&first, &second, &mut out);
        assert!([0, 1, 9].contains(&status));
        assert!(status == 0 || out == before);
    }
}
