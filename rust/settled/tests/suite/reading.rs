//! The frozen files are read whole, and buffers are laid out as the base did it.

use settled::answer::Answer;
use settled::digest::Digest;
use settled::entry_point::EntryPoint;
use settled::frozen::folder;
use settled::pools::Pools;
use settled::results;
use settled::room::{old_map, Room};
use std::fs;

#[test]
fn results_print_as_they_are_read() {
    let text = fs::read_to_string(folder().join("stdout")).expect("the results are there");
    let mut printed = String::from("pools 198656\n");
    for (entry_point, answers) in EntryPoint::ALL.iter().zip(results::read(&text)) {
        for answer in answers {
            printed += &format!("{answer}\n");
        }
        printed += &format!("{} 20000\n", entry_point.name());
    }
    assert!(printed == text, "a result is read as another");
}

#[test]
fn lines_that_are_no_result_are_refused() {
    let digest_missing = ["", "0", "0 ", "decode 20000"];
    let not_numbers = ["0 g 8a03f6ec76376f02", "0  8a03f6ec76376f02", "100000000 0"];
    for line in digest_missing.iter().chain(&not_numbers) {
        assert_eq!(Answer::read(line), None, "{line}");
    }
}

/// The pool of bytes counts from 0 on, the pool of masks and that of entries go on counting.
fn counting_pools() -> Pools {
    let bytes = (0..65_536).map(|i: u32| i as u8);
    let masks = (0..256).flat_map(|i: u64| (1_000 + i).to_le_bytes());
    let entries = (0..=u16::MAX).flat_map(u16::to_le_bytes);
    Pools::read(&bytes.chain(masks).chain(entries).collect::<Vec<_>>())
}

#[test]
fn parts_go_on_at_the_front_of_their_pool() {
    let pools = counting_pools();
    assert_eq!(pools.bytes(65_534, 4), [254, 255, 0, 1]);
    assert_eq!(pools.masks(254, 4), [1_254, 1_255, 1_000, 1_001]);
    assert_eq!(pools.entries(65_534, 4), [65_534, 65_535, 0, 1]);
    assert_eq!(pools.bytes(9, 0), []);
}

#[test]
fn old_maps_differ_from_place_to_place() {
    let map = old_map(40_000);
    assert_eq!(map.len(), 2_560);
    assert_eq!(map[..3], [40_000, 14_967, 55_470]);
}

#[test]
fn buffer_is_passed_from_element_8_on() {
    let whole: Vec<u8> = (0..20).collect();
    let room = Room::new(whole.clone(), 4);
    let (passed, digest) = room.call(|buffer| buffer.to_vec());
    assert_eq!(passed, [8, 9, 10, 11]);
    assert_eq!(room.passed(), [8, 9, 10, 11]);
    assert_eq!(digest, Digest::of(&whole));
}

#[test]
fn what_a_call_writes_is_in_the_digest_alone() {
    let room = Room::new(vec![7u16; 20], 4);
    let ((), digest) = room.call(|buffer| buffer[3] = 8);
    let mut expected = vec![7u16; 20];
    expected[11] = 8;
    assert_eq!(digest, Digest::of(&expected));
    assert_eq!(room.whole, [7; 20]);
}

/// (1 · f + 2) mod 4,294,967,291 for one element, with both factors.
#[test]
fn digest_of_one_element() {
    assert_eq!(Digest::of(&[2u8]).to_string(), "9e3779b35f356497");
}
