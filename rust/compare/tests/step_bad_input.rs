//! Exact answers of a step for inputs that a careless caller may pass.

use compare::feature_sets::REFUSED;
use compare::guard::Guarded;
use compare::limits::features::ALL;
use tarhuspo::Stepped;

/// vpshufd xmm1, xmm2, 0x1b
const REGISTER_FORM: [u8; 5] = [0xC5, 0xF9, 0x70, 0xCA, 0x1B];
/// vpshufd zmm1{k1}, [64 bytes], 0x1b
const MEMORY_FORM: [u8; 7] = [0x62, 0xF1, 0x7D, 0x49, 0x70, 0x08, 0x1B];
/// vpshufd zmm1, dword [4 bytes]{1to16}, 0x00
const BROADCAST_FORM: [u8; 7] = [0x62, 0xF1, 0x7D, 0x58, 0x70, 0x08, 0x00];

/// A register file of the right size or not, with no two bytes alike in a register.
fn file(size: usize) -> Vec<u8> {
    (0..size).map(|i| (i + i / 64) as u8).collect()
}

/// Steps between guard elements, and sees that all inputs but the register file stay. Gives the
/// result and the register file.
fn step(
    code: &[u8],
    file: &[u8],
    masks: &[u64],
    features: u32,
    memory: &[u8],
) -> (Stepped, Vec<u8>) {
    let mut codes = Guarded::default();
    let mut files = Guarded::default();
    let mut opmasks = Guarded::default();
    let mut memories = Guarded::default();
    let copy = files.fill(file);
    let stepped = tarhuspo::step(
        codes.fill(code),
        copy,
        opmasks.fill(masks),
        features,
        memories.fill(memory),
    );
    let left = copy.to_vec();
    assert!(codes.is_unchanged(code), "the code was changed");
    assert!(opmasks.is_unchanged(masks), "the opmasks were changed");
    assert!(memories.is_unchanged(memory), "the memory was changed");
    assert!(files.is_unchanged(&left), "bytes around the file changed");
    (stepped, left)
}

fn assert_refused(
    code: &[u8],
    size: usize,
    masks: &[u64],
    features: u32,
    memory: &[u8],
    status: u32,
) {
    let start = file(size);
    let (stepped, left) = step(code, &start, masks, features, memory);
    assert_eq!(stepped, refused(status, 0));
    assert!(left == start, "a refusal changed the file");
}

fn refused(status: u32, reason: u32) -> Stepped {
    Stepped {
        status,
        length: 0,
        reason,
    }
}

fn done(length: u32) -> Stepped {
    Stepped {
        status: 0,
        length,
        reason: 0,
    }
}

#[test]
fn wrong_file_sizes_are_refused_whatever_the_code() {
    let codes: [&[u8]; 4] = [&[], &[0x90], &REGISTER_FORM, &MEMORY_FORM];
    for code in codes {
        for size in [0, 1, 2_047, 2_049, 100_000] {
            assert_refused(code, size, &[0; 8], ALL, &[], 1);
            assert_refused(code, size, &[0; 8], 0, &[0; 64], 1);
        }
    }
}

#[test]
fn wrong_opmask_counts_are_refused_whatever_the_code() {
    let codes: [&[u8]; 4] = [&[], &[0x90], &REGISTER_FORM, &MEMORY_FORM];
    for code in codes {
        for count in [0, 1, 7, 9, 64] {
            assert_refused(code, 2_048, &vec![u64::MAX; count], ALL, &[], 1);
        }
    }
}

#[test]
fn wrong_features_are_refused_whatever_the_code() {
    let codes: [&[u8]; 4] = [&[], &[0x90], &REGISTER_FORM, &MEMORY_FORM];
    for code in codes {
        for features in REFUSED {
            assert_refused(code, 2_048, &[0; 8], features, &[], 1);
        }
    }
}

#[test]
fn empty_buffers_are_refused() {
    assert_refused(&[], 2_048, &[0; 8], ALL, &[], 2);
    assert_refused(&[], 0, &[], u32::MAX, &[], 1);
    let stepped = tarhuspo::step(&[], &mut [], &[], 0, &[]);
    assert_eq!(stepped, refused(1, 0));
}

#[test]
fn a_memory_operand_has_one_length() {
    // Opmask 1 lets no element through: the memory operand is asked for all the same.
    for masks in [[0; 8], [u64::MAX; 8]] {
        for length in [0, 1, 4, 16, 32, 63, 65, 2_048, 100_000] {
            assert_refused(&MEMORY_FORM, 2_048, &masks, ALL, &vec![0; length], 6);
        }
        for length in [0, 1, 3, 5, 8, 16, 64] {
            assert_refused(&BROADCAST_FORM, 2_048, &masks, ALL, &vec![0; length], 6);
        }
        for length in [1, 4, 16, 64] {
            assert_refused(&REGISTER_FORM, 2_048, &masks, ALL, &vec![0; length], 6);
        }
    }
}

#[test]
fn faults_of_the_code_come_before_the_memory() {
    assert_refused(&MEMORY_FORM[..6], 2_048, &[0; 8], ALL, &[], 2);
    assert_refused(&[0x90; 15], 2_048, &[0; 8], ALL, &[0], 3);
    let vvvv = [0xC5, 0xE9, 0x70, 0xCA, 0x1B];
    let start = file(2_048);
    let reserved = step(&vvvv, &start, &[0; 8], 0, &[0]);
    assert_eq!(reserved, (refused(4, 4), start));
    assert_refused(&MEMORY_FORM, 2_048, &[0; 8], 3, &[], 5);
}

#[test]
fn accepted_steps_change_their_destination_alone() {
    let start = file(2_048);
    let mut expected = start.clone();
    expected[64..128].fill(0);
    for (i, byte) in expected[64..80].iter_mut().enumerate() {
        *byte = start[128 + 4 * (3 - i / 4) + i % 4];
    }
    assert_eq!(
        step(&REGISTER_FORM, &start, &[0; 8], 1, &[]),
        (done(5), expected)
    );

    // Merging with an opmask that lets nothing through keeps all 64 bytes.
    let memory = file(64);
    let kept = step(&MEMORY_FORM, &start, &[0; 8], ALL, &memory);
    assert_eq!(kept, (done(7), start.clone()));

    let mut expected = start.clone();
    expected[64..128].copy_from_slice(&[9, 8, 7, 6].repeat(16));
    let repeated = step(&BROADCAST_FORM, &start, &[0; 8], ALL, &[9, 8, 7, 6]);
    assert_eq!(repeated, (done(7), expected));
}

#[test]
fn code_may_be_the_memory_operand() {
    let mut code = file(64);
    code[..7].copy_from_slice(&MEMORY_FORM);
    let mut left = file(2_048);
    let expected = step(&code, &left, &[u64::MAX; 8], ALL, &code.clone());
    let stepped = tarhuspo::step(&code, &mut left, &[u64::MAX; 8], ALL, &code);
    assert_eq!((stepped, left), expected);
    assert_eq!(stepped.status, 0);
}
