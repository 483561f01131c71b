//! Exact answers of an address for inputs that a careless caller may pass.

use compare::feature_sets::REFUSED;
use compare::guard::Guarded;
use compare::limits::features::ALL;
use tarhuspo::Addressed;

/// vunpcklps xmm1, xmm2, [rax]
const MEMORY_FORM: [u8; 4] = [0xC5, 0xE8, 0x14, 0x08];
/// vpshufd zmm1{k1}, [rbx + r12*4 - 0x40], 0x1b
const INDEXED_FORM: [u8; 9] = [0x62, 0xB1, 0x7D, 0x49, 0x70, 0x4C, 0xA3, 0xFF, 0x1B];
/// vpshufd xmm1, xmm2, 0x1b
const REGISTER_FORM: [u8; 5] = [0xC5, 0xF9, 0x70, 0xCA, 0x1B];

/// Works out an address between guard elements, and sees that all inputs stay.
fn address(code: &[u8], features: u32, registers: &[u64], own: u64) -> Addressed {
    let mut codes = Guarded::default();
    let mut gprs = Guarded::default();
    let found = tarhuspo::address(codes.fill(code), features, gprs.fill(registers), own);
    assert!(codes.is_unchanged(code), "the code was changed");
    assert!(gprs.is_unchanged(registers), "the registers were changed");
    found
}

fn refused(status: u32, reason: u32) -> Addressed {
    Addressed {
        address: 0,
        status,
        reason,
        has_address: false,
    }
}

fn at(address: u64) -> Addressed {
    Addressed {
        address,
        status: 0,
        reason: 0,
        has_address: true,
    }
}

#[test]
fn other_than_sixteen_registers_are_refused_whatever_the_code() {
    let codes: [&[u8]; 5] = [&[], &[0x90], &[0x62; 15], &REGISTER_FORM, &MEMORY_FORM];
    for code in codes {
        for count in [0, 1, 8, 15, 17, 32, 2_048, 100_000] {
            let registers = vec![u64::MAX; count];
            for features in [0, 1, ALL, ALL - 1, ALL + 1, u32::MAX] {
                assert_eq!(address(code, features, &registers, 7), refused(1, 0));
            }
        }
    }
}

#[test]
fn wrong_features_are_refused_whatever_the_code() {
    let codes: [&[u8]; 5] = [&[], &[0x90], &[0x62; 15], &REGISTER_FORM, &MEMORY_FORM];
    for code in codes {
        for features in REFUSED {
            assert_eq!(address(code, features, &[3; 16], 7), refused(1, 0));
        }
    }
}

#[test]
fn empty_buffers_are_refused() {
    assert_eq!(address(&[], ALL, &[0; 16], 0), refused(2, 0));
    assert_eq!(address(&[], ALL, &[], 0), refused(1, 0));
    let nothing = tarhuspo::address(Default::default(), ALL, Default::default(), 0);
    assert_eq!(nothing, refused(1, 0));
}

#[test]
fn refusals_of_the_code_have_their_reasons() {
    let registers = [u64::MAX; 16];
    let cases: [(&[u8], u32, u32, u32); 11] = [
        (&[0x90; 15], ALL, 3, 0),
        (&INDEXED_FORM[..8], ALL, 2, 0),
        (&INDEXED_FORM[..6], ALL, 2, 0),
        (&INDEXED_FORM, 3, 5, 0),
        (&[0x62; 15], ALL, 4, 1),
        (&[0xC4, 0xE3, 0xFD, 0x05, 0x08, 0x05], ALL, 4, 2),
        (&[0xC4, 0xE3, 0x69, 0x06, 0x08, 0x31], ALL, 4, 3),
        (&[0x62, 0xF1, 0x6C, 0x68, 0x14, 0x48, 0xFF], ALL, 4, 3),
        (&[0xC5, 0xE9, 0x70, 0x08, 0x1B], 0, 4, 4),
        (&[0x62, 0xF2, 0x6D, 0x58, 0x00, 0x48, 0xFF], ALL, 4, 5),
        (&[0x62, 0xF1, 0x7D, 0xC8, 0x70, 0x08, 0x1B], ALL, 4, 6),
    ];
    for (code, features, status, reason) in cases {
        let found = address(code, features, &registers, 9);
        assert_eq!(found, refused(status, reason), "{code:02X?}");
    }
}

#[test]
fn register_forms_say_that_they_have_none() {
    for own in [0, 1, u64::MAX] {
        for register in [0, 1, u64::MAX] {
            let found = address(&REGISTER_FORM, 1, &[register; 16], own);
            assert_eq!(found, refused(0, 0));
        }
    }
}

/// An address of 0 is one.
#[test]
fn zero_is_an_address() {
    assert_eq!(address(&MEMORY_FORM, 1, &[0; 16], 5), at(0));
    let mut registers = [0; 16];
    registers[3] = 0x40;
    assert_eq!(address(&INDEXED_FORM, ALL, &registers, 5), at(0));
    // vunpcklps xmm1, xmm2, [rip - 8], which has 8 bytes
    let own = [0xC5, 0xE8, 0x14, 0x0D, 0xF8, 0xFF, 0xFF, 0xFF];
    assert_eq!(address(&own, 1, &registers, 0), at(0));
    assert_eq!(address(&own, 1, &registers, 0x40_0000), at(0x40_0000));
}

/// The sum has no end at which it stops, and none at which it is refused.
#[test]
fn sums_wrap_at_64_bits() {
    assert_eq!(address(&MEMORY_FORM, 1, &[u64::MAX; 16], 0), at(u64::MAX));
    // All ones are -1: -1 - 4 - 64
    let all_ones = [u64::MAX; 16];
    let expected = at(-69_i64 as u64);
    assert_eq!(address(&INDEXED_FORM, ALL, &all_ones, 0), expected);
    // The next instruction is past the end.
    let near = [0xC5, 0xE8, 0x14, 0x0D, 0x10, 0, 0, 0];
    assert_eq!(address(&near, 1, &all_ones, u64::MAX), at(0x17));
    // No base and no index: the displacement alone, with its sign.
    let absolute = [0xC5, 0xE8, 0x14, 0x0C, 0x25, 0, 0, 0, 0x80];
    let expected = at(0xFFFF_FFFF_8000_0000);
    assert_eq!(address(&absolute, 1, &all_ones, 9), expected);
}

#[test]
fn long_code_is_read_at_its_start_alone() {
    let mut code = vec![0xFF; 100_000];
    assert_eq!(address(&code, ALL, &[1; 16], 2), refused(3, 0));
    code[..9].copy_from_slice(&INDEXED_FORM);
    assert_eq!(address(&code, ALL, &[1_000; 16], 2), at(5_000 - 64));
}
