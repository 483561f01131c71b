//! Exact answers for inputs that a careless caller may pass.

use compare::decoding::{library_fields, Fields};
use compare::feature_sets::{passes, REFUSED};
use compare::guard::Guarded;
use compare::limits::features::{ALL, SETS};

/// Decodes `code` between guard bytes, and sees that code and guard bytes stay.
fn decode(code: &[u8], features: u32) -> Fields {
    let mut buffer = Guarded::default();
    let decoded = tarhuspo::decode(buffer.fill(code), features);
    assert!(
        buffer.is_unchanged(code),
        "decoding {code:02X?} wrote to memory"
    );
    library_fields(decoded)
}

/// A refusal: the status, and 0 in every other field.
fn refused(status: u32) -> Fields {
    let mut fields = [0; 15];
    fields[0] = status;
    fields
}

/// Status 4, with its reason in the last field.
fn reserved(reason: u32) -> Fields {
    let mut fields = refused(4);
    fields[14] = reason;
    fields
}

#[test]
fn empty_code_ends_too_soon() {
    assert_eq!(decode(&[], ALL), refused(2));
    assert_eq!(decode(&[], 0), refused(2));
    assert_eq!(
        library_fields(tarhuspo::decode(Default::default(), ALL)),
        refused(2)
    );
}

#[test]
fn one_byte_is_a_prefix_or_no_instruction() {
    for byte in 0..=u8::MAX {
        let status = if matches!(byte, 0xC4 | 0xC5 | 0x62) {
            2
        } else {
            3
        };
        assert_eq!(decode(&[byte], ALL), refused(status), "byte {byte:02X}");
    }
}

#[test]
fn fifteen_bytes_are_judged_by_their_start() {
    assert_eq!(decode(&[0x90; 15], ALL), refused(3));
    // Two-byte VEX prefix, opcode C5: no row.
    assert_eq!(decode(&[0xC5; 15], ALL), refused(3));
    // The fixed bit 2 of the third byte is 0.
    assert_eq!(decode(&[0x62; 15], ALL), reserved(1));
    // The last 15 bytes of a longer buffer: VPERM2F128 of 128 bits, which does not exist.
    let mut code = [0; 64];
    code[49..].copy_from_slice(&[0xC4, 0xE3, 0x69, 6, 0xCB, 0x31, 0, 1, 2, 3, 4, 5, 6, 7, 8]);
    assert_eq!(decode(&code[49..], ALL), reserved(3));
}

#[test]
fn long_code_is_decoded_from_its_start_alone() {
    let mut code = vec![0; 100_000];
    assert_eq!(decode(&code, ALL), refused(3));
    code[..5].copy_from_slice(&[0xC5, 0xE9, 0x70, 0xCA, 0x1B]);
    assert_eq!(decode(&code, ALL), reserved(4));
    code[..5].copy_from_slice(&[0xC5, 0xFD, 0x70, 0xCA, 0x1B]);
    assert_eq!(decode(&code, 1), refused(5));
    let accepted = [0, 5, 0, 4, 256, 0, 1, 0, 2, 0, 0, 0, 1, 0x1B, 0];
    assert_eq!(decode(&code, ALL), accepted);
}

#[test]
fn wrong_features_are_refused_before_the_code_is_read() {
    let accepted = [0xC5, 0xF9, 0x70, 0xCA, 0x1B];
    let codes: [&[u8]; 5] = [&[], &[0x62], &accepted, &[0x90; 15], &[0; 100_000]];
    for code in codes {
        for features in REFUSED {
            assert_eq!(decode(code, features), refused(1), "features {features:#x}");
        }
    }
}

/// Each of the six fields alone, and with all that come behind it.
#[test]
fn reasons_name_the_first_wrong_field() {
    let cases: [(&[u8], u32); 11] = [
        (&[0x62, 0xF9, 0x7D, 0x48, 0x70, 0xCA, 0x1B], 1),
        (&[0x62, 0xF9, 0x01, 0xF0, 0x70, 0xCA, 0x1B], 1),
        (&[0xC4, 0xE3, 0xFD, 0x05, 0xCA, 0x05], 2),
        (&[0xC4, 0xE3, 0xE9, 0x06, 0xCB, 0x31], 2),
        (&[0x62, 0xF1, 0x7D, 0x68, 0x70, 0xCA, 0x1B], 3),
        (&[0x62, 0xF1, 0x05, 0xF0, 0x70, 0xCA, 0x1B], 3),
        (&[0x62, 0xF1, 0x7D, 0x40, 0x70, 0xCA, 0x1B], 4),
        (&[0x62, 0xF1, 0x05, 0xD0, 0x70, 0xCA, 0x1B], 4),
        (&[0x62, 0xF2, 0x6D, 0x58, 0x00, 0x08], 5),
        (&[0x62, 0xF1, 0x7D, 0xD8, 0x70, 0xCA, 0x1B], 5),
        (&[0x62, 0xF1, 0x7D, 0xC8, 0x70, 0xCA, 0x1B], 6),
    ];
    for (code, reason) in cases {
        for features in SETS {
            assert_eq!(decode(code, features), reserved(reason), "{code:02X?}");
        }
        assert_eq!(decode(code, ALL - 1), refused(1), "{code:02X?}");
        assert_eq!(decode(code, ALL + 1), refused(1), "{code:02X?}");
    }
}

#[test]
fn features_that_no_processor_has_are_refused() {
    for features in 0..=255 {
        let status = if passes(features) { 2 } else { 1 };
        let found = decode(&[], features);
        assert_eq!(found, refused(status), "features {features}");
    }
    // VPSHUFB zmm1, zmm2, zmm3 needs AVX512BW, and with it AVX512F and AVX.
    let code = [0x62, 0xF2, 0x6D, 0x48, 0x00, 0xCB];
    let accepted = [0, 6, 0, 10, 512, 1, 1, 2, 3, 0, 0, 0, 0, 0, 0];
    assert_eq!(decode(&code, 31), refused(5));
    assert_eq!(decode(&code, 32), refused(1));
    assert_eq!(decode(&code, 33), refused(1));
    assert_eq!(decode(&code, 37), accepted);
    assert_eq!(decode(&code, ALL), accepted);
}
