//! What request 7 changes: EVEX P bit 2 is part of the map, and no longer a fixed bit.

/// Whether an instruction answered 4 for that bit alone, and has no row now: its first five bytes are
/// there, and P bit 2 makes its map 4 to 7. With P bit 3 set or Q bit 2 clear, which are fixed still,
/// it answers 4 as before.
pub fn has_map_from_4_on(code: &[u8]) -> bool {
    match *code {
        [0x62, p, q, _, _, ..] => p & 0x04 != 0 && p & 0x08 == 0 && q & 0x04 != 0,
        _ => false,
    }
}
