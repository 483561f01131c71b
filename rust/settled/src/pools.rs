//! Pools of bytes, opmasks and entries of byte maps. A record names parts of them.

use crate::reader::Reader;

const BYTES: usize = 65_536;
const MASKS: usize = 256;
const ENTRIES: usize = 65_536;

/// Bytes of the file with the pools.
pub const SIZE: usize = BYTES + 8 * MASKS + 2 * ENTRIES;

pub struct Pools {
    bytes: Vec<u8>,
    masks: Vec<u64>,
    entries: Vec<u16>,
}

impl Pools {
    /// Reads the pools, which stand one behind the other.
    ///
    /// # Panics
    ///
    /// If there are not [`SIZE`] bytes.
    pub fn read(data: &[u8]) -> Pools {
        assert_eq!(data.len(), SIZE, "bytes of the pools");
        let mut reader = Reader::new(data);
        let bytes = reader.bytes(BYTES).to_vec();
        let masks = (0..MASKS).map(|_| reader.u64()).collect();
        let entries = (0..ENTRIES).map(|_| reader.u16()).collect();
        Pools {
            bytes,
            masks,
            entries,
        }
    }

    pub fn bytes(&self, start: u16, count: usize) -> Vec<u8> {
        part(&self.bytes, start.into(), count)
    }

    pub fn masks(&self, start: u8, count: usize) -> Vec<u64> {
        part(&self.masks, start.into(), count)
    }

    pub fn entries(&self, start: u16, count: usize) -> Vec<u16> {
        part(&self.entries, start.into(), count)
    }
}

/// Elements from `start` on, and where the pool ends, from its front.
fn part<T: Copy>(pool: &[T], start: usize, count: usize) -> Vec<T> {
    let from_start = pool[start..].iter().chain(pool.iter().cycle());
    from_start.copied().take(count).collect()
}
