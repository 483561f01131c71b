//! A decoding, with the fields that the base had.

/// What decoding gives. After a refusal, every field but the status is 0.
#[derive(Debug, Clone, Copy, Default, PartialEq, Eq)]
pub struct Decoded {
    pub status: u32,
    pub length: u32,
    pub memory: u32,
    pub mnemonic: u32,
    pub bits: u32,
    pub evex: u32,
    pub destination: u32,
    pub first: u32,
    pub third: u32,
    pub mask: u32,
    pub zeroing: u32,
    pub broadcast: u32,
    pub has_immediate: u32,
    pub immediate: u32,
}

impl Decoded {
    pub fn refused(status: u32) -> Decoded {
        Decoded {
            status,
            ..Decoded::default()
        }
    }

    /// In the order in which their digest takes them.
    pub fn fields(&self) -> [u32; 14] {
        [
            self.status,
            self.length,
            self.memory,
            self.mnemonic,
            self.bits,
            self.evex,
            self.destination,
            self.first,
            self.third,
            self.mask,
            self.zeroing,
            self.broadcast,
            self.has_immediate,
            self.immediate,
        ]
    }
}
