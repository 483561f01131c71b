//! The instruction table (document 01, "The instruction table", and request 1).

use crate::prefix::{Encoding, Prefix};

#[derive(Debug, Clone, Copy, PartialEq, Eq)]
pub(crate) enum Mnemonic {
    Vpermilpd,
    Vpermb,
    Vunpcklps,
    Vpshufd,
    Vperm2f128,
    Vpermilps,
    Vunpckhps,
    Vunpcklpd,
    Vunpckhpd,
    Vpshufb,
}

impl Mnemonic {
    /// The number in a decoding.
    pub(crate) fn number(self) -> u32 {
        match self {
            Mnemonic::Vpermilpd => 1,
            Mnemonic::Vpermb => 2,
            Mnemonic::Vunpcklps => 3,
            Mnemonic::Vpshufd => 4,
            Mnemonic::Vperm2f128 => 5,
            Mnemonic::Vpermilps => 6,
            Mnemonic::Vunpckhps => 7,
            Mnemonic::Vunpcklpd => 8,
            Mnemonic::Vunpckhpd => 9,
            Mnemonic::Vpshufb => 10,
        }
    }

    /// The name in a listing.
    pub(crate) fn name(self) -> &'static str {
        match self {
            Mnemonic::Vpermilpd => "VPERMILPD",
            Mnemonic::Vpermb => "VPERMB",
            Mnemonic::Vunpcklps => "VUNPCKLPS",
            Mnemonic::Vpshufd => "VPSHUFD",
            Mnemonic::Vperm2f128 => "VPERM2F128",
            Mnemonic::Vpermilps => "VPERMILPS",
            Mnemonic::Vunpckhps => "VUNPCKHPS",
            Mnemonic::Vunpcklpd => "VUNPCKLPD",
            Mnemonic::Vunpckhpd => "VUNPCKHPD",
            Mnemonic::Vpshufb => "VPSHUFB",
        }
    }
}

/// The VEX column: what a row allows beside 256 bits and W 0.
#[derive(Debug, Clone, Copy)]
pub(crate) struct VexForms {
    pub allows_128: bool,
    pub allows_w1: bool,
}

/// The EVEX column: the W that a row's EVEX forms have.
#[derive(Debug, Clone, Copy)]
pub(crate) enum EvexW {
    Is(u8),
    Any,
}

#[derive(Debug, Clone, Copy)]
pub(crate) struct Row {
    pub mnemonic: Mnemonic,
    pub vex: Option<VexForms>,
    pub evex: Option<EvexW>,
    pub pp: u8,
    pub map: u8,
    pub opcode: u8,
    pub has_immediate: bool,
    /// Bytes of an element.
    pub element: usize,
    pub has_first_source: bool,
    pub allows_broadcast: bool,
}

const BOTH_WIDTHS_W0: Option<VexForms> = Some(VexForms {
    allows_128: true,
    allows_w1: false,
});
const BOTH_WIDTHS_ANY_W: Option<VexForms> = Some(VexForms {
    allows_128: true,
    allows_w1: true,
});
const ONLY_256_W0: Option<VexForms> = Some(VexForms {
    allows_128: false,
    allows_w1: false,
});

const EVEX_W0: Option<EvexW> = Some(EvexW::Is(0));
const EVEX_W1: Option<EvexW> = Some(EvexW::Is(1));
const EVEX_ANY_W: Option<EvexW> = Some(EvexW::Any);

pub(crate) const ROWS: [Row; 12] = [
    Row {
        mnemonic: Mnemonic::Vpermilpd,
        vex: BOTH_WIDTHS_W0,
        evex: EVEX_W1,
        pp: 1,
        map: 3,
        opcode: 0x05,
        has_immediate: true,
        element: 8,
        has_first_source: false,
        allows_broadcast: true,
    },
    Row {
        mnemonic: Mnemonic::Vpermilpd,
        vex: BOTH_WIDTHS_W0,
        evex: EVEX_W1,
        pp: 1,
        map: 2,
        opcode: 0x0D,
        has_immediate: false,
        element: 8,
        has_first_source: true,
        allows_broadcast: true,
    },
    Row {
        mnemonic: Mnemonic::Vpermb,
        vex: None,
        evex: EVEX_W0,
        pp: 1,
        map: 2,
        opcode: 0x8D,
        has_immediate: false,
        element: 1,
        has_first_source: true,
        allows_broadcast: false,
    },
    Row {
        mnemonic: Mnemonic::Vunpcklps,
        vex: BOTH_WIDTHS_ANY_W,
        evex: EVEX_W0,
        pp: 0,
        map: 1,
        opcode: 0x14,
        has_immediate: false,
        element: 4,
        has_first_source: true,
        allows_broadcast: true,
    },
    Row {
        mnemonic: Mnemonic::Vpshufd,
        vex: BOTH_WIDTHS_ANY_W,
        evex: EVEX_W0,
        pp: 1,
        map: 1,
        opcode: 0x70,
        has_immediate: true,
        element: 4,
        has_first_source: false,
        allows_broadcast: true,
    },
    Row {
        mnemonic: Mnemonic::Vperm2f128,
        vex: ONLY_256_W0,
        evex: None,
        pp: 1,
        map: 3,
        opcode: 0x06,
        has_immediate: true,
        element: 16,
        has_first_source: true,
        allows_broadcast: false,
    },
    Row {
        mnemonic: Mnemonic::Vpermilps,
        vex: BOTH_WIDTHS_W0,
        evex: EVEX_W0,
        pp: 1,
        map: 3,
        opcode: 0x04,
        has_immediate: true,
        element: 4,
        has_first_source: false,
        allows_broadcast: true,
    },
    Row {
        mnemonic: Mnemonic::Vpermilps,
        vex: BOTH_WIDTHS_W0,
        evex: EVEX_W0,
        pp: 1,
        map: 2,
        opcode: 0x0C,
        has_immediate: false,
        element: 4,
        has_first_source: true,
        allows_broadcast: true,
    },
    Row {
        mnemonic: Mnemonic::Vunpckhps,
        vex: BOTH_WIDTHS_ANY_W,
        evex: EVEX_W0,
        pp: 0,
        map: 1,
        opcode: 0x15,
        has_immediate: false,
        element: 4,
        has_first_source: true,
        allows_broadcast: true,
    },
    Row {
        mnemonic: Mnemonic::Vunpcklpd,
        vex: BOTH_WIDTHS_ANY_W,
        evex: EVEX_W1,
        pp: 1,
        map: 1,
        opcode: 0x14,
        has_immediate: false,
        element: 8,
        has_first_source: true,
        allows_broadcast: true,
    },
    Row {
        mnemonic: Mnemonic::Vunpckhpd,
        vex: BOTH_WIDTHS_ANY_W,
        evex: EVEX_W1,
        pp: 1,
        map: 1,
        opcode: 0x15,
        has_immediate: false,
        element: 8,
        has_first_source: true,
        allows_broadcast: true,
    },
    Row {
        mnemonic: Mnemonic::Vpshufb,
        vex: BOTH_WIDTHS_ANY_W,
        evex: EVEX_ANY_W,
        pp: 1,
        map: 2,
        opcode: 0x00,
        has_immediate: false,
        element: 1,
        has_first_source: true,
        allows_broadcast: false,
    },
];

/// Finds the row of a prefix and opcode: VEX without W, EVEX with W; the width is no part of it.
pub(crate) fn find(prefix: &Prefix) -> Option<&'static Row> {
    ROWS.iter().find(|row| row.matches(prefix))
}

impl Row {
    fn matches(&self, prefix: &Prefix) -> bool {
        let same = self.opcode == prefix.opcode && self.map == prefix.map && self.pp == prefix.pp;
        same && match (prefix.encoding, self.evex) {
            (Encoding::Vex, _) => self.vex.is_some(),
            (Encoding::Evex, None) => false,
            (Encoding::Evex, Some(EvexW::Is(w))) => prefix.w == w,
            (Encoding::Evex, Some(EvexW::Any)) => true,
        }
    }

    /// Whether a register holds the control: VPERMB, VPSHUFB, and both VPERMIL without imm8.
    pub(crate) fn has_register_control(&self) -> bool {
        match self.mnemonic {
            Mnemonic::Vpermb | Mnemonic::Vpshufb => true,
            Mnemonic::Vpermilpd | Mnemonic::Vpermilps => !self.has_immediate,
            Mnemonic::Vpshufd | Mnemonic::Vperm2f128 => false,
            Mnemonic::Vunpcklps | Mnemonic::Vunpckhps => false,
            Mnemonic::Vunpcklpd | Mnemonic::Vunpckhpd => false,
        }
    }
}
