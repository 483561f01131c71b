//! How an instruction names its memory operand: the audit's own reading of ModRM, SIB and
//! displacement.

/// What index and displacement are added to.
#[derive(Debug, Clone, Copy, PartialEq, Eq)]
pub enum Base {
    Register(usize),
    NextInstruction,
    None,
}

/// A memory operand as an instruction names it.
#[derive(Debug, Clone, Copy, PartialEq, Eq)]
pub struct Operand {
    /// ModRM.mod.
    pub mode: u8,
    pub has_sib: bool,
    pub base: Base,
    /// Register and scale.
    pub index: Option<(usize, u64)>,
    /// In bytes.
    pub displacement: i64,
    /// Where the displacement stands in the instruction.
    pub displacement_at: usize,
    /// What a displacement of one byte counts: under VEX, 1.
    pub unit: i64,
}

impl Operand {
    /// Takes a complete VEX or EVEX instruction apart. A register form has no memory operand.
    /// `unit` is what an EVEX one-byte displacement counts.
    pub fn of(code: &[u8], unit: usize) -> Option<Operand> {
        let (modrm_at, extension) = match code[0] {
            0xC5 => (3, 0),
            0xC4 => (4, !code[1]),
            _ => (5, !code[1]),
        };
        let (x, b) = (extension >> 6 & 1, extension >> 5 & 1);
        let modrm = code[modrm_at];
        let (mode, rm) = (modrm >> 6, modrm & 7);
        if mode == 3 {
            return None;
        }
        let mut displacement_at = modrm_at + 1;
        let mut base_bits = rm;
        let mut index = None;
        if rm == 4 {
            let sib = code[displacement_at];
            displacement_at += 1;
            base_bits = sib & 7;
            let number = register(x, sib >> 3 & 7);
            index = (number != 4).then_some((number, 1 << (sib >> 6)));
        }
        let base = match (mode, rm, base_bits) {
            (0, 5, _) => Base::NextInstruction,
            (0, 4, 5) => Base::None,
            _ => Base::Register(register(b, base_bits)),
        };
        let unit = if code[0] == 0x62 { unit as i64 } else { 1 };
        Some(Operand {
            mode,
            has_sib: rm == 4,
            base,
            index,
            displacement: displacement(mode, base, &code[displacement_at..], unit),
            displacement_at,
            unit,
        })
    }

    /// Whether it is a number alone, with neither base nor index.
    pub fn is_absolute(&self) -> bool {
        self.base == Base::None && self.index.is_none()
    }

    fn is_relative(&self) -> bool {
        self.base == Base::NextInstruction
    }

    fn has_base(&self) -> bool {
        matches!(self.base, Base::Register(_))
    }

    /// Whether a displacement of one byte counts more than bytes.
    fn is_multiplied(&self) -> bool {
        self.mode == 1 && self.unit > 1
    }
}

fn displacement(mode: u8, base: Base, bytes: &[u8], unit: i64) -> i64 {
    let has_base = matches!(base, Base::Register(_));
    match (mode, has_base, bytes) {
        (0, true, _) => 0,
        (1, _, &[byte, ..]) => i64::from(byte as i8) * unit,
        (_, _, &[a, b, c, d, ..]) => i64::from(i32::from_le_bytes([a, b, c, d])),
        _ => 0,
    }
}

fn register(high: u8, low: u8) -> usize {
    usize::from(high << 3 | low)
}

/// Whether a memory operand at an address is of some kind.
type Test = fn(&Operand, u64) -> bool;

/// The ways to name memory that a report counts.
pub const WAYS: [(&str, Test); 16] = [
    ("mod 0", |operand, _| operand.mode == 0),
    ("mod 1", |operand, _| operand.mode == 1),
    ("mod 2", |operand, _| operand.mode == 2),
    ("negative displacement", |operand, _| {
        operand.displacement < 0
    }),
    ("counted in vectors", |operand, _| {
        operand.is_multiplied() && operand.unit >= 16
    }),
    ("counted in elements", |operand, _| {
        operand.is_multiplied() && operand.unit < 16
    }),
    ("base also index", |operand, _| match operand.index {
        Some((index, _)) => operand.base == Base::Register(index),
        None => false,
    }),
    ("from 4 GiB on", |_, address| address >= 1 << 32),
    ("base alone", |operand, _| {
        operand.has_base() && operand.index.is_none()
    }),
    ("base and index", |operand, _| {
        operand.has_base() && operand.index.is_some()
    }),
    ("index alone", |operand, _| {
        operand.base == Base::None && operand.index.is_some()
    }),
    ("absolute", |operand, _| operand.is_absolute()),
    ("rip-relative", |operand, _| operand.is_relative()),
    ("rip-relative backwards", |operand, _| {
        operand.is_relative() && operand.displacement < 0
    }),
    ("SIB without index", |operand, _| {
        operand.has_sib && operand.index.is_none()
    }),
    ("index r12", |operand, _| {
        matches!(operand.index, Some((12, _)))
    }),
];

#[cfg(test)]
mod tests {
    use super::{Base, Operand};

    /// Base, index and displacement.
    fn parts(code: &[u8]) -> (Base, Option<(usize, u64)>, i64) {
        let operand = Operand::of(code, 64).expect("a memory form");
        (operand.base, operand.index, operand.displacement)
    }

    #[test]
    fn register_forms_name_no_memory() {
        assert_eq!(Operand::of(&[0xC5, 0xF9, 0x70, 0xCA, 0x1B], 0), None);
    }

    #[test]
    fn b_and_x_count() {
        // vpshufd xmm1, [rbp + 0x10], 0x1b; [r13 + 0x10]
        let base = |number| (Base::Register(number), None, 0x10);
        assert_eq!(parts(&[0xC5, 0xF9, 0x70, 0x4D, 0x10, 0x1B]), base(5));
        assert_eq!(parts(&[0xC4, 0xC1, 0x79, 0x70, 0x4D, 0x10, 0x1B]), base(13));
        // [rax + r12*8], where X 0 is [rax]
        let code = [0xC4, 0xA1, 0x79, 0x70, 0x0C, 0xE0, 0x1B];
        assert_eq!(parts(&code), (Base::Register(0), Some((12, 8)), 0));
        let code = [0xC4, 0xE1, 0x79, 0x70, 0x0C, 0xE0, 0x1B];
        assert_eq!(parts(&code), (Base::Register(0), None, 0));
    }

    #[test]
    fn mode_0_with_5_has_no_base_register() {
        // [rip - 2], [rcx*2 - 2], [-2]; the same with B 1
        let number = [0xFE, 0xFF, 0xFF, 0xFF, 0x1B];
        for p in [0xE1, 0xC1] {
            let with = |operand: &[u8]| [&[0xC4, p, 0x79, 0x70], operand, &number].concat();
            assert_eq!(parts(&with(&[0x0D])), (Base::NextInstruction, None, -2));
            let index = Some((1, 2));
            assert_eq!(parts(&with(&[0x0C, 0x4D])), (Base::None, index, -2));
            assert_eq!(parts(&with(&[0x0C, 0x25])), (Base::None, None, -2));
        }
    }

    #[test]
    fn evex_alone_multiplies_one_byte() {
        let base = |displacement| (Base::Register(0), None, displacement);
        let vex = [0xC5, 0xF9, 0x70, 0x48, 0xFF, 0x1B];
        assert_eq!(parts(&vex), base(-1));
        for (byte, displacement) in [(0xFF, -64), (0x80, -8_192), (0x7F, 8_128)] {
            let evex = [0x62, 0xF1, 0x7D, 0x48, 0x70, 0x48, byte, 0x1B];
            assert_eq!(parts(&evex), base(displacement));
        }
        let four = [
            0x62, 0xF1, 0x7D, 0x48, 0x70, 0x88, 0xFE, 0xFF, 0xFF, 0xFF, 0x1B,
        ];
        assert_eq!(parts(&four), base(-2));
    }
}
