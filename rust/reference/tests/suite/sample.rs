//! Accepted instructions built field by field, and their encoding.

use crate::support::Random;
use reference::Decoded;

#[derive(Debug, Clone, Copy, PartialEq, Eq)]
pub enum Kind {
    VpermilpdImmediate,
    VpermilpdRegister,
    Vpermb,
    Vunpcklps,
    Vpshufd,
    Vperm2f128,
    VpermilpsImmediate,
    VpermilpsRegister,
    Vunpckhps,
    Vunpcklpd,
    Vunpckhpd,
    Vpshufb,
}

pub const KINDS: [Kind; 12] = [
    Kind::VpermilpdImmediate,
    Kind::VpermilpdRegister,
    Kind::Vpermb,
    Kind::Vunpcklps,
    Kind::Vpshufd,
    Kind::Vperm2f128,
    Kind::VpermilpsImmediate,
    Kind::VpermilpsRegister,
    Kind::Vunpckhps,
    Kind::Vunpcklpd,
    Kind::Vunpckhpd,
    Kind::Vpshufb,
];

/// Mnemonic number, pp, map, opcode, element bytes, EVEX W (2 for any).
type Facts = (u32, u8, u8, u8, usize, u8);

impl Kind {
    fn facts(self) -> Facts {
        match self {
            Kind::VpermilpdImmediate => (1, 1, 3, 0x05, 8, 1),
            Kind::VpermilpdRegister => (1, 1, 2, 0x0D, 8, 1),
            Kind::Vpermb => (2, 1, 2, 0x8D, 1, 0),
            Kind::Vunpcklps => (3, 0, 1, 0x14, 4, 0),
            Kind::Vpshufd => (4, 1, 1, 0x70, 4, 0),
            Kind::Vperm2f128 => (5, 1, 3, 0x06, 16, 0),
            Kind::VpermilpsImmediate => (6, 1, 3, 0x04, 4, 0),
            Kind::VpermilpsRegister => (6, 1, 2, 0x0C, 4, 0),
            Kind::Vunpckhps => (7, 0, 1, 0x15, 4, 0),
            Kind::Vunpcklpd => (8, 1, 1, 0x14, 8, 1),
            Kind::Vunpckhpd => (9, 1, 1, 0x15, 8, 1),
            Kind::Vpshufb => (10, 1, 2, 0x00, 1, 2),
        }
    }

    pub fn element(self) -> usize {
        self.facts().4
    }

    pub fn has_immediate(self) -> bool {
        self == Kind::Vperm2f128 || !self.has_first()
    }

    pub fn has_first(self) -> bool {
        !matches!(
            self,
            Kind::VpermilpdImmediate | Kind::VpermilpsImmediate | Kind::Vpshufd
        )
    }

    /// Whether EVEX b may repeat an element from memory.
    pub fn has_broadcast(self) -> bool {
        !matches!(self, Kind::Vpermb | Kind::Vperm2f128 | Kind::Vpshufb)
    }

    /// Whether W changes nothing under VEX.
    fn has_any_vex_w(self) -> bool {
        match self {
            Kind::VpermilpdImmediate | Kind::VpermilpdRegister => false,
            Kind::VpermilpsImmediate | Kind::VpermilpsRegister => false,
            Kind::Vpermb | Kind::Vperm2f128 => false,
            Kind::Vunpcklps | Kind::Vunpckhps | Kind::Vunpcklpd | Kind::Vunpckhpd => true,
            Kind::Vpshufd | Kind::Vpshufb => true,
        }
    }

    pub fn is_mappable(self) -> bool {
        !matches!(
            self,
            Kind::VpermilpdRegister | Kind::VpermilpsRegister | Kind::Vpermb | Kind::Vpshufb
        )
    }
}

/// The third operand: a register, or the low three bits of r/m, mod, and the bytes that follow.
#[derive(Debug, Clone, PartialEq, Eq)]
pub enum Operand {
    Register(u8),
    Memory(u8, u8, Vec<u8>),
}

#[derive(Debug, Clone)]
pub struct Sample {
    pub kind: Kind,
    pub evex: bool,
    /// 0, 1, 2 for 128, 256, 512 bits.
    pub width: u8,
    /// W where it does not matter.
    pub spare_w: u8,
    pub destination: u8,
    pub first: u8,
    pub third: Operand,
    pub mask: u8,
    pub zeroing: bool,
    pub broadcast: bool,
    pub immediate: u8,
    /// Bits that do not matter to decoding: X and B of a memory form, X of a VEX register form.
    pub spare: u8,
}

impl Sample {
    pub fn random(random: &mut Random) -> Sample {
        let kind = random.pick(&KINDS);
        Sample::of_kind(random, kind)
    }

    /// A sample that a byte map can describe.
    pub fn mappable(random: &mut Random) -> Sample {
        loop {
            let mut sample = Sample::random(random);
            let limit = if sample.evex { 32 } else { 16 };
            sample.third = Operand::Register(random.below(limit) as u8);
            sample.broadcast = false;
            if sample.kind.is_mappable() {
                return sample;
            }
        }
    }

    fn of_kind(random: &mut Random, kind: Kind) -> Sample {
        let evex = kind == Kind::Vpermb || (kind != Kind::Vperm2f128 && random.flag());
        let limit = if evex { 32 } else { 16 };
        let third = random_operand(random, limit);
        let in_memory = matches!(third, Operand::Memory(..));
        let mask = if evex { random.below(8) as u8 } else { 0 };
        Sample {
            kind,
            evex,
            width: random_width(random, kind, evex),
            spare_w: random.below(2) as u8,
            destination: random.below(limit) as u8,
            first: random.below(limit) as u8,
            third,
            mask,
            zeroing: mask != 0 && random.flag(),
            broadcast: evex && in_memory && kind.has_broadcast() && random.flag(),
            immediate: random.byte(),
            spare: random.byte(),
        }
    }

    /// Vector width in bytes.
    pub fn bytes(&self) -> usize {
        16 << self.width
    }

    pub fn memory(&self) -> usize {
        match self.third {
            Operand::Register(_) => 0,
            Operand::Memory(..) if self.broadcast => self.kind.element(),
            Operand::Memory(..) => self.bytes(),
        }
    }

    pub fn encode(&self) -> Vec<u8> {
        let mut code = self.prefix();
        code.push(self.kind.facts().3);
        let reg = (self.destination & 7) << 3;
        match &self.third {
            Operand::Register(number) => code.push(0xC0 | reg | (number & 7)),
            Operand::Memory(mode, rm, rest) => {
                code.push((mode << 6) | reg | rm);
                code.extend(rest);
            }
        }
        if self.kind.has_immediate() {
            code.push(self.immediate);
        }
        code
    }

    fn prefix(&self) -> Vec<u8> {
        let (_, pp, map, _, _, evex_w) = self.kind.facts();
        let first = if self.kind.has_first() { self.first } else { 0 };
        let [x, b] = self.x_b();
        let r = (self.destination >> 3) & 1;
        let vvvv = (!first & 0x0F) << 3;
        if !self.evex {
            let any_w = self.kind.has_any_vex_w();
            let w = if any_w { self.spare_w } else { 0 };
            let q = vvvv | (self.width << 2) | pp;
            if map == 1 && w == 0 && b == 0 && x == 0 {
                return vec![0xC5, ((1 - r) << 7) | q];
            }
            let p = ((1 - r) << 7) | ((1 - x) << 6) | ((1 - b) << 5) | map;
            return vec![0xC4, p, (w << 7) | q];
        }
        let r2 = self.destination >> 4;
        let p = ((1 - r) << 7) | ((1 - x) << 6) | ((1 - b) << 5) | ((1 - r2) << 4) | map;
        let w = if evex_w == 2 { self.spare_w } else { evex_w };
        let q = (w << 7) | vvvv | 4 | pp;
        let flags = (u8::from(self.zeroing) << 7) | (u8::from(self.broadcast) << 4);
        let v2 = 1 - (first >> 4);
        vec![
            0x62,
            p,
            q,
            flags | (self.width << 5) | (v2 << 3) | self.mask,
        ]
    }

    /// X and B, not inverted.
    fn x_b(&self) -> [u8; 2] {
        let spare = [self.spare & 1, (self.spare >> 1) & 1];
        match self.third {
            Operand::Register(number) if self.evex => [number >> 4, (number >> 3) & 1],
            Operand::Register(number) => [spare[0], number >> 3],
            Operand::Memory(..) => spare,
        }
    }

    /// The decoding that document 01 asks for.
    pub fn expected(&self) -> Decoded {
        let third = match self.third {
            Operand::Register(number) => number,
            Operand::Memory(..) => 0,
        };
        let has_immediate = self.kind.has_immediate();
        let first = if self.kind.has_first() { self.first } else { 0 };
        Decoded {
            status: 0,
            length: self.encode().len() as u32,
            memory: self.memory() as u32,
            mnemonic: self.kind.facts().0,
            bits: 128 << self.width,
            evex: u32::from(self.evex),
            destination: u32::from(self.destination),
            first: u32::from(first),
            third: u32::from(third),
            mask: u32::from(self.mask),
            zeroing: u32::from(self.zeroing),
            broadcast: u32::from(self.broadcast),
            has_immediate: u32::from(has_immediate),
            immediate: if has_immediate {
                u32::from(self.immediate)
            } else {
                0
            },
            reason: 0,
        }
    }

    /// Needed features, by the sentence below document 01's table, and by request 1.
    pub fn needed(&self) -> u32 {
        match (self.evex, self.kind, self.width) {
            (false, Kind::Vpshufd | Kind::Vpshufb, 1) => 2,
            (false, _, _) => 1,
            (true, Kind::Vpermb, 2) => 16,
            (true, Kind::Vpermb, _) => 16 + 8,
            (true, Kind::Vpshufb, 2) => 32,
            (true, Kind::Vpshufb, _) => 32 + 8,
            (true, _, 2) => 4,
            (true, _, _) => 4 + 8,
        }
    }
}

fn random_width(random: &mut Random, kind: Kind, evex: bool) -> u8 {
    match (kind, evex) {
        (Kind::Vperm2f128, _) => 1,
        (_, true) => random.below(3) as u8,
        (_, false) => random.below(2) as u8,
    }
}

fn random_operand(random: &mut Random, limit: usize) -> Operand {
    if random.flag() {
        return Operand::Register(random.below(limit) as u8);
    }
    let sib_base_5 = (random.byte() & 0xF8) | 5;
    let sib_base_6 = (random.byte() & 0xF8) | 6;
    let (mode, rm, sib, displacement) = match random.below(8) {
        0 => (0, random.pick(&[0, 1, 2, 3, 6, 7]), None, 0),
        1 => (0, 5, None, 4),
        2 => (0, 4, Some(sib_base_6), 0),
        3 => (0, 4, Some(sib_base_5), 4),
        4 => (1, random.pick(&[0, 1, 2, 3, 5, 6, 7]), None, 1),
        5 => (1, 4, Some(sib_base_5), 1),
        6 => (2, random.pick(&[0, 1, 2, 3, 5, 6, 7]), None, 4),
        _ => (2, 4, Some(sib_base_5), 4),
    };
    let mut rest: Vec<u8> = sib.into_iter().collect();
    rest.extend(random.bytes(displacement));
    Operand::Memory(mode, rm, rest)
}
