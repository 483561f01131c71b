//! Encodings of the supported instructions, made from the instruction table.

use crate::random::Random;

/// The prefix of an encoding, by its first byte.
#[derive(Debug, Clone, Copy, PartialEq, Eq)]
pub enum Prefix {
    /// C5 and one more byte.
    Vex2,
    /// C4 and two more bytes.
    Vex3,
    /// 62 and three more bytes.
    Evex,
}

/// A line of the instruction table.
#[derive(Debug)]
pub struct Row {
    pub name: &'static str,
    pub pp: u8,
    pub map: u8,
    pub opcode: u8,
    pub immediate: bool,
    /// Bytes of an element.
    pub element: usize,
    /// Whether vvvv names a first source.
    pub first: bool,
    /// The values of L that the VEX form has; none if there is no VEX form.
    pub vex_l: &'static [u8],
    /// Whether W may be 1 in the VEX form.
    pub vex_any_w: bool,
    /// The value of W in the EVEX form; none if there is no EVEX form.
    pub evex_w: Option<u8>,
    /// Whether W may also be the other one in the EVEX form.
    pub evex_any_w: bool,
    /// Whether the EVEX memory form may broadcast one element.
    pub broadcast: bool,
    /// The operand that says what is moved where, if no immediate does.
    pub control: Option<Control>,
}

/// The operand that a control is in.
#[derive(Debug, Clone, Copy, PartialEq, Eq)]
pub enum Control {
    First,
    Third,
}

/// What most rows with a first source have.
const TWO_SOURCES: Row = Row {
    name: "",
    pp: 1,
    map: 0,
    opcode: 0,
    immediate: false,
    element: 4,
    first: true,
    vex_l: &[0, 1],
    vex_any_w: false,
    evex_w: Some(0),
    evex_any_w: false,
    broadcast: true,
    control: None,
};

/// What the rows without a first source have.
const ONE_SOURCE: Row = Row {
    immediate: true,
    first: false,
    ..TWO_SOURCES
};

/// What the rows have whose third operand is the control.
const CONTROLLED: Row = Row {
    map: 2,
    control: Some(Control::Third),
    ..TWO_SOURCES
};

/// What the rows have that take halves of lanes in turn.
const UNPACK: Row = Row {
    map: 1,
    vex_any_w: true,
    ..TWO_SOURCES
};

#[rustfmt::skip] // one or two lines for each line of the table
pub static ROWS: [Row; 12] = [
    Row { name: "VPERMILPD", map: 3, opcode: 0x05, element: 8, evex_w: Some(1), ..ONE_SOURCE },
    Row { name: "VPERMILPD", opcode: 0x0D, element: 8, evex_w: Some(1), ..CONTROLLED },
    Row { name: "VPERMB", map: 2, opcode: 0x8D, element: 1, vex_l: &[], broadcast: false,
          control: Some(Control::First), ..TWO_SOURCES },
    Row { name: "VUNPCKLPS", pp: 0, opcode: 0x14, ..UNPACK },
    Row { name: "VPSHUFD", map: 1, opcode: 0x70, vex_any_w: true, ..ONE_SOURCE },
    Row { name: "VPERM2F128", map: 3, opcode: 0x06, element: 16, vex_l: &[1], evex_w: None,
          immediate: true, broadcast: false, ..TWO_SOURCES },
    Row { name: "VPERMILPS", map: 3, opcode: 0x04, ..ONE_SOURCE },
    Row { name: "VPERMILPS", opcode: 0x0C, ..CONTROLLED },
    Row { name: "VUNPCKHPS", pp: 0, opcode: 0x15, ..UNPACK },
    Row { name: "VUNPCKLPD", opcode: 0x14, element: 8, evex_w: Some(1), ..UNPACK },
    Row { name: "VUNPCKHPD", opcode: 0x15, element: 8, evex_w: Some(1), ..UNPACK },
    Row { name: "VPSHUFB", opcode: 0x00, element: 1, vex_any_w: true, evex_any_w: true,
          broadcast: false, ..CONTROLLED },
];

/// A row under one of its prefixes, with a register or memory as the third operand.
#[derive(Debug, Clone, Copy)]
pub struct Shape {
    pub row: &'static Row,
    pub prefix: Prefix,
    pub memory: bool,
}

impl Row {
    fn has(&self, prefix: Prefix) -> bool {
        match prefix {
            // The two-byte VEX prefix stands for map 1.
            Prefix::Vex2 => self.map == 1 && !self.vex_l.is_empty(),
            Prefix::Vex3 => !self.vex_l.is_empty(),
            Prefix::Evex => self.evex_w.is_some(),
        }
    }
}

impl Shape {
    /// Every shape that the table has.
    pub fn all() -> Vec<Shape> {
        let mut shapes = Vec::new();
        for row in &ROWS {
            for prefix in [Prefix::Vex2, Prefix::Vex3, Prefix::Evex] {
                if row.has(prefix) {
                    shapes.extend([false, true].map(|memory| Shape {
                        row,
                        prefix,
                        memory,
                    }));
                }
            }
        }
        shapes
    }

    /// Where the opcode stands; ModRM and a SIB follow it.
    pub fn opcode_at(self) -> usize {
        match self.prefix {
            Prefix::Vex2 => 2,
            Prefix::Vex3 => 3,
            Prefix::Evex => 4,
        }
    }

    /// An instruction of this shape that all features together accept. Whatever the shape leaves
    /// free is random.
    pub fn encode(self, random: &mut Random) -> Vec<u8> {
        let mut code = self.prefix_bytes(random);
        code.push(self.row.opcode);
        self.push_operands(&mut code, random);
        if self.row.immediate {
            code.push(random.byte());
        }
        code
    }

    fn prefix_bytes(self, random: &mut Random) -> Vec<u8> {
        let row = self.row;
        let vvvv = if row.first { random.bits(4) } else { 0xF };
        match self.prefix {
            Prefix::Vex2 => {
                let r = random.bits(1);
                vec![0xC5, r << 7 | vvvv << 3 | self.vex_l(random) << 2 | row.pp]
            }
            Prefix::Vex3 => {
                let rxb = random.bits(3);
                let w = if row.vex_any_w { random.bits(1) } else { 0 };
                let q = w << 7 | vvvv << 3 | self.vex_l(random) << 2 | row.pp;
                vec![0xC4, rxb << 5 | row.map, q]
            }
            Prefix::Evex => {
                let rxbr = random.bits(4);
                let any_w = row.evex_any_w && random.flag();
                let w = row.evex_w.unwrap_or(0) ^ u8::from(any_w);
                let q = w << 7 | vvvv << 3 | 1 << 2 | row.pp;
                vec![0x62, rxbr << 4 | row.map, q, self.evex_s(random)]
            }
        }
    }

    fn vex_l(self, random: &mut Random) -> u8 {
        self.row.vex_l[random.below(self.row.vex_l.len())]
    }

    /// The last byte of an EVEX prefix: z, width, b, V' and the opmask.
    fn evex_s(self, random: &mut Random) -> u8 {
        let mask = random.bits(3);
        let z = if mask == 0 { 0 } else { random.bits(1) };
        let width = random.below(3) as u8;
        let b = if self.memory && self.row.broadcast {
            random.bits(1)
        } else {
            0
        };
        let v = if self.row.first { random.bits(1) } else { 1 };
        z << 7 | width << 5 | b << 4 | v << 3 | mask
    }

    /// ModRM, and for a memory form the SIB and the displacement that it asks for.
    fn push_operands(self, code: &mut Vec<u8>, random: &mut Random) {
        let (reg, rm) = (random.bits(3), random.bits(3));
        if !self.memory {
            code.push(3 << 6 | reg << 3 | rm);
            return;
        }
        let mode = random.below(3) as u8;
        code.push(mode << 6 | reg << 3 | rm);
        let mut base = rm;
        if rm == 4 {
            let sib = random.byte();
            code.push(sib);
            base = sib & 7;
        }
        let displacement = match (mode, base) {
            (0, 5) | (2, _) => 4,
            (0, _) => 0,
            _ => 1,
        };
        code.extend(random.bytes(displacement));
    }
}
