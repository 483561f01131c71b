//! Instructions with wrong reserved fields, one or several at once (request 3).

use crate::encoding::{Prefix, Shape};
use crate::random::Random;
use std::sync::LazyLock;

/// A reserved field. Of several wrong ones, the least is the reason.
#[derive(Debug, Clone, Copy, PartialEq, Eq, PartialOrd, Ord)]
pub enum Field {
    /// Bit 3 of an EVEX prefix's second byte, and bit 2 of its third.
    FixedBits,
    W,
    Width,
    /// vvvv, and under EVEX V'.
    Vvvv,
    Broadcast,
    Zeroing,
}

/// Two fields that are wrong at once, the lesser first.
pub type Pair = [Field; 2];

impl Field {
    pub const ALL: [Field; 6] = [
        Field::FixedBits,
        Field::W,
        Field::Width,
        Field::Vvvv,
        Field::Broadcast,
        Field::Zeroing,
    ];

    /// Its number as a reason.
    pub fn number(self) -> u32 {
        match self {
            Field::FixedBits => 1,
            Field::W => 2,
            Field::Width => 3,
            Field::Vvvv => 4,
            Field::Broadcast => 5,
            Field::Zeroing => 6,
        }
    }

    pub fn name(self) -> &'static str {
        match self {
            Field::FixedBits => "fixed bits",
            Field::W => "W",
            Field::Width => "width",
            Field::Vvvv => "vvvv",
            Field::Broadcast => "b",
            Field::Zeroing => "z",
        }
    }

    /// Every two of the six.
    pub fn pairs() -> Vec<Pair> {
        let mut pairs = Vec::new();
        for (i, &first) in Field::ALL.iter().enumerate() {
            pairs.extend(Field::ALL[i + 1..].iter().map(|&second| [first, second]));
        }
        pairs
    }
}

impl Shape {
    /// Whether the field is there and has a wrong value that leaves the row as it is.
    pub fn has_reserved(self, field: Field) -> bool {
        let row = self.row;
        let evex = self.prefix == Prefix::Evex;
        match field {
            Field::FixedBits | Field::Zeroing => evex,
            // C5 has no W. Under EVEX the other W is another row or none, or just as good.
            Field::W => self.prefix == Prefix::Vex3 && !row.vex_any_w,
            Field::Width => evex || row.vex_l == [1],
            Field::Vvvv => !row.first,
            Field::Broadcast => evex && !(self.memory && row.broadcast),
        }
    }

    /// Makes a field wrong that can be, in any of the ways that there are.
    fn spoil(self, code: &mut [u8], field: Field, random: &mut Random) {
        let evex = self.prefix == Prefix::Evex;
        match field {
            Field::FixedBits => {
                // Either of the two bits, or both.
                let wrong = 1 + random.below(3) as u8;
                code[1] ^= (wrong & 1) << 3;
                code[2] ^= (wrong & 2) << 1;
            }
            Field::W => code[2] |= 0x80,
            Field::Width => self.set_width(code, if evex { 3 } else { 0 }),
            // All ones are stored for number 0.
            Field::Vvvv => {
                let others = usize::from(self.registers()) - 1;
                self.set_first(code, 1 + random.below(others) as u8);
            }
            Field::Broadcast => self.set_broadcast(code, true),
            Field::Zeroing => self.set_mask(code, 0, true),
        }
    }
}

/// A shape, and the fields of it that are wrong.
#[derive(Debug, Clone)]
pub struct Wrong {
    pub shape: Shape,
    /// In their order, at least one.
    pub fields: Vec<Field>,
}

impl Wrong {
    /// Every shape with every set of fields that can be wrong in it together.
    pub fn all() -> &'static [Wrong] {
        static ALL: LazyLock<Vec<Wrong>> =
            LazyLock::new(|| Shape::all().into_iter().flat_map(sets_of).collect());
        &ALL
    }

    /// Those with one wrong field, this one.
    pub fn single(field: Field) -> Vec<&'static Wrong> {
        let all = Wrong::all().iter();
        all.filter(|wrong| wrong.fields == [field]).collect()
    }

    /// Those whose first two wrong fields are these.
    pub fn several(pair: Pair) -> Vec<&'static Wrong> {
        let all = Wrong::all().iter();
        all.filter(|wrong| wrong.fields.starts_with(&pair))
            .collect()
    }

    /// An instruction in which these fields are wrong and nothing else is. With all bytes there it
    /// answers 4, whatever the features are.
    pub fn encode(&self, random: &mut Random) -> Vec<u8> {
        let mut code = self.shape.encode(random);
        for &field in &self.fields {
            self.shape.spoil(&mut code, field, random);
        }
        code
    }

    /// The reason that comes with answer 4: the first field's number.
    pub fn reason(&self) -> u32 {
        self.fields.first().map_or(0, |field| field.number())
    }

    /// What the instruction's first `length` bytes answer, with the reason. Fixed bits are looked at
    /// once the opcode is there, the other fields once all `whole` bytes are.
    pub fn answer(&self, length: usize, whole: usize) -> (u32, u32) {
        let is_fixed = self.fields.first() == Some(&Field::FixedBits);
        let has_opcode = length > self.shape.opcode_at();
        if length >= whole || is_fixed && has_opcode {
            return (4, self.reason());
        }
        (2, 0)
    }
}

/// The pairs of fields that some shape can have wrong together.
pub fn possible_pairs() -> Vec<Pair> {
    let mut pairs = Field::pairs();
    pairs.retain(|&pair| !Wrong::several(pair).is_empty());
    pairs
}

fn sets_of(shape: Shape) -> Vec<Wrong> {
    let fields = Field::ALL
        .into_iter()
        .filter(|&field| shape.has_reserved(field));
    let mut sets = vec![Vec::new()];
    for field in fields {
        let with: Vec<_> = sets
            .iter()
            .map(|set| [&set[..], &[field]].concat())
            .collect();
        sets.extend(with);
    }
    sets.retain(|set| !set.is_empty());
    sets.into_iter()
        .map(|fields| Wrong { shape, fields })
        .collect()
}
