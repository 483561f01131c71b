//! Encodings with one reserved field wrong: #UD.

use crate::encoding::Fields;
use crate::random::Random;
use crate::shape::{Operand, Prefix, Shape};
use reference::Field;

/// The six kinds of status 4, in the order that a decoder looks at them.
pub const FIELDS: [Field; 6] = [
    Field::FixedBits,
    Field::W,
    Field::Width,
    Field::Vvvv,
    Field::Broadcast,
    Field::Zeroing,
];

/// The field in words.
pub fn field_name(field: Field) -> &'static str {
    match field {
        Field::FixedBits => "EVEX fixed bits",
        Field::W => "VEX W",
        Field::Width => "vector width",
        Field::Vvvv => "unused vvvv or V'",
        Field::Broadcast => "b",
        Field::Zeroing => "z with mask 0",
    }
}

/// The reason that an engine has to give for it.
pub fn reason(field: Field) -> u32 {
    match field {
        Field::FixedBits => 1,
        Field::W => 2,
        Field::Width => 3,
        Field::Vvvv => 4,
        Field::Broadcast => 5,
        Field::Zeroing => 6,
    }
}

/// Whether an encoding of this shape can have this field wrong. With APX, P bit 3 and Q bit 2 have a
/// meaning, so that no bit is fixed.
pub fn applies(shape: Shape, field: Field, apx: bool) -> bool {
    let row = shape.row;
    match field {
        Field::FixedBits => shape.is_evex() && !apx,
        Field::Zeroing => shape.is_evex(),
        Field::W => shape.prefix == Prefix::Vex3 && !row.vex_any_w,
        Field::Width => shape.is_evex() || row.vex_l == [1],
        Field::Vvvv => !row.first,
        Field::Broadcast => match shape.operand {
            Operand::Register => shape.is_evex(),
            Operand::Memory => shape.is_evex() && row.broadcast.is_none(),
            Operand::Broadcast => false,
        },
    }
}

/// Makes one field of an accepted encoding wrong.
pub fn damage(fields: &mut Fields, field: Field, random: &mut Random) {
    let is_evex = fields.prefix == Prefix::Evex;
    match field {
        Field::FixedBits => {
            // Any of the four values of the two bits but the right one.
            let wrong = 1 + random.below(3);
            fields.fixed_p = wrong & 1;
            fields.fixed_q = 1 - (wrong >> 1);
        }
        Field::W => fields.w = 1,
        Field::Width => fields.width = if is_evex { 3 } else { 0 },
        Field::Vvvv => {
            let values = if is_evex { 31 } else { 15 };
            fields.first = 1 + random.below(values);
        }
        Field::Broadcast => fields.broadcast = 1,
        Field::Zeroing => {
            // The accepted encoding is the one with mask 0.
            fields.mask = 0;
            fields.zeroing = 1;
        }
    }
}
