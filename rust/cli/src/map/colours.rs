//! A colour for each source register.

use crate::places::REGISTERS;

/// Light enough for black digits on them. Hues go on by the golden angle and each line has its own
/// lightness, so that registers with near numbers look different. Where two still look alike, the
/// digits tell them apart.
#[rustfmt::skip] // eight registers a line
pub const COLOURS: [&str; REGISTERS] = [
    "#a6d2f2", "#f2a6bc", "#a6f2a6", "#bca6f2", "#f2d2a6", "#a6f2e9", "#f2a6e5", "#cff2a6",
    "#7990d8", "#d87d79", "#79d899", "#b479d8", "#d8d079", "#79c4d8", "#d879a8", "#8cd879",
    "#cecafc", "#fcddca", "#cafceb", "#facafc", "#effcca", "#cae1fc", "#fccad2", "#cafcd0",
    "#b598dd", "#ddc998", "#98dcdd", "#dd98c8", "#b4dd98", "#98a0dd", "#dda398", "#98ddb8",
];
